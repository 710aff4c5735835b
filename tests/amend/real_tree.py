"""Compares amend with its rules told once more, on the files of a folder. Arguments: the program, a
folder to work in, the folder with the files, and the options of the call."""
import sys

import runs


def main():
    program, room, folder = sys.argv[1:4]
    tree = runs.read_tree(folder)
    fault, became = runs.fault_of(program, room, tree, sys.argv[4:])
    if fault:
        sys.exit(fault[:2000])
    print(len(tree), *became)


main()
