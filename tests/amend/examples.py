"""Runs worked examples of amend. The first argument is the program, the second a folder to work in,
the third the file of examples.

An example is a line `$ OPTIONS`, lines `@ NAME` that begin a file, lines `< LINE` of it before the
call, and lines `> LINE` of it afterwards; a file without these stays. A line `~ NAME` is a file
that is left, in order, and a line `! TEXT` a refusal. `\\r`, `\\t` and `\\xHH` stand for bytes.
Whatever else is in the file is no part of an example."""
import re
import shlex
import sys

import runs


def bytes_of(text):
    raw = re.split(rb"(\\r|\\t|\\x[0-9a-f]{2})", text.encode())
    short = {b"\\r": b"\r", b"\\t": b"\t"}
    made = [
        (short.get(part) or bytes([int(part[2:], 16)])) if k % 2 else part
        for k, part in enumerate(raw)
    ]
    return b"".join(made)


def read_examples(name):
    examples = []
    with open(name, encoding="utf-8") as file:
        for line in file.read().split("\n"):
            sign, text = line[:1], line[2:]
            if sign == "$":
                examples.append((text, {}, {}, [], []))
                continue
            if not examples:
                continue
            _, before, after, left, refusals = examples[-1]
            if sign == "@":
                path = text
            elif sign == "<":
                before[path] = before.get(path, b"") + bytes_of(text) + b"\n"
            elif sign == ">":
                after[path] = after.get(path, b"") + bytes_of(text) + b"\n"
            elif sign == "~":
                left.append(f"left {text}")
            elif sign == "!":
                refusals.append(text)
    return examples


def main():
    program, room, name = sys.argv[1:]
    root = room + "/tree"
    examples = read_examples(name)
    for options, before, after, left, refusals in examples:
        words = shlex.split(options)
        runs.write_tree(root, before)
        status, out, err = runs.call(program, root, "amend", *words, "--recursive", ".")
        if (status, err) != ((1, f"reuse-undo: {refusals[0]}\n") if refusals else (0, "")):
            sys.exit(f"{options}: status {status}, {out}{err}")
        if [line for line in out.split("\n") if line.startswith("left ")] != left:
            sys.exit(f"{options}: {out}and not {left}")
        made = runs.read_tree(root)
        wanted = {**before, **after}
        for path in sorted(set(made) | set(wanted)):
            if made.get(path) != wanted.get(path):
                sys.exit(f"{options}: {path} is {made.get(path)}\nand not {wanted.get(path)}")
        # The rules told once more say the same.
        fault, _ = runs.fault_of(program, root, before, words)
        if fault:
            sys.exit(f"{options}: {fault}")
    leave = sum(bool(example[3]) for example in examples)
    print(f"{len(examples)} worked examples, of which {leave} leave files")


main()
