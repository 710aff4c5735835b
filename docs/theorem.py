#!/usr/bin/env python3
"""Prints the headline, the contract of `drive`, and each definition that it stands on, from the
sources, in the order in which they are first needed. It ends at what a command makes of a tree
(`outcome_of`, `path_outcomes_of`, `left_paths`): the headline holds whatever these three say.
usage: docs/theorem.py            the contract and the definitions, with their texts
       docs/theorem.py --names    a line for each definition: its file and its name
       docs/theorem.py --count    how many there are, in how many files and lines
       docs/theorem.py --all ..   the same, with all that a command makes of a tree
"""
import pathlib
import re
import sys
from dataclasses import dataclass, field

CRATES = pathlib.Path(__file__).resolve().parent.parent / "crates"
HEADLINE = CRATES / "reuse_session/src/events.rt"
ENDS = {"outcome_of", "path_outcomes_of", "left_paths"}
WORD = re.compile(r"[^\s(){}\[\],;.:→×λ∷≡≢⊎+¬↔≤<=|]+")
IMPORT = re.compile(r"^(?:ghost |pub )?use (\S+?)(?:\.\{([^}]*)\}| as (\S+?));?$", re.M)
DEFINES = re.compile(r"((?:abbrev |unfoldable |pub )*)(record |data )?([^\s:({]+)")


@dataclass
class Definition:
    comment: list
    lines: list = field(default_factory=list)


@dataclass
class File:
    imports: dict
    definitions: dict


def path_of(module):
    """The file of a module, below the folder of the crates."""
    crate, _, rest = module.removeprefix("Rattle.").partition(".specs.")
    if rest.startswith("declared."):
        return f"{crate}/src/" + rest.split(".", 1)[1].rpartition(".")[0].replace(".", "/") + ".rt"
    return f"{crate}/specs/" + rest.replace(".", "/") + ".antt"


def is_new(line, found):
    """Whether a line at the margin begins a definition, and isn't a further equation of one."""
    return found and (found[1] or found[2] or line.startswith(found[3] + " :"))


def imports_in(text):
    """The names that a text imports, each with its module."""
    found = [(it[1], it[2] or it[3]) for it in IMPORT.finditer(text)]
    return {name.strip(): module for module, names in found for name in names.split(",")}


def read_type(path, name):
    """A type of the program, as the definition of its name, or none."""
    lines = path.read_text().splitlines() if path.is_file() else []
    begins = re.compile(rf"pub (struct|enum|type) {name}\b")
    at = next((at for at, line in enumerate(lines) if begins.match(line)), None)
    if at is None:
        return None
    first = at
    while lines[first - 1].startswith(("///", "#[")):
        first -= 1
    last = next(it for it in range(at, len(lines)) if lines[it] == "}" or lines[it].endswith(";"))
    comment = [line for line in lines[first:at] if line.startswith("///")]
    return Definition(comment, lines[at : last + 1])


def read(path):
    """What a file of definitions imports and defines."""
    text = path.read_text()
    definitions, comment, last = {}, [], None
    for line in IMPORT.sub("", text).splitlines():
        found = DEFINES.match(line)
        if line.startswith("--"):
            comment = [] if line.startswith("-- ----") else [*comment, line]
        elif not line.strip():
            comment = []
        elif not line.startswith(" ") and is_new(line, found):
            last = definitions[found[3]] = Definition(comment, [line])
            comment = []
        elif last:
            last.lines.append(line)
    return File(imports_in(text), definitions)


def headline():
    """What the file of `drive` imports, and its contract."""
    text = HEADLINE.read_text()
    contract = text[text.index("/// Opens a session on the store, and makes the events") :]
    return imports_in(text), contract[: contract.index("\n{\n")]


class Sources:
    """The files of definitions and of types, each read once it is asked for."""

    def __init__(self):
        self.files = {}

    def file(self, module):
        """What a module imports and defines, or none for a module of the kit."""
        if module not in self.files:
            path = CRATES / path_of(module)
            _, _, type_path = module.partition(".specs.declared.")
            if type_path:
                name = type_path.rpartition(".")[2]
                one = read_type(path, name)
                self.files[module] = one and File({}, {name: one})
            else:
                self.files[module] = read(path) if path.is_file() else None
        return self.files[module]

    def named(self, lines, imports, module=None):
        """The definitions that the lines name, as modules and names, in their order."""
        own = self.file(module).definitions if module else {}
        for line in lines:
            for word in WORD.findall(line.split("--")[0]):
                if word in own:
                    yield module, word
                elif word in imports:
                    # A variant stands for its type.
                    target = imports[word].removesuffix(".TheVariants")
                    word = target.rpartition(".")[2] if ".declared." in target else word
                    if (file := self.file(target)) and word in file.definitions:
                        yield target, word

    def below(self, first, ends):
        """All that these stand on, themselves among it, in the order of need."""
        order, left = {}, list(first)[::-1]
        while left:
            key = left.pop()
            if key in order:
                continue
            order[key] = None
            if key[1] not in ends:
                file = self.file(key[0])
                lines = file.definitions[key[1]].lines
                left += list(self.named(lines, file.imports, key[0]))[::-1]
        return list(order)


def main(arguments):
    sources = Sources()
    imports, contract = headline()
    first = sources.named(contract.splitlines(), imports)
    order = sources.below(first, set() if "--all" in arguments else ENDS)
    texts = {key: sources.file(key[0]).definitions[key[1]] for key in order}
    if "--names" in arguments:
        for module, name in order:
            print(path_of(module), name)
    elif "--count" in arguments:
        lines = sum(len(it.lines) for it in texts.values())
        files = len({module for module, _ in order})
        print(f"{len(order)} definitions in {files} files and {lines} lines")
    else:
        print(contract)
        for (module, name), it in texts.items():
            print(f"\n-- crates/{path_of(module)}", *it.comment, *it.lines, sep="\n")


if __name__ == "__main__":
    main(sys.argv[1:])
