"""What amend does at each path of a tree, told once more by docs/RULES.md alone."""
import everywhere
import left
import tables
from retelling import (
    STYLES, Refused, amend_file, amend_neighbour, is_covered, is_table, is_text, style_of,
)


def made_of(tree, path, amendments, style, own):
    """The path that is written for a file, and its bytes."""
    place = path + ".license" if path + ".license" in tree else path
    name = style or style_of(path, own)
    if is_table(path):
        return path, tables.amend_table(tree[path], amendments)
    if amendments.everywhere:
        if place != path and not is_text(tree[place]):
            raise Refused("neighbour is not text")
        return place, everywhere.amend_text(tree[place], amendments)
    if place != path:
        return place, amend_neighbour(tree[place], amendments)
    if name in STYLES and is_text(tree[path]):
        return path, amend_file(tree[path], name, amendments)
    return path, tree[path]


SKIPPED = "skipped"


def is_gone_through(path):
    return is_covered(path) or is_table(path)


def outcomes_of(tree, paths, change):
    """For each of these files, in byte order: its path; the path that changes and its bytes, which
    are None if it goes, or None, or that the file is skipped, or a refusal; and whether the file is
    left. `change` answers of a path the path to be written and its bytes, or None for both, and
    whether the path is left."""
    for path in sorted(paths, key=str.encode):
        try:
            place, made, is_left = change(path)
        except Refused as refused:
            yield path, f"{path}: {refused}", False
            continue
        if place is None:
            yield path, SKIPPED, False
        else:
            yield path, (place, made) if made != tree.get(place) else None, is_left


def outcomes(tree, amendments, style=None, own={}):
    """The same of amend, for each file that is gone through."""
    def change(path):
        place, made = made_of(tree, path, amendments, style, own)
        return place, made, not is_table(path) and left.still_names(made, amendments)

    return outcomes_of(tree, filter(is_gone_through, tree), change)
