"""What annotate --text, amend --remove-text and amend --remove-header make of files, told once more
by docs/RULES.md alone. The tags below are data: REUSE-IgnoreStart"""
import collections
import re

import annotating
import left
import outcomes
from retelling import (
    BLANKS, MARK, STYLES, Info, Refused, Style, block_text, comment_text, header_of, is_barrier,
    is_covered, is_table, is_text, kind_of, lines_of, marks_of, neighbour_block, prefix_lines,
    style_of, tag_of,
)

LONGEST_TEXT = 65536
CONTROL = re.compile(rb"[\0-\x08\n-\x1f\x7f]")


# ---- texts

def text_of(file):
    """The lines of a text, or a refusal by its reason."""
    if len(file) > LONGEST_TEXT:
        raise Refused("text is too long")
    if not is_text(file):
        raise Refused("text is not UTF-8")
    contents = [content for content, _ in split(file)[1]]
    if any(map(CONTROL.search, contents)):
        raise Refused("text has a control byte")
    lines = [content.rstrip(BLANKS) for content in contents]
    if any(tag_of(line, left.MARKS)[0] for line in lines):
        raise Refused("text has a tag")
    if any(map(is_barrier, lines)):
        raise Refused("text has a barrier")
    if not any(lines):
        raise Refused("text is empty")
    return trimmed(lines, b"")


def trimmed(contents, punctuation):
    """Contents without blank ones at the outer ends."""
    kept = [k for k, content in enumerate(contents) if content.strip(BLANKS + punctuation)]
    return contents[kept[0]: kept[-1] + 1] if kept else []


def words_of(content, punctuation):
    return re.findall(rb"[^ \t\r]+", content.lstrip(BLANKS + punctuation))


def run_of(contents, text, punctuation):
    """The first run of contents that is the same text, as its first content and the one behind, or
    None."""
    wanted = [word for line in text for word in words_of(line, punctuation)]
    words = [words_of(content, punctuation) for content in contents]
    for start in range(len(contents)):
        found = []
        for end in range(start, len(contents)):
            found += words[end]
            if words[start] and words[end] and found == wanted:
                return start, end + 1
    return None


def holds(contents, text, punctuation):
    """Whether contents hold a text. Each hold one without words."""
    is_bare = not any(words_of(line, punctuation) for line in text)
    return is_bare or run_of(contents, text, punctuation) is not None


# ---- headers

class Reader:
    """A header block of a file in a style, or, without one, that of a neighbour."""

    def __init__(self, name):
        self.name, self.style = name, STYLES[name] if name else Style()

    def find(self, file):
        return header_of(file, self.name) if self.name else neighbour_block(file)

    def info(self, block):
        return Info(block.contents, self.style.punctuation)

    def has_tag(self, block):
        return block is not None and any(self.info(block).said())

    def prefix_count(self, lines):
        return prefix_lines([content for content, _ in lines], self.name) if self.name else 0

    def form(self, asked, block):
        """The form of a block that is written."""
        if not self.name:
            return None
        form = asked or (block and block.form) or ("line" if self.style.line else "block")
        if not getattr(self.style, form):
            raise Refused("no such form")
        return form

    def is_again(self, file, start, length, may_go_on):
        """Whether a written block is found again."""
        block = self.find(file)
        if not block or block.start != start:
            return False
        return block.end == start + length or may_go_on and block.end > start + length


def split(file):
    """The length of the byte order mark, the lines behind it, and their kind."""
    mark = len(MARK) if file.startswith(MARK) else 0
    lines = lines_of(file[mark:])
    return mark, lines, kind_of(lines)


class Change:
    """What a call does to files. `counts` are what it did to texts and headers."""

    def __init__(self, tree, style, own):
        self.tree, self.style, self.own = tree, style, own
        self.counts = collections.Counter()

    def outcomes(self, paths):
        """Those of given paths, or of all beneath the root where None are given."""
        if paths is None:
            return outcomes.outcomes_of(self.tree, filter(self.takes, self.tree), self.made_at)
        return outcomes.outcomes_of(self.tree, set(paths), self.at)

    def at(self, path):
        if not self.takes(path):
            raise Refused("not covered")
        return self.made_at(path)


# ---- annotate

class Annotation(Change):
    """`texts` are added, and `options` has `force`, `fallback`, `skip_unrecognised` and
    `skip_existing` where they are given."""

    def __init__(self, tree, additions, texts, style, own, options):
        super().__init__(tree, style, own)
        self.additions, self.texts, self.options = additions, texts, options

    def place_of(self, path):
        """The path that is written and its style, which is None of a neighbour; the path is None
        where the file is skipped."""
        beside = path + ".license"
        if "force" in self.options or beside in self.tree or not is_text(self.tree[path]):
            return beside, None
        name = self.style or style_of(path, self.own)
        if name in STYLES:
            return path, name
        if name == "uncommentable" or "fallback" in self.options:
            return beside, None
        if "skip_unrecognised" in self.options:
            return None, None
        raise Refused("unrecognised")

    def takes(self, path):
        return is_covered(path)

    def made_at(self, path):
        place, name = self.place_of(path)
        if place is None:
            return None, None, False
        file, reader = self.tree.get(place, b""), Reader(name)
        if "skip_existing" in self.options and reader.has_tag(reader.find(file)):
            return None, None, False
        if not name and not is_text(file):
            raise Refused("neighbour is not text")
        return place, self.annotated(file, reader), False

    def annotated(self, file, reader):
        found, additions = reader.find(file), self.additions
        form = reader.form(additions.form, found)
        replaced = found if additions.replaces else None
        info = annotating.joined(replaced and reader.info(replaced), additions)
        self.add_texts(info, form, reader.style)
        mark, lines, kind = split(file)
        text = block_text(info, form, reader.style, kind)
        place = annotating.place_behind(lines, mark, reader.prefix_count(lines))
        made, start = annotating.put(file, text, kind, replaced, place)
        if not reader.is_again(made, start, len(text), not (reader.name or replaced)):
            raise Refused("block would not be found again")
        return made

    def add_texts(self, info, form, style):
        """Adds what isn't there yet. A line that would end the comment is refused all the same."""
        marker, lead = marks_of(form, style)
        texts = [[line and lead[len(marker):] + line for line in text] for text in self.texts]
        if form == "block" and any(
            style.block[2].strip() in marker + line for text in texts for line in text
        ):
            raise Refused("bad text")
        for text in texts:
            if holds(info.free, text, style.punctuation):
                self.counts["held"] += 1
            else:
                info.free += ([b""] if info.free else []) + text
                self.counts["added"] += 1
        info.free = trimmed(info.free, style.punctuation)


# ---- amend

class Removal(Change):
    """Values are amended, then `texts` taken out. Without texts, which are None, headers go."""

    def __init__(self, tree, asked, texts, style, own):
        super().__init__(tree, style, own)
        self.asked, self.texts = asked, texts

    def takes(self, path):
        return outcomes.is_gone_through(path)

    def made_at(self, path):
        place, made = outcomes.made_of(self.tree, path, self.asked, self.style, self.own)
        if is_table(path):
            return place, made, False
        name = self.style or style_of(path, self.own)
        if place != path or name in STYLES and is_text(made):
            made = self.changed(made, Reader(name if place == path else None))
        # (where the neighbour goes, the file itself tells)
        telling = self.tree[path] if made is None else made
        return place, made, left.still_names(telling, self.asked)

    def changed(self, file, reader):
        """The file, or None of a neighbour of which nothing is left."""
        block = reader.find(file)
        if not block:
            return file
        made = (self.without_header if self.texts is None else self.without_texts)(
            file, block, reader)
        if made != file and not reader.name and made in (b"", MARK):
            self.counts["gone"] += 1
            return None
        return made

    def without_texts(self, file, block, reader):
        info, found = reader.info(block), 0
        for text in self.texts:
            run = run_of(info.free, text, reader.style.punctuation)
            if run:
                del info.free[slice(*run)]
                info.free = trimmed(info.free, reader.style.punctuation)
                found += 1
        if not found:
            return file
        self.counts["taken"] += found
        text = block_text(info, block.form, reader.style, split(file)[2])
        made = file[:block.start] + text + file[block.end:]
        if not reader.is_again(made, block.start, len(text), False):
            raise Refused("block would not be found again")
        return made

    def without_header(self, file, block, reader):
        if not reader.has_tag(block):
            return file
        front, free, behind = file[:block.start], reader.info(block).free, file[block.end:]
        if free:
            self.counts["bare"] += 1
            lines = [marks_of(block.form, reader.style)[0] + text for text in free]
            text = comment_text(lines, block.form, reader.style, split(file)[2])
            return front + text + behind
        self.counts["whole"] += 1
        return front + (without_empty_line(behind) if reader.name else behind)


def without_empty_line(text):
    """What follows a block that goes, without an empty line before a line that isn't empty."""
    lines = lines_of(text)
    if len(lines) > 1 and not lines[0][0] and lines[1][0]:
        return text[len(lines[0][1]):]
    return text
