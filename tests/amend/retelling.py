"""What amend makes of a tree, told once more by docs/RULES.md alone: a tree is a dictionary from
paths to bytes. The tags below are data: REUSE-IgnoreStart"""
import re

import notices

BLANKS = b" \t\r"
MARK = b"\xef\xbb\xbf"
BARRIERS = (b"REUSE-IgnoreStart", b"SPDX-SnippetBegin")
PREFIXES = {
    "spdx": "SPDX-FileCopyrightText:",
    "spdx-c": "SPDX-FileCopyrightText: (C)",
    "spdx-symbol": "SPDX-FileCopyrightText: ©",
    "spdx-string": "SPDX-FileCopyrightText: Copyright",
    "spdx-string-c": "SPDX-FileCopyrightText: Copyright (C)",
    "spdx-string-symbol": "SPDX-FileCopyrightText: Copyright ©",
    "string": "Copyright",
    "string-c": "Copyright (C)",
    "string-symbol": "Copyright ©",
    "symbol": "©",
}
LICENCE, CONTRIBUTOR = b"SPDX-License-Identifier:", b"SPDX-FileContributor:"


class Style:
    """Marker and lead of a line comment; opener, middle, closer, lead of a block; punctuation."""

    def __init__(self, line=None, block=None, punctuation=b""):
        self.line, self.block, self.punctuation = line, block, punctuation


C_BLOCK = (b"/*", b" *", b" */", b" * ")
STYLES = {
    "python": Style((b"#", b"# "), None, b"#"),
    "c": Style((b"//", b"// "), C_BLOCK, b"/*"),
    "css": Style(None, C_BLOCK, b"/*"),
    "html": Style(None, (b"<!--", b"", b"-->", b""), b"<!->"),
    "haskell": Style((b"--", b"-- "), None, b"-"),
    "tex": Style((b"%", b"% "), None, b"%"),
    "lisp": Style((b";", b";; "), None, b";"),
    "semicolon": Style((b";", b"; "), None, b";"),
    "ml": Style(None, (b"(*", b" *", b" *)", b" * "), b"(*)"),
    "vim": Style((b'"', b'" '), None, b'"'),
}
NAMES = {
    "python": ".py .sh .bash .rb .pl .yaml .yml .toml .cmake .mk .gitignore Makefile Dockerfile"
    " CMakeLists.txt",
    "c": ".c .h .cc .cpp .hpp .rs .go .java .js .ts .kt .swift .scala .php",
    "css": ".css",
    "html": ".html .htm .xml .md",
    "haskell": ".hs .lua .sql",
    "tex": ".tex .sty .cls .erl",
    "lisp": ".el .lisp .scm .clj",
    "semicolon": ".asm .ini",
    "ml": ".ml .mli",
    "vim": ".vim",
    "uncommentable": ".json .png .jpg .jpeg .gif .ico .pdf .csv .svg",
}
TABLE = {name.lower(): style for style, names in NAMES.items() for name in names.split()}


class Refused(Exception):
    """A refusal of one path, without the path."""


# ---- text

def lines_of(text):
    """Contents with their endings."""
    found = []
    for line in re.findall(rb"[^\n]*\n|[^\n]+", text):
        end = b"\r\n" if line.endswith(b"\r\n") else b"\n" if line.endswith(b"\n") else b""
        found.append((line[: len(line) - len(end)], end))
    return found


def kind_of(lines):
    return next((end for _, end in lines if end), b"\n")


def is_text(file):
    try:
        file.decode("utf-8")
    except UnicodeDecodeError:
        return False
    return b"\0" not in file


# ---- tags

def tag_of(content, punctuation):
    """The kind of a content's tag and its value; the kind is None if it has none."""
    text = content.lstrip(BLANKS + punctuation).rstrip(BLANKS)
    for name, begin in ("licence", LICENCE), ("contributor", CONTRIBUTOR):
        if text.startswith(begin):
            value = text[len(begin):].strip(BLANKS)
            return (name, value) if value else (None, content)
    if prefix_of(text):
        return "notice", text
    return None, content


def has_prefix(text, name):
    """Whether a text begins with a prefix that leaves something."""
    begin = PREFIXES[name].encode()
    fits = text.startswith(begin + b" ") or (name == "spdx" and text.startswith(begin))
    return fits and bool(text[len(begin):].strip(BLANKS))


def prefix_of(text):
    """The longest prefix that leaves something, or None."""
    fit = [(len(begin), name) for name, begin in PREFIXES.items() if has_prefix(text, name)]
    return max(fit)[1] if fit else None


class Info:
    def __init__(self, contents, punctuation):
        self.notices, self.contributors, self.licences, self.free = set(), set(), set(), []
        for content in contents:
            kind, value = tag_of(content, punctuation)
            if kind == "notice":
                self.notices.add(value)
            elif kind == "contributor":
                self.contributors.add(value)
            elif kind == "licence":
                self.licences.add(value)
            else:
                self.free.append(content)
        while self.free and not self.free[0].strip(BLANKS + punctuation):
            self.free.pop(0)
        while self.free and not self.free[-1].strip(BLANKS + punctuation):
            self.free.pop()

    def said(self):
        return self.notices, self.contributors, self.licences


# ---- blocks

class Block:
    def __init__(self, start, end, form, contents):
        self.start, self.end, self.form, self.contents = start, end, form, contents


def prefix_lines(contents, name):
    count = 1 if contents and contents[0].startswith(b"#!") else 0
    if len(contents) > count:
        line = contents[count]
        if (
            (name == "html" and line.startswith(b"<?xml"))
            or (name == "c" and line.startswith(b"<?php"))
            or (
                name == "python"
                and line.startswith(b"#")
                and not tag_of(line, STYLES[name].punctuation)[0]
                and (b"coding:" in line or b"coding=" in line)
            )
        ):
            count += 1
    return count


def is_barrier(line):
    return any(text in line for text in BARRIERS)


def block_at(opened, place, block):
    """The lines behind a multi-line block that begins at this open line, and its contents."""
    opener, middle, closer, _ = block
    closer = closer.strip()
    contents = []
    for index in range(place, len(opened)):
        line = opened[index]
        content = line[len(opener):] if index == place else line
        found = content.find(closer)
        if found >= 0 and content[found + len(closer):].strip(BLANKS):
            return None
        if found >= 0:
            content = content[:found].rstrip(BLANKS)
        if index > place and b"*" in middle:
            content = re.sub(rb"\A[ \t]*\*", b"", content)
        content = content.rstrip(b"\r")
        contents.append((content, index == place or found >= 0))
        if found >= 0:
            return index + 1, contents
    return None


def comment_blocks(opened, style):
    """Each as its first line, the line behind its last one, its form and its contents, at whose
    outer lines blank contents are left out."""
    place = 0
    while place < len(opened):
        line = opened[place]
        found = None
        if style.block and line.startswith(style.block[0]):
            found = block_at(opened, place, style.block)
        if found:
            end, contents = found
            kept = [c for c, outer in contents if not outer or c.strip(BLANKS + style.punctuation)]
            yield place, end, "block", kept
            place = end
        elif style.line and line.startswith(style.line[0]):
            end = place
            while end < len(opened) and opened[end].startswith(style.line[0]):
                end += 1
            begin = len(style.line[0])
            yield place, end, "line", [text[begin:].rstrip(b"\r") for text in opened[place:end]]
            place = end
        else:
            place += 1


def open_lines(contents, first):
    for index in range(first, len(contents)):
        if is_barrier(contents[index]):
            return contents[first:index]
    return contents[first:]


def header_of(file, name):
    """The header block of a file in a style, by its place among the file's bytes."""
    style = STYLES[name]
    mark = len(MARK) if file.startswith(MARK) else 0
    lines = lines_of(file[mark:])
    contents = [content for content, _ in lines]
    first = prefix_lines(contents, name)
    places = [mark]
    for content, end in lines:
        places.append(places[-1] + len(content) + len(end))
    for start, end, form, found in comment_blocks(open_lines(contents, first), style):
        if any(tag_of(content, style.punctuation)[0] for content in found):
            return Block(places[first + start], places[first + end], form, found)
    return None


def neighbour_block(file):
    mark = len(MARK) if file.startswith(MARK) else 0
    opened = 0
    contents = []
    for content, end in lines_of(file[mark:]):
        if is_barrier(content):
            break
        opened += len(content) + len(end)
        contents.append(content.rstrip(b"\r"))
    return Block(mark, mark + opened, None, contents)


def marks_of(form, style):
    """Marker and lead of a form, none of a neighbour's."""
    if form is None:
        return b"", b""
    return style.line if form == "line" else (style.block[1], style.block[3])


def block_text(info, form, style, end):
    marker, lead = marks_of(form, style)
    tags = sorted(info.notices) + [CONTRIBUTOR + b" " + text for text in sorted(info.contributors)]
    lines = [lead + text for text in tags]
    separator = lead.rstrip(b" ")
    if lines and info.licences:
        lines.append(separator)
    lines += [lead + LICENCE + b" " + text for text in sorted(info.licences)]
    if info.free:
        lines.append(separator)
    return comment_text(lines + [marker + text for text in info.free], form, style, end)


def comment_text(lines, form, style, end):
    """Written lines as a comment, or as they are in a neighbour."""
    if form == "block":
        if any(style.block[2].strip() in line for line in lines):
            raise Refused("holds the closer")
        lines = [style.block[0]] + lines + [style.block[2]]
    return b"".join(line + end for line in lines)


# ---- expressions

OPERATORS = (b"AND", b"OR", b"and", b"or"), (b"WITH", b"with")


def pieces_of(text):
    """The tokens of a text and the bytes between them."""
    return re.findall(rb"[()]|[A-Za-z0-9.-]+\+?|.", text, re.S)


def is_name(piece):
    is_word = re.fullmatch(rb"[A-Za-z0-9.-]+\+?", piece)
    return bool(is_word) and piece not in OPERATORS[0] + OPERATORS[1]


def is_expression(text):
    tokens = [piece for piece in pieces_of(text) if piece != b" "]
    place = 0

    def peek():
        return tokens[place] if place < len(tokens) else b""

    def atom():
        nonlocal place
        if peek() == b"(":
            place += 1
            if not expression() or peek() != b")":
                return False
            place += 1
            return True
        if not is_name(peek()):
            return False
        place += 1
        if peek() in OPERATORS[1]:
            place += 1
            if not is_name(peek()) or peek().endswith(b"+"):
                return False
            place += 1
        return True

    def expression():
        nonlocal place
        if not atom():
            return False
        while peek() in OPERATORS[0]:
            place += 1
            if not atom():
                return False
        return True

    return expression() and place == len(tokens)


def replace_licence(value, old, new):
    if value == old:
        return new
    if not is_name(old) or not is_expression(value):
        return value
    has_operator = any(piece in OPERATORS[0] + OPERATORS[1] for piece in pieces_of(new))
    made, last = [], b""
    for piece in pieces_of(value):
        replaced = piece == old and (last not in OPERATORS[1] or is_name(new))
        made.append((b"(" + new + b")" if has_operator else new) if replaced else piece)
        if piece != b" ":
            last = piece
    result = b"".join(made)
    if not is_expression(result):
        raise Refused("bad licence expression")
    return result


# ---- amendments

class Amendments:
    """`replaced` and `removed` have lists for licence, holder and contributor. `everywhere`: whether
    each tag is amended where it stands. `reads_back`: whether each notice so far is read again as
    the parts that it was put together of."""

    def __init__(self):
        self.replaced = {"licence": [], "holder": [], "contributor": []}
        self.removed = {"licence": [], "holder": [], "contributor": []}
        self.until = self.prefix = self.holder = None
        self.everywhere = False
        self.reads_back = True

    def text(self, part, text):
        for old, new in self.replaced[part]:
            if text == old:
                text = new
        return text

    def notice(self, text):
        notice = notices.read(text, PREFIXES, has_prefix)
        notice.holder = self.text("holder", notice.holder)
        if notice.holder in self.removed["holder"]:
            return None
        if self.holder is None or self.holder == notice.holder:
            if self.until:
                notice.years = notices.reach(notice.years, self.until)
            if self.prefix:
                self.begin(notice)
        written = notice.text()
        again = notices.read(written, PREFIXES, has_prefix)
        self.reads_back = self.reads_back and again.parts() == notice.parts()
        return written

    def begin(self, notice):
        """Gives a notice the prefix, unless only that and blanks stand in front."""
        begin = PREFIXES[self.prefix].encode()
        if notice.prefix != self.prefix or notice.front[len(begin):].strip(BLANKS):
            notice.prefix, notice.front = self.prefix, begin + b" "

    def licence(self, value):
        for old, new in self.replaced["licence"]:
            value = replace_licence(value, old, new)
        return value

    def amend(self, info):
        """The information amended, or None where it stays."""
        new = Info([], b"")
        new.free = info.free
        new.notices = {self.notice(text) for text in info.notices} - {None}
        contributors = {self.text("contributor", text) for text in info.contributors}
        new.contributors = contributors - set(self.removed["contributor"])
        licences = {self.licence(value) for value in info.licences}
        new.licences = licences - set(self.removed["licence"])
        if new.said() == info.said():
            return None
        if not any(new.said()):
            raise Refused("nothing left")
        return new


def rewritten(file, block, amendments, style, find):
    new = amendments.amend(Info(block.contents, style.punctuation))
    if new is None:
        return file
    mark = len(MARK) if file.startswith(MARK) else 0
    text = block_text(new, block.form, style, kind_of(lines_of(file[mark:])))
    result = file[: block.start] + text + file[block.end:]
    again = find(result)
    if not again or (again.start, again.end) != (block.start, block.start + len(text)):
        raise Refused("block would not be found again")
    return result


def amend_file(file, name, amendments):
    block = header_of(file, name)
    if not block:
        return file
    return rewritten(file, block, amendments, STYLES[name], lambda text: header_of(text, name))


def amend_neighbour(file, amendments):
    if not is_text(file):
        raise Refused("neighbour is not text")
    return rewritten(file, neighbour_block(file), amendments, Style(), neighbour_block)


# ---- trees

def is_outside(path):
    return path.split("/")[0] in ("LICENSES", ".reuse", ".git")


def is_table(path):
    return path.split("/")[-1] == "REUSE.toml" and not is_outside(path)


def is_covered(path):
    name = path.split("/")[-1]
    return not (
        is_outside(path)
        or name.endswith((".license", ".spdx"))
        or name == "REUSE.toml"
        or re.match(r"(LICENSE|LICENCE|COPYING)(\Z|[.-])", name)
    )


def style_of(path, own):
    """A style's name, uncommentable, or None."""
    name = path.split("/")[-1].lower()
    own = {key.lower(): style for key, style in own.items()}
    for key in [name] + (["." + name.rsplit(".", 1)[1]] if "." in name else []):
        if key in own or key in TABLE:
            return own.get(key) or TABLE[key]
    return None
