"""Random comment styles, and which are good, told once more by docs/RULES.md ("Marks")."""
import re
import string

PUNCTUATION = string.punctuation
LETTERS = string.ascii_letters
REASONS = {
    "NotPlain": "a mark has a byte that is not printable ASCII",
    "Empty": "a mark is empty",
    "EndsInSpace": "a mark ends in a space",
    "Lead": "a lead is not the marker, or the middle, with spaces and punctuation behind it",
    "BeginAlike": "the marker begins with the opener, or the opener with the marker",
    "CloserInOpener": "the closer stands in the opener",
    "LastLine": "the last line is not the closer behind spaces and punctuation, or holds it before",
    "Middle": "the middle is not one byte of punctuation behind spaces",
    "FirstLines": "first lines begin with nothing, with no printable ASCII, or as a comment does",
    "FrontMatter": "a line of front matter is no good mark, or its first one is a first line or the"
    " opener",
}


class Style:
    """The texts of a style's table, by their keys, and what each is where its key is missing."""

    def __init__(self, keys):
        self.keys = keys
        self.marker = keys.get("line")
        self.line_lead = keys.get("line-lead", (self.marker or "") + " ")
        self.opener, self.closer = keys.get("open"), keys.get("close")
        self.middle = keys.get("middle")
        self.last = keys.get("last", self.closer)
        self.lead = keys.get("lead", "" if self.middle is None else self.middle + " ")
        self.first_lines = keys.get("first-lines", [])
        self.front_matter = keys.get("front-matter")
        marks = [self.marker, self.opener, self.middle, self.closer, self.last]
        self.marks = [mark for mark in marks if mark is not None]
        self.punctuation = "".join(sorted({c for c in "".join(self.marks) if c in PUNCTUATION}))


def is_plain(text):
    return all(" " <= c <= "~" for c in text)


def mark_fault(mark):
    if not is_plain(mark):
        return "NotPlain"
    if not mark:
        return "Empty"
    return "EndsInSpace" if mark.endswith(" ") else None


def is_filling(style, text):
    return all(c == " " or c in style.punctuation for c in text)


def follows(style, mark, lead):
    return lead.startswith(mark) and is_filling(style, lead[len(mark):])


def begins(style, text):
    return any(text.startswith(first) for first in style.first_lines)


def forms_fault(style):
    has_line, has_block = style.marker is not None, style.opener is not None
    if has_line and not follows(style, style.marker, style.line_lead):
        return "Lead"
    if has_block and not follows(style, style.middle or "", style.lead):
        return "Lead"
    if has_line and has_block:
        one, other = style.marker, style.opener
        if one.startswith(other) or other.startswith(one):
            return "BeginAlike"
    if has_block and style.closer in style.opener:
        return "CloserInOpener"
    if has_block:
        before, closer, behind = style.last.partition(style.closer)
        if not closer or behind or not is_filling(style, before):
            return "LastLine"
    if style.middle is not None:
        spaces, sign = style.middle[:-1], style.middle[-1]
        if spaces.strip(" ") or sign not in PUNCTUATION:
            return "Middle"
    return None


def fault_of(style):
    """The first condition of good marks that a style doesn't keep, or None."""
    for fault in map(mark_fault, style.marks):
        if fault:
            return fault
    fault = forms_fault(style)
    if fault:
        return fault
    if any(not first or not is_plain(first) for first in style.first_lines):
        return "FirstLines"
    if style.marker is not None and begins(style, style.line_lead):
        return "FirstLines"
    if style.opener is not None and begins(style, style.opener):
        return "FirstLines"
    if style.front_matter is not None:
        first, last = style.front_matter
        if mark_fault(first) or mark_fault(last) or begins(style, first) or first == style.opener:
            return "FrontMatter"
    return None


# ---- random ones

def mark(chance, most=4):
    """A text of punctuation, letters, digits and blanks, mostly of a few bytes of punctuation."""
    kind = chance.random()
    signs = PUNCTUATION if kind < 0.6 else PUNCTUATION + LETTERS + string.digits + " "
    if kind > 0.9:
        signs = LETTERS + " "
    text = "".join(chance.choice(signs) for _ in range(chance.randint(1, most)))
    return text if chance.random() < 0.3 else text.strip(" ") or chance.choice(PUNCTUATION)


def fillings(chance, signs):
    return "".join(chance.choice(signs + "   ") for _ in range(chance.randint(0, 3)))


def first_line(chance, keys):
    """What a first line begins with: often nearly what a comment of the style begins with."""
    near = [keys[key] + mark(chance) for key in ("line", "open") if key in keys]
    return chance.choice(near + [mark(chance, 8), mark(chance) + " = "])


def any_keys(chance):
    """The keys of a style that is of good shape, and may have good marks."""
    keys = {}
    form = chance.random()
    if form < 0.67:
        keys["line"] = mark(chance)
    if form > 0.33:
        keys["open"], keys["close"] = mark(chance, 5), mark(chance)
        if chance.random() < 0.2:
            keys["close"] = keys["open"][::-1]
        if chance.random() < 0.4:
            keys["middle"] = " " * chance.randint(0, 2) + chance.choice(PUNCTUATION)
    signs = "".join(c for c in "".join(keys.values()) if c in PUNCTUATION)
    if "line" in keys and chance.random() < 0.4:
        keys["line-lead"] = keys["line"] + fillings(chance, signs)
    if "open" in keys and chance.random() < 0.3:
        keys["lead"] = keys.get("middle", "") + fillings(chance, signs)
    if "open" in keys and chance.random() < 0.4:
        keys["last"] = fillings(chance, signs + PUNCTUATION[:3]) + keys["close"]
    if chance.random() < 0.4:
        keys["first-lines"] = [first_line(chance, keys) for _ in range(chance.randint(0, 3))]
    if chance.random() < 0.4:
        near = [keys[key] + "-" for key in ("line", "open") if key in keys]
        front = chance.choice(["---", "+++", mark(chance)] + near)
        keys["front-matter"] = [front, chance.choice([front, mark(chance), "..."])]
    return keys


def good_style(chance):
    while True:
        style = Style(any_keys(chance))
        if not fault_of(style):
            return style


ODD = ["\t", "é", "\x7f", " ", "x", "#"]


def bad_style(chance):
    """A style that is of good shape, with its fault: a good one of which a text or two changed."""
    while True:
        keys = dict(good_style(chance).keys)
        for _ in range(chance.choice([1, 1, 2])):
            spoil(chance, keys)
        fault = fault_of(Style(keys))
        if fault:
            return keys, fault


def other_fault(chance):
    """A name and keys of which the name or the shape is bad, with what is told of it."""
    keys = dict(good_style(chance).keys)
    alone = {key: keys[key] for key in keys if key not in ("line", "open", "close")}
    name = chance.choice(["python", "uncommentable", "A", "a_b", "", "é", "a b", "a.b", "x" * 41])
    return chance.choice([
        (name, keys, f"bad name {name}"),
        ("a", {**keys, chance.choice(["opener", "LINE", "", "rules"]): "x"}, "bad shape"),
        ("a", alone, "bad shape"),
        ("a", {**alone, chance.choice(["open", "close"]): "<"}, "bad shape"),
        ("a", {"line": "#", chance.choice(["middle", "lead", "last", "close"]): "#"}, "bad shape"),
        ("a", {"open": "<", "close": ">", "line-lead": "# "}, "bad shape"),
        ("a", {**keys, "front-matter": ["---"] * chance.choice([0, 1, 3])}, "bad shape"),
        ("a", {**keys, chance.choice(sorted(keys)): 1}, "bad shape"),
        ("a", {**keys, "first-lines": chance.choice(["x", [1], ["x", 1]])}, "bad shape"),
    ])


def spoil(chance, keys):
    key = chance.choice(sorted(keys))
    texts = [text for text in keys.values() if isinstance(text, str)]
    old = keys[key] if isinstance(keys[key], str) else chance.choice([*keys[key], "x"])
    new = chance.choice([
        "", " ", old + " ", old + chance.choice(ODD), chance.choice(ODD) + old, chance.choice(texts),
        old + chance.choice(texts), chance.choice(texts) + old, mark(chance), old[1:]])
    if isinstance(keys[key], str):
        keys[key] = new
    elif keys[key]:
        keys[key] = list(keys[key])
        keys[key][chance.randrange(len(keys[key]))] = new
    else:
        keys[key] = [new]


# ---- texts of TOML

def quoted(chance, text):
    """A string of TOML that says a text; a number is one of TOML."""
    if not isinstance(text, str):
        return str(text)
    if "'" not in text and is_plain(text) and chance.random() < 0.5:
        return f"'{text}'"
    text = text.replace("\\", "\\\\").replace('"', '\\"').replace("\t", "\\t")
    return '"' + re.sub(r"[\x00-\x1f\x7f]", lambda found: f"\\u{ord(found[0]):04x}", text) + '"'


def table_of(chance, name, keys):
    """The table of a style in a file of comments, its keys in any order."""
    is_bare = re.fullmatch(r"[A-Za-z0-9_-]+", name) and chance.random() < 0.9
    lines = [f"[comments.{name if is_bare else quoted(chance, name)}]"]
    for key in chance.sample(sorted(keys), len(keys)):
        value = keys[key]
        if isinstance(value, list):
            value = "[" + ", ".join(quoted(chance, text) for text in value) + "]"
        else:
            value = quoted(chance, value)
        lines.append(f"{key or quoted(chance, key)} = {value}")
    return "\n".join(lines) + "\n"
