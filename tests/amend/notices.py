"""How amend reads a notice, told once more by docs/RULES.md alone. The tags below are data:
REUSE-IgnoreStart"""
import re

BLANKS = b" \t\r"
SIGNS = b"(c)", b"(C)", "©".encode()
DASHES = b"-", "–".encode()
TODAY = b"present", b"now", b"today"
LATEST = b"9" * 5
AND = rb"(?:&|and(?=[ \t\r,&]|\Z))"


def ends_word(text):
    return not text or text[:1] in b" \t\r,&"


def past(lead, text):
    """What follows a lead and blanks, if anything does."""
    return text.startswith(lead) and text[len(lead):].lstrip(BLANKS) or text


class Span:
    """Years at the front of a text: the first, the last, and what follows."""

    def __init__(self, text, low, high, rest):
        self.text, self.low, self.high, self.rest = text, low, high, rest


def end_at(text):
    """The last year of a range, and what follows it."""
    if re.match(rb"\d{4}", text) and ends_word(text[4:]):
        return text[:4], text[4:]
    for word in TODAY:
        if text.startswith(word) and ends_word(text[len(word):]):
            return LATEST, text[len(word):]
    return None


def span_at(text):
    if not re.match(rb"\d{4}", text):
        return None
    low, rest = text[:4], text[4:]
    behind = rest.lstrip(BLANKS)
    for dash in DASHES:
        if behind.startswith(dash):
            end = end_at(behind[len(dash):].lstrip(BLANKS))
            if end and low <= end[0]:
                return Span(text, low, *end)
    return Span(text, low, low, rest) if ends_word(rest) else None


def separated(text):
    """What follows what stands between two spans."""
    found = re.match(rb"[ \t\r]*(,[ \t\r]*WORD?|WORD)[ \t\r]*".replace(b"WORD", AND), text)
    return text[found.end():] if found else None


def spans_at(text):
    spans, place = [], text
    while place is not None:
        span = span_at(place)
        if not span:
            break
        spans.append(span)
        place = separated(span.rest)
    return spans


class Notice:
    """The prefix's name, what stands in front of years and holder, the years, what stands between
    them, the holder, what stands behind, and whether the years come first."""

    def __init__(self, *parts):
        self.prefix, self.front, self.years, self.between = parts[:4]
        self.holder, self.behind, self.first = parts[4:]

    def text(self):
        two = [self.years, self.holder] if self.first else [self.holder, self.years]
        return self.front + two[0] + self.between + two[1] + self.behind

    def parts(self):
        return vars(self)


def prefix_of(text, prefixes, is_narrow):
    """The longest prefix that a value follows, behind a space or a colon."""
    fit = []
    for name, begin in prefixes.items():
        begin = begin.encode()
        rest = text[len(begin):]
        if text.startswith(begin) and (
            is_narrow(text, name) or (rest.startswith(b":") and rest[1:].strip(BLANKS))
        ):
            fit.append((len(begin), name))
    return max(fit)[1] if fit else None


def holder_at(text):
    text = past(b",", text.lstrip(BLANKS))
    return past(b"by", text) if text[2:3] and text[2:3] in BLANKS else text


def upto(text, end):
    return text[: len(text) - len(end)]


def read(text, prefixes, is_narrow):
    """A notice's parts."""
    prefix = prefix_of(text, prefixes, is_narrow)
    value = past(b":", text[len(prefixes[prefix].encode()):].lstrip(BLANKS))
    for sign in SIGNS:
        if value.startswith(sign):
            value = past(sign, value)
            break
    spans = spans_at(value)
    if spans:
        rest = spans[-1].rest
        found = re.match(rb"[ \t\r]*,(.*)\Z|[ \t\r](.*)\Z", rest, re.S)
        if found and (found.group(1) or found.group(2) or b"").strip(BLANKS):
            named = holder_at(rest)
            holder = named.rstrip(BLANKS)
            years, between = upto(value, rest), upto(rest, named)
            front, behind = upto(text, value), named[len(holder):]
            return Notice(prefix, front, years, between, holder, behind, True)
    named = holder_at(value)
    front = upto(text, named)
    for comma in range(1, len(named)):
        dated = named[comma + 1:].lstrip(BLANKS)
        spans = spans_at(dated) if named[comma:comma + 1] == b"," else []
        if spans and not spans[-1].rest.strip(BLANKS):
            holder, years = named[:comma].rstrip(BLANKS), dated.rstrip(BLANKS)
            between = upto(named[len(holder):], dated)
            return Notice(prefix, front, years, between, holder, dated[len(years):], False)
    holder = named.rstrip(BLANKS)
    return Notice(prefix, front, b"", b"", holder, named[len(holder):], False)


def reach(years, year):
    """Years of which the span that ends last reaches a year."""
    spans = spans_at(years)
    if not spans:
        return years
    last = max(range(len(spans)), key=lambda k: (spans[k].high, k))
    span = spans[last]
    if span.high >= year:
        return years
    return upto(years, span.text) + span.low + b" - " + year + span.rest
