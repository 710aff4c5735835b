"""What annotate adds to what a header says, and where a new header goes, told once more by
docs/RULES.md alone. The tags below are data: REUSE-IgnoreStart"""
import re

from retelling import BLANKS, PREFIXES, Info, prefix_of


class Additions:
    def __init__(self, notices, contributors, licences, form=None, replaces=True, merges=False):
        self.notices, self.contributors = set(notices), set(contributors)
        self.licences = set(licences)
        self.form, self.replaces, self.merges = form, replaces, merges


def parts_of(notice):
    """Prefix, years and holder of a notice; the years are None, or the lowest and the highest."""
    prefix = prefix_of(notice)
    value = notice[len(PREFIXES[prefix].encode()):].lstrip(BLANKS)
    for years in rb"(\d{4}) - (\d{4})", rb"(\d{4})-(\d{4})", rb"(\d{4})":
        found = re.match(years + rb"[ \t\r](?=.*[^ \t\r])", value, re.S)
        if found and found[1] <= found[found.lastindex]:
            return prefix, (found[1], found[found.lastindex]), value[found.end():].strip(BLANKS)
    return prefix, None, value.strip(BLANKS)


def written(prefix, years, holder):
    text = PREFIXES[prefix].encode() + b" "
    if years:
        text += (years[0] if years[0] == years[1] else b" - ".join(years)) + b" "
    return text + holder


def merged(notices, added):
    """The notices, with those of each holder as one."""
    result = set()
    for holder in {parts_of(notice)[2] for notice in notices}:
        same = {notice for notice in notices if parts_of(notice)[2] == holder}
        years = [parts_of(notice)[1] for notice in same if parts_of(notice)[1]]
        span = (min(low for low, _ in years), max(high for _, high in years)) if years else None
        one = parts_of(min(same & added or same))[0], span, holder
        is_one = len(same) > 1 and parts_of(written(*one)) == one
        result |= {written(*one)} if is_one else same
    return result


def joined(old, additions):
    """The information of a header, or of none, with what is added."""
    info = Info([], b"")
    if old:
        info.free = list(old.free)
        info.notices, info.contributors, info.licences = map(set, old.said())
    info.notices |= additions.notices
    info.contributors |= additions.contributors
    info.licences |= additions.licences
    if additions.merges:
        info.notices = merged(info.notices, additions.notices)
    return info


def place_behind(lines, mark, count):
    """Where a new block goes behind so many lines: its place, how many endings go before it, and
    whether one goes behind it."""
    place = mark + sum(len(content) + len(end) for content, end in lines[:count])
    before = (count > 0) + (count > 0 and not lines[count - 1][1])
    return place, before, count < len(lines) and bool(lines[count][0])


def put(file, text, kind, replaced, place):
    """The file with the text of a block in place of another one, or at a place without one; and
    where it begins."""
    if replaced:
        return file[:replaced.start] + text + file[replaced.end:], replaced.start
    start, before, is_set_off = place
    front = file[:start] + kind * before
    return front + text + kind * is_set_off + file[start:], len(front)
