#!/usr/bin/env python3
"""Lists the sentences of documents that have over 25 words, each with its place.

A sentence is one of a paragraph or of a list's item: tables, headings and code are left out. What
stands between code marks counts as one word.
usage: docs/long_sentences.py FILE..
"""
import re
import sys

MOST = 25


def paragraphs(lines):
    """The paragraphs and items of a document, each with the number of its first line."""
    start, parts, is_code = 0, [], False
    for number, line in enumerate(lines, 1):
        text = line.strip()
        is_fence = text.startswith("```")
        item = re.match(r"(?:[-*]|\d+\.) +(.*)", text)
        is_left_out = is_code or is_fence or not text or text[0] in "|#" or text.startswith("<!--")
        is_code ^= is_fence
        if is_left_out or item:
            if parts:
                yield start, " ".join(parts)
            start, parts = number, [item.group(1)] if item and not is_left_out else []
        elif parts or not line.startswith("    "):
            start = start if parts else number
            parts.append(text)
    if parts:
        yield start, " ".join(parts)


def sentences(paragraph):
    """The sentences of a paragraph, with code as one word and links as their texts."""
    text = re.sub(r"\]\([^)]*\)", "]", paragraph)
    text = re.sub(r"`[^`]*`", "CODE", text)
    text = re.sub(r"\*+|</?a[^>]*>", "", text)
    return re.split(r"(?<=[.?!:])[\"')\]]*\s+(?=[A-Z(\[\"0-9])|(?<=[.?!][)\]\"])\s+", text)


def main():
    for name in sys.argv[1:]:
        with open(name, encoding="utf-8") as document:
            for number, paragraph in paragraphs(document):
                for sentence in sentences(paragraph):
                    count = sum(1 for word in sentence.split() if re.search(r"\w", word))
                    if count > MOST:
                        print(f"{name}:{number}: {count} words: {sentence}")


main()
