#!/usr/bin/env python3
"""Wraps Markdown at 120 characters, so that a change shows as a small difference: tools/wrap.py [--check] [FILE..]
The files, all *.md that git tracks if none is given, are rewritten, and those that change are named; with --check they
are named only, and the status is 1 if there are any. Paragraphs are filled, those of list items and quotes too. Tables,
code, headings, HTML and link definitions stay, and so does the text as it is read. So do the lines at the head of a page
that begins with no heading, up to the first blank one: records of commits stand there. Run again, it changes nothing."""

import itertools
import os
import re
import subprocess
import sys

WIDTH = 120
# what a line begins: the first that fits
KINDS = {
    "blank": r"[ \t]*$",
    "code": r" {4}|\t",
    "fence": r" {0,3}(`{3,}(?=[^`]*$)|~{3,})",
    "heading": r" {0,3}#{1,6}(?:[ \t]|$)",
    "rule": r" {0,3}([-*_])[ \t]*(?:\1[ \t]*){2,}$",
    "table": r" {0,3}\|",
    "html": r" {0,3}<(?![^ >]*[:@])[A-Za-z/!?]",
    "definition": r" {0,3}\[[^\]]+\]:[ \t]*\S*(?:[ \t]+[\"'(].*)?$",
    "quote": r" {0,3}> ?",
    "item": r" {0,3}(?:[-*+]|\d{1,9}[.)])(?: {1,4}(?=\S)| (?= )| *$)",
    "text": "",
}
KINDS = {kind: re.compile(pattern) for kind, pattern in KINDS.items()}
# those that cannot end a paragraph, nor can an item that has no text, or a number other than 1
GOES_ON = ("text", "code", "definition")
ITEM_AFTER_TEXT = re.compile(r" {0,3}(?:[-*+]|1[.)]) +\S")
# what makes a heading of the lines before it, or a table without outer bars
UNDERLINE = re.compile(r" {0,3}(?:=+|-+|(?=.*\|)(?=.*-)[-:| ]+)[ \t]*$")
# words that would be read as something else if a line of a paragraph, not its first, began with them
NOT_FIRST = re.compile(r"(?:[-+*_=:|]+|\d{1,9}[.)])(?: |$)|[#>|]|```|~~~|<[A-Za-z/!?]")
# a word, in which code and links may have spaces; and one of a link that is longer than a line
CODE = r"\\[^ \t\n]|(?<!`)(?P<ticks>`+)(?!`).+?(?<!`)(?P=ticks)(?!`)"
LINK = r"!?\[(?:[^\[\]\n]|(?<!  )(?<!\\)\n|\[[^\[\]\n]*\])*\]\((?:[^()\s]|\([^()\s]*\))*(?:\s+\"[^\"\n]*\")?\)"
WORD = re.compile(rf"(?:{CODE}|{LINK}|[^ \t\n])+", re.S)
WORD_OF_LINK = re.compile(rf"(?:{CODE}|[^ \t\n])+", re.S)


def kind(line):
    return next(k for k, pattern in KINDS.items() if pattern.match(line))


def past(lines, i, belongs):
    while i < len(lines) and belongs(lines[i]):
        i += 1
    return i


def is_row(line):
    return kind(line) in ("table", "text", "definition")


def goes_on(line):
    """Whether the line goes on with a paragraph, that of the line before it."""
    item = kind(line) == "item" and not ITEM_AFTER_TEXT.match(line)
    return (item or kind(line) in GOES_ON) and not UNDERLINE.match(line)


def goes_on_lazily(line, body):
    """The same, where that line has an item's indent or a quote's mark, and the line has not."""
    return kind(line) in GOES_ON and not UNDERLINE.match(line) and ends_in_text(body)


def ends_in_text(lines):
    *_, (what, body, _) = blocks(lines)
    return what == "text" or what in ("item", "quote") and ends_in_text(body)


def blocks(lines):
    """The blocks: what each is, its lines, and its mark, without which are the lines of an item or a quote."""
    i = 0
    while i < len(lines):
        first, line, what = i, lines[i], kind(lines[i])
        body, mark, m, i = None, "", KINDS[what].match(line), i + 1
        if what == "fence":
            i = past(lines, i, lambda x: not re.match(rf" {{0,3}}{m[1][0]}{{{len(m[1])},}}[ \t]*$", x)) + 1
        elif what == "html" and "<!--" in line:
            i = past(lines, first, lambda x: "-->" not in x) + 1
        elif what == "html":
            i = past(lines, i, lambda x: kind(x) not in ("blank", "fence"))
        elif what == "table":
            i = past(lines, i, is_row)
        elif what == "code":
            i = past(lines, i, lambda x: kind(x) in ("code", "blank"))
        elif what == "quote":
            mark, body = "> ", [line[m.end() :]]
            while i < len(lines) and (kind(lines[i]) == what or goes_on_lazily(lines[i], body)):
                body.append(KINDS[what].sub("", lines[i], 1) if kind(lines[i]) == what else lines[i])
                i += 1
        elif what == "item":
            mark, body = m[0] if line[m.end() :].strip() else m[0].rstrip() + " ", [line[m.end() :]]
            while i < len(lines):
                end = past(lines, i, lambda x: kind(x) == "blank")
                if (lines + ["none"])[end][: len(mark)].strip() == "" and (end == i or body[0].strip()):
                    end = max(end, i + 1)
                    body += [x[len(mark) :] for x in lines[i:end]]
                elif goes_on_lazily(lines[i], body):
                    end = i + 1
                    body.append(lines[i])
                else:
                    break
                i = end
        elif what == "text":
            i = past(lines, i, goes_on)
            if i < len(lines) and UNDERLINE.match(lines[i]):
                what = "table" if "|" in lines[i] else "heading"
                i = past(lines, i + 1, is_row) if what == "table" else i + 1
        yield what, body or lines[first:i], mark


def ends_in_backslash(word):
    return (len(word) - len(word.rstrip("\\"))) % 2 == 1


def fill(text, width):
    """The lines of a paragraph, whose text has its old line breaks."""
    parts, at = [[]], 0  # a part ends in a hard break; its units are words, or words that stay on a line
    for m in WORD.finditer(text):
        gap, at = text[at : m.start()], m.end()
        if parts[-1] and re.match(r"[ \t]* {2}\n", gap):
            parts[-1][-1] += "  "
            parts.append([])
        elif parts[-1] and gap[0] == "\n" and ends_in_backslash(parts[-1][-1]):
            parts.append([])
        whole = m[0].replace("\n", " ")
        for word in [whole] if len(whole) <= width else [w[0] for w in WORD_OF_LINK.finditer(whole)]:
            if parts[-1] and (NOT_FIRST.match(word) or ends_in_backslash(parts[-1][-1])):
                parts[-1][-1] += " " + word
            else:
                parts[-1].append(word)
    parts[-1][-1] += "  " if text.endswith("  ") else ""
    lines = []
    for first, *units in parts:
        lines.append("    " + first if lines and NOT_FIRST.match(first) else first)
        for unit in units:
            if len(lines[-1]) + 1 + len(unit) <= width:
                lines[-1] += " " + unit
            else:
                lines.append(unit)
    return lines


def wrap(lines, width=WIDTH):
    out = []
    for what, body, mark in blocks(lines):
        if what == "text":
            out += fill("\n".join(x.lstrip(" \t") for x in body), width)
        elif mark:
            marks = itertools.chain([mark], itertools.repeat(mark if what == "quote" else " " * len(mark)))
            out += [before + x if x else before.rstrip() for before, x in zip(marks, wrap(body, width - len(mark)))]
        else:
            out += body if what != "blank" else [""]
    return out


def main():
    root = os.path.dirname(os.path.dirname(os.path.abspath(__file__)))
    check = "--check" in sys.argv
    files = [a for a in sys.argv[1:] if a != "--check"]
    if not files:
        names = subprocess.check_output(["git", "ls-files", "-z", "*.md"], cwd=root, text=True).split("\0")[:-1]
        files = [os.path.relpath(os.path.join(root, name)) for name in names]
    changed = False
    for path in files:
        text = open(path, encoding="utf8").read()
        lines = text.split("\n")
        head = 0 if kind(lines[0]) == "heading" else past(lines, 0, lambda x: kind(x) != "blank")
        new = "\n".join(lines[:head] + wrap(lines[head:]))
        if new != text:
            print(path)
            changed = True
            if not check:
                open(path, "w", encoding="utf8").write(new)
    sys.exit(check and changed)


main()
