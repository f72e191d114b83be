#!/usr/bin/env python3
"""Compares how `mrew run` cuts text into tokens and items with a plain reading of the specification, written apart from the code and its proofs.

usage: oracle/items.py PROGRAM FIRST LAST

For each number from FIRST on and below LAST it makes a text of words, brackets, backquotes, strings, comments and bytes that are no UTF-8,
in which no item is one that is answered: each is Unexpected, Unsupported or Unended, most at its first token, or ends the session.
"""
import random
import sys

sys.dont_write_bytecode = True
from comparing import compare_texts, difference

SEPARATORS, SPECIAL = " \t\r\n\f", "()[]{},"
UNSUPPORTED = ["load", "in", "view", "fth", "th", "sth", "search", "srewrite", "srew", "unify", "narrow", "omod", "show"]
ENDING = ["quit", "q", "eof"]


class Fault(Exception):
    pass


def tokens(data):
    """The tokens of a text with their places in bytes, or the first fault."""
    try:
        text = data.decode()
    except UnicodeDecodeError as error:
        raise Fault(f"NotUtf8 {error.start}")
    place = lambda i: len(text[:i].encode())
    found, i, n = [], 0, len(text)
    while i < n:
        if text[i] in SEPARATORS:
            i += 1
            continue
        begin = i
        if text[i:i + 3] in ("***", "---"):
            if text[i + 3:i + 4] != "(":
                while i < n and text[i] != "\n":
                    i += 1
                continue
            depth, i = 1, i + 4
            while depth and i < n:
                depth += {"(": 1, ")": -1}.get(text[i], 0)
                i += 1
            if depth:
                raise Fault(f"OpenComment {place(begin)}")
            continue
        if text[i] == '"':
            i += 1
            while i < n and not (text[i] == '"' and text[i - 1] != "\\"):
                i += 1
            if i == n:
                raise Fault(f"OpenString {place(begin)}")
            i += 1
        elif text[i] in SPECIAL:
            i += 1
        else:
            while i < n and text[i] not in SEPARATORS + SPECIAL:
                i += 2 if text[i] == "`" and text[i + 1:i + 2] and text[i + 1] in SPECIAL else 1
        if len(text[begin:i].encode()) > 1024:
            raise Fault(f"TokenTooLong {place(begin)}")
        found.append((text[begin:i], place(begin)))
    return found


def transcript(data):
    """The lines of a text in which no item is answered."""
    try:
        rest = tokens(data)
    except Fault as fault:
        return [f"refused: {fault}"]
    lines = []
    while rest:
        word, place = rest[0]
        if word in ENDING:
            return lines
        depth, end = 0, None
        for i, (token, _) in enumerate(rest):
            if token == "." and depth == 0:
                end = i + 1
                break
            depth = max(0, depth + (token in "([{") - (token in ")]}"))
        two = [token for token, _ in rest[:2]]
        if end is None:
            said = "Unended"
        elif word in UNSUPPORTED:
            said = f"Unsupported {word}"
        elif two[0] == "set" and two[1] in ("include", "protect", "extend"):
            said = f"Unsupported {' '.join(two)}"
        else:
            said = "Unexpected"
            place = rest[1][1] if word == "set" else place
        lines.append(f"[{len(lines) + 1}] refused: {said} {place}")
        if end is None:
            return lines
        rest = rest[end:]
    return lines


def random_text(r):
    """Pieces side by side, most with a separator or a full stop between them."""
    plain = ["a", "b", "ab", "é", "∀x", "`", "``", "`(", "`)", "`,", "*", "**", "-", "--", "\\", "->", "a.b", ".a"]
    signs = ["***", "---", "***(", "---(", "***( ( )", ")", '"', '"a"', '"\\"', '""', "***a\n", "---b\n"]
    pieces = [*plain, *plain, *SPECIAL, *UNSUPPORTED, "set include", "set extend", *signs]
    rare = ["quit", "q", "eof", "\x80", "\xff", "x" * 1024, "x" * 1025, "é" * 512, "é" * 513, '"' + "y" * 1022 + '"', '"' + "y" * 1023 + '"']
    between = [" ", " ", " ", "\n", "\t", "\r", "\f", "", " . ", " .\n", ".\n"]
    out = []
    for _ in range(r.randrange(1, 40)):
        piece = r.choice(rare) if r.random() < 0.01 else r.choice(pieces if r.random() < 0.6 else plain)
        out.append(piece.encode("latin-1") if piece in ("\x80", "\xff") else piece.encode())
        out.append(r.choice(between).encode())
    return b"".join(out) + r.choice([b"", b" .\n", b"\n"])


def compare(number, program):
    data = random_text(random.Random(number))
    wanted = transcript(data)
    return [line.split("refused: ")[1].split()[0] for line in wanted], difference(program, data, wanted)


compare_texts(compare)
