#!/usr/bin/env python3
"""Compares how `mrew run` reads mixfix text with a brute-force reading of the definitions, written apart from the code and its proofs.

usage: oracle/parse.py PROGRAM FIRST LAST

For each number from FIRST on and below LAST it makes a module with random forms, precedences and gather patterns, and texts of terms
over it: with the parentheses that they need, with more, with none, or with tokens changed. All trees of the tokens are found here by
trying all ways to cut them. A text with one tree is answered by the term, one with none is NoParse, one with several is Ambiguous.
"""
import functools
import itertools
import random
import sys

sys.dont_write_bytecode = True
from comparing import compare_texts, difference
from signature import BOOL, Signature, module_text, numbered, pieces


def trees(sig, tokens):
    """All trees of some tokens with the precedences that they have, by kind: (kind, term, precedence), where -1 is admitted everywhere."""

    @functools.lru_cache(maxsize=None)
    def read(i, j):
        found = set()
        if i >= j:
            return found
        if tokens[i] == "(" and tokens[j - 1] == ")":
            found |= {(kind, term, -1) for kind, term, _ in read(i + 1, j - 1)}
        if j - i >= 4 and tokens[i] == "(" and tokens[j - 2] == ")" and tokens[j - 1][0] == "." and tokens[j - 1][1:] in sig.kind:
            found |= {(kind, term, -1) for kind, term, _ in read(i + 1, j - 2) if kind == sig.kind[tokens[j - 1][1:]]}
        if j == i + 1 and ":" in tokens[i]:
            name, sort = tokens[i].rsplit(":", 1)
            if name and sort in sig.kind:
                found.add((sig.kind[sort], ("v", (name, sort)), 0))
        for op in sig.of:
            words = pieces(op.name)
            level, gather = sig.layout(op)
            if "_" in words or not op.kinds:
                for args in filled(tuple(words), op.kinds, i, j):
                    if all(sig.admits(how, level, inner) for how, (_, inner) in zip(gather, args)):
                        found.add((op.result, (op.key, tuple(term for term, _ in args)), level if op.kinds else 0))
            if op.kinds:
                name = words if "_" not in words else [op.name]
                if list(tokens[i:i + len(name)]) == name and tokens[i + len(name):i + len(name) + 1] == ("(",) and tokens[j - 1] == ")":
                    found |= {(op.result, term, 0) for term in prefix(op, i + len(name) + 1, j - 1)}
        return found

    def filled(words, kinds, i, j):
        """The arguments, with their precedences, with which these words give the tokens."""
        if not words:
            return [()] if i == j else []
        if words[0] != "_":
            return filled(words[1:], kinds, i + 1, j) if i < j and tokens[i] == words[0] else []
        ends = [j] if len(words) == 1 else range(i + 1, j)
        return [((term, inner), *rest) for k in ends for kind, term, inner in read(i, k) if kind == kinds[0] for rest in filled(words[1:], kinds[1:], k, j)]

    def prefix(op, i, j):
        """The terms of an operator over arguments between commas."""
        return [nested(op, args) for args in listed(op, i, j, 0) if len(args) == len(op.kinds) or op.attrs.get("assoc") and len(args) > 2]

    def listed(op, i, j, at):
        kind = op.kinds[min(at, len(op.kinds) - 1)]
        last = [(term,) for k, term, _ in read(i, j) if k == kind]
        commas = [k for k in range(i + 1, j) if tokens[k] == ","]
        return last + [(term, *rest) for c in commas for k, term, _ in read(i, c) if k == kind for rest in listed(op, c + 1, j, at + 1)]

    def nested(op, args):
        return (op.key, args) if len(args) == len(op.kinds) else (op.key, (args[0], nested(op, args[1:])))

    return read(0, len(tokens))


def random_module(r):
    """Sorts and declarations of a module."""
    sorts = r.choice([["S"], ["S", "T"]])
    forms = r.sample(["_+_", "_*_", "!_", "_?", "__", "<_>", "if_then_else_", "_at_", "f", "_:_:_", "let_in_", "p q"], r.choice([2, 3, 4]))
    constants = [*"abc", *(["d e"] if r.random() < 0.2 else [])]
    out = [(c, (), r.choice(sorts), {}) for c in constants]
    for form in forms:
        count = pieces(form).count("_") or 2
        args, result, attrs = tuple(r.choice(sorts) for _ in range(count)), r.choice(sorts), {}
        if count == 2 and r.random() < 0.3:
            args, result, attrs = (result, result), result, {"assoc": 1}
        if "_" in form and r.random() < 0.5:
            attrs["prec"] = r.choice([0, 10, 20, 30, 41, 50])
        if "_" in form and r.random() < 0.4:
            attrs["gather"] = "".join(r.choice("eE&") for _ in range(count))
        out.append((form, args, result, attrs))
    return sorts, out


def random_tokens(sig, r, kind, depth, care):
    """Tokens for a random term of a kind: with parentheses around every argument (1), around some, or around none (0)."""
    found = [op for op in sig.of if op.result == kind and (depth > 0 or not op.kinds)]
    if depth > 0 and any(op.kinds for op in found) and r.random() < 0.9:
        found = [op for op in found if op.kinds]
    if not found or r.random() < 0.1:
        return ["X:" + kind[1:]]
    op = r.choice(found)
    parts = [random_tokens(sig, r, k, depth - 1, care) for k in op.kinds]
    words = pieces(op.name)
    if op.kinds and ("_" not in words or r.random() < 0.15):
        out = list(words) if "_" not in words else [op.name]
        for at, part in enumerate(parts):
            out += ["," if at else "(", *part]
        return out + [")"]
    out, rest = [], list(parts)
    for word in words:
        part = rest.pop(0) if word == "_" else [word]
        if word == "_" and r.random() < care:
            part = ["(", *part, ")"] + ([f".{op.kinds[len(parts) - len(rest) - 1][1:]}"] if r.random() < 0.1 else [])
        out += part
    return out


def compare(number, program):
    r = random.Random(number)
    sorts, declarations = random_module(r)
    sig = Signature(["Bool", *sorts], [], BOOL + declarations)
    if any(op.attrs.get("assoc") and {*op.kinds} != {op.result} for op in sig.of) or any(sig.kind[x] != op.result for op in sig.of for _, x in op.declared):
        return ["unsuited"], None
    text, wanted, words = module_text(sorts, [], declarations), ["[1] module M"], []
    for item in range(2, 14):
        kind = sig.kind[r.choice(sorts)]
        tokens = random_tokens(sig, r, kind, r.choice([1, 2, 2, 3]), r.choice([0, 0.3, 0.7, 1]))
        if r.random() < 0.3:
            at = r.randrange(len(tokens))
            tokens[at:at + 1] = r.choice([[], [tokens[at]] * 2, [r.choice(["a", "b", "(", ")", "+", "?", "X:S"])]])
        depths = list(itertools.accumulate((token == "(") - (token == ")") for token in tokens))
        if not tokens or len(tokens) > 16 or depths[-1] or min(depths) < 0:
            tokens = ["a"]
        head = f"match V:{kind}] <=? "
        begin = len(text.encode()) + len(head)
        text += f"{head}{' '.join(tokens)} .\n"
        found = {term for k, term, _ in trees(sig, tuple(tokens)) if k == kind}
        if len(found) != 1:
            words.append("several trees" if found else "no tree")
            wanted.append(f"[{item}] refused: {'Ambiguous' if found else 'NoParse'} {begin}")
            continue
        words.append("one tree")
        variables = [("V", kind)]
        term = numbered(found.pop(), variables)
        wanted += [f"[{item}] match in M", "Matcher 1", f"V:{kind}] --> {sig.shown(sig.norm(term), variables)[0]}", "No more matches."]
    return words, difference(program, text, wanted)


compare_texts(compare)
