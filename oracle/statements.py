#!/usr/bin/env python3
"""Compares how `mrew run` judges the statements of modules with a plain reading of the specification, written apart from the code and its proofs.

usage: oracle/statements.py PROGRAM FIRST LAST

For each number from FIRST on and below LAST it makes a system module with random equations, memberships and rules, and a module that includes
it and gives its operators further axioms. Each is accepted, or refused with its first fault: of its signature, of the statements that it
includes, or of its own ones in their order. Terms are in prefix form.
"""
import random
import re
import sys

sys.dont_write_bytecode = True
from comparing import compare_texts, difference
from modules import random_module, random_term, signature_of, suits
from signature import BOOL, NAT, Signature, module_text, numbered
from statements_of import is_no_head, is_variable, kind_of, pairs_of


class Statement:
    """A statement: its keyword, its left side, its right side or sort, fragments (sign, left, right), and whether it is `nonexec`."""

    def __init__(self, keyword, left, right, fragments, nonexec):
        self.keyword, self.left, self.right, self.fragments, self.nonexec = keyword, left, right, fragments, nonexec

    def write(self, sig, text):
        """Adds the statement to a text, and gives its terms in the order in which they are read: place, term, kind that is asked for or nothing."""
        read = []

        def put(it, kind=None):
            nonlocal text
            if isinstance(it, str):
                text += it
            else:
                read.append((len(text.encode()), it, kind))
                variables = []
                text += sig.source(numbered(it, variables), variables)

        sign = {"eq": " = ", "mb": " : ", "rl": " => "}[self.keyword]
        put(("c" if self.fragments else "") + self.keyword + " ")
        put(self.left, sig.kind[self.right] if self.keyword == "mb" else None)
        put(sign)
        put(self.right, kind_of(sig, self.left))
        for at, (way, left, right) in enumerate(self.fragments):
            put(" /\\ " if at else " if ")
            begin = len(read)
            put(left, sig.kind["Bool"] if way == "Bool" else kind_of(sig, right) if way == ":=" else None)
            if way != "Bool":
                put(f" {way} ")
                put(right, kind_of(sig, left) if way in ("=", "=>") else None)
            if way == ":=":
                read[begin:] = reversed(read[begin:])
        put((" [nonexec]" if self.nonexec else "") + " .\n")
        return text, read

    def fault(self, sig, read, number):
        """The first fault of the statement, or nothing."""
        for place, term, kind in read:
            if kind and kind_of(sig, term) != kind:
                return f"{number} NoParse {place}"
        if self.keyword == "eq" and is_variable(sig, self.left):
            return f"LhsVariable {number}"
        if self.keyword == "mb" and is_no_head(sig, self.left):
            return f"MembershipHead {number}"
        bound = pairs_of(self.left)
        for way, left, right in self.fragments:
            used = pairs_of(left) if way in ("Bool", ":", "=>") else pairs_of(right) if way == ":=" else pairs_of(left) | pairs_of(right)
            if not self.nonexec and not used <= bound:
                return f"UnboundVariable {number}"
            bound |= pairs_of(left) if way == ":=" else pairs_of(right) if way == "=>" else set()
        if not self.nonexec and self.keyword != "mb" and not pairs_of(self.right) <= bound:
            return f"UnboundVariable {number}"
        return None


def random_statement(sig, r):
    kinds = sorted({sig.kind[a] for a in sig.sorts if a != "Bool"})
    pool = [(name, r.choice(sig.sorts) if r.random() < 0.9 else r.choice(kinds)) for name in r.sample("XYZW", r.choice([1, 2, 3]))]
    any_kind = lambda: r.choice(kinds)
    make = lambda kind, often: random_term(sig, r, kind, r.choice([0, 1, 1, 2]), pool, often)
    keyword, kind = r.choice(["eq", "eq", "mb", "rl"]), any_kind()
    left = make(kind, 0.6 if r.random() < 0.8 else 0.9)
    usual = lambda k: k if r.random() < 0.95 else any_kind()
    asked = usual(kind)
    right = r.choice([a for a in sig.sorts if sig.kind[a] == asked]) if keyword == "mb" else make(asked, 0.3)
    fragments = []
    for _ in range(r.choice([0, 0, 0, 1, 2])):
        way, k = r.choice(["=", ":=", ":", "Bool", *(["=>"] if keyword == "rl" else [])]), any_kind()
        one = make(usual(sig.kind["Bool"]) if way == "Bool" else usual(k), 0.3)
        other = None if way == "Bool" else r.choice(sig.sorts) if way == ":" else make(k, 0.3)
        if one is None or way != "Bool" and other is None:
            return None
        fragments.append((way, one, other))
    return None if left is None or right is None else Statement(keyword, left, right, fragments, r.random() < 0.15)


def compare(number, program):
    r = random.Random(number)
    module = random_module(r)
    own, pairs, declarations, with_nat = module
    sig = signature_of(module)
    if not suits(sig):
        return ["unsuited"], None
    text, fault = module_text(*module)[: -len("endfm\n")].replace("fmod", "mod", 1), sig.refusal()
    statements = [it for it in (random_statement(sig, r) for _ in range(r.choice([1, 2, 4, 6]))) if it]
    for at, statement in enumerate(statements):
        text, read = statement.write(sig, text)
        fault = fault or statement.fault(sig, read, at + 1)
    text += "endm\n"
    answers = ["[1] refused: " + fault if fault else "[1] module M"]
    if not fault:
        more = []
        for name, args, result, attrs in declarations:
            if len(args) == 2 and sig.kind[args[0]] == sig.kind[args[1]] == sig.kind[result] and r.random() < 0.7:
                added = {word: 1 for word in ("assoc", "comm") if word not in attrs and r.random() < 0.3}
                if "id" not in sig.operators[name, (sig.kind[result],) * 2].attrs and r.random() < 0.4:
                    added["id"] = (("a", ()), ())
                more.append((name, args, result, added))
        wider = Signature(sig.sorts, sig.pairs, BOOL + (NAT if with_nat else []) + declarations + more)
        if not suits(wider):
            return ["unsuited"], None
        lines = module_text([], [], more).replace("fmod M is\nsorts  .\n", "mod N is\nprotecting M .\n").replace("endfm", "endm")
        text += lines
        fault = wider.refusal()
        if not fault and any(it.keyword == "eq" and is_variable(wider, it.left) for it in statements):
            fault = "LhsVariable 0"
        if not fault and any(it.keyword == "mb" and is_no_head(wider, it.left) for it in statements):
            fault = "MembershipHead 0"
        answers.append("[2] refused: " + fault if fault else "[2] module N")
    return [re.search(r"\b(module|[A-Z]\w{3,})", it)[0] for it in answers], difference(program, text, answers)


compare_texts(compare)
