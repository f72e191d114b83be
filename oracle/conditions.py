#!/usr/bin/env python3
"""Compares `match` and `xmatch` with conditions and memberships on random modules with a brute-force reading of the definitions, written apart from the code
and its proofs.

usage: oracle/conditions.py PROGRAM FIRST LAST [plain]

For each number from FIRST on and below LAST it makes a module with random equations and memberships, some with conditions, and listings over it, most with
conditions, with and without bounds, and goes on with them, with a small budget; with the word `plain` there are no memberships. What is compared is which
solutions are shown, and how each listing is left: also where the subject's sorts or an asking ends, and where a variable isn't bound.
"""
import random
import sys

sys.dont_write_bytecode = True
import reduce
from comparing import compare_texts, difference
from evaluation import End, Evaluator, Statement, TooMuch, first_places
from match import listed, random_question, size
from modules import random_module, suits
from prelude import bool_equations, signature_with_truth
from reduce import random_fragments, random_statement, text_of, with_strategies
from signature import module_text, numbered
from statements_of import pairs_of

LIMIT = 12
TRUE = (("true", ()), ())
reduce.HAS_CONDITIONS, reduce.HAS_MEMBERSHIPS = True, "plain" not in sys.argv[4:]
sys.setrecursionlimit(30_000)


def variables_of(term):
    """The numbers of the variables of a term, as they occur."""
    if isinstance(term, int):
        return []
    return [term[1]] if term[0] == "v" else [v for it in term[1] for v in variables_of(it)]


def first_unbound(pattern, fragments):
    """The first variable of fragments that isn't bound by then, where those of the pattern are; or nothing."""
    bound = set(variables_of(pattern))
    for sign, one, other in fragments:
        used = [other] if sign == ":=" else [one] if sign in (":", "Bool") else [one, other]
        for v in (v for term in used for v in variables_of(term)):
            if v not in bound:
                return v
        bound |= set(variables_of(one)) if sign == ":=" else set()
    return None


def solutions(evaluator, pattern, subject, variables, is_part):
    """The variables of a pattern, its associative top, and its solutions in order: contexts, instance and values. The subject's sorts are taken first."""
    sig, places = evaluator.sig, {}
    evaluator.budget, evaluator.variables = LIMIT, variables
    first_places(sig, pattern, None, places)
    whole, shape = sig.norm(subject), sig.norm(pattern)
    evaluator.settle(whole, 1)
    top = shape[0] if is_part and isinstance(shape, tuple) and shape[0] != "v" and sig.op(shape).attrs.get("assoc") else None
    found = evaluator.solutions(variables, pattern, whole, 1, is_part)
    return list(places), top, [(None, left, right, sig.norm(pattern, values), tuple(values[v] for v in places)) for left, right, values in found]


class Listing:
    """The solutions of a question in order, of which those are shown under which a condition holds."""

    def __init__(self, sig, evaluator, answer, variables, fragments, is_part):
        self.sig, self.evaluator, self.answer, self.variables, self.is_part = sig, evaluator, answer, variables, is_part
        self.fragments = [("=", one, TRUE) if sign == "Bool" else (sign, one, other) for sign, one, other in fragments]
        self.at, self.kept = 0, []

    def holds(self, values):
        return self.evaluator.solve(self.variables, self.fragments, dict(zip(self.answer[0], values)), 2) is not None

    def lines(self, bound):
        """The lines behind those shown before, and whether one may go on. All conditions are asked with one budget."""
        places, top, found = self.answer
        self.evaluator.budget, self.evaluator.variables = LIMIT, self.variables
        begin, last = len(self.kept), None
        try:
            while len(self.kept) - begin != bound and self.at < len(found):
                self.at += 1
                if self.holds(found[self.at - 1][4]):
                    self.kept.append(found[self.at - 1])
        except End as end:
            last = str(end)
        out, _, goes_on = listed(self.sig, (places, top, self.kept), self.variables, self.is_part, begin, bound)
        return ([*out[:-1], last], False) if last else (out, goes_on)


def source_of(sig, fragments, variables):
    shown = lambda term: sig.source(term, variables)
    return " /\\ ".join(shown(one) if sign == "Bool" else f"{shown(one)} {sign} {other if sign == ':' else shown(other)}" for sign, one, other in fragments)


def compare(number, program):
    r = random.Random(number)
    own, pairs, declarations, with_nat = random_module(r)
    module = own, pairs, with_strategies(r, declarations), with_nat
    sig = signature_with_truth(module)
    if not suits(sig) or sig.refusal():
        return ["unsuited"], None
    statements = [it for it in (random_statement(sig, r) for _ in range(r.choice([0, 2, 4, 6]))) if it]
    text = module_text(*module)[: -len("endfm\n")] + "".join(text_of(sig, it) for it in statements) + "endfm\n"
    made = [Statement(left, right, [("=", one, TRUE) if sign == "Bool" else (sign, one, other) for sign, one, other in fragments], owise, nonexec)
            for left, right, fragments, owise, nonexec in statements]
    equations, memberships = bool_equations(sig) + [it for it in made if not isinstance(it.right, str)], [it for it in made if isinstance(it.right, str)]
    wanted, item, had = ["[1] module M"], 1, {"modules": 1}
    for _ in range(6):
        question = random_question(sig, r)
        if not question or size(question[0]) > 10 or size(question[1]) > 13:
            continue
        bound = pairs_of(question[0])
        pool = bound | {(name, r.choice(sig.sorts)) for name in "UV"[: r.choice([0, 1, 2])]}
        condition = random_fragments(sig, r, pool, pool if r.random() < 0.1 else bound)
        if not condition or not condition[0] and r.random() < 0.5:
            continue
        variables, is_part = [], r.random() < 0.5
        pattern, subject = (numbered(it, variables) for it in question)
        # (of p := u the u is read first)
        both = lambda one, other: tuple(reversed([numbered(it, variables) for it in (other, one)]))
        one_or = lambda sign, one, other: both(one, other) if sign == ":=" else (numbered(one, variables), numbered(other, variables) if sign == "=" else other)
        fragments = [(sign, *one_or(sign, one, other)) for sign, one, other in condition[0]]
        command, most = "xmatch" if is_part else "match", r.choice([None, None, 1, 2, 3])
        text_line = f"{command}{f' [{most}]' if most else ''} {sig.source(pattern, variables)} <=? {sig.source(subject, variables)} "
        text_line += f"{r.choice(['such that', 's.t.'])} {source_of(sig, fragments, variables)} .\n" if fragments else ".\n"
        unbound = first_unbound(pattern, fragments)
        if unbound is not None:
            item += 1
            text += text_line
            wanted.append(f"[{item}] refused: UnboundVariable {sig.variable(variables[unbound])}")
            had["unbound"] = had.get("unbound", 0) + 1
            continue
        evaluator = Evaluator(sig, equations, memberships, LIMIT, 300_000)
        try:
            answer = solutions(evaluator, pattern, subject, variables, is_part)
        except TooMuch:
            continue
        except End as end:
            item += 1
            text += text_line
            wanted += [f"[{item}] {command} in M", str(end)]
            had["sorts end"] = had.get("sorts end", 0) + 1
            continue
        listing, goes_on, line = Listing(sig, evaluator, answer, variables, fragments, is_part), True, text_line
        while goes_on:
            try:
                lines, goes_on = listing.lines(most)
            except TooMuch:
                return had, difference(program, text, wanted, ["--limit", str(LIMIT)])
            item += 1
            text += line
            wanted += [f"[{item}] {command} in M", *lines]
            word = "bounded" if goes_on else "all" if lines[-1].startswith("No ") else "ends"
            had[word] = had.get(word, 0) + 1
            goes_on = goes_on and r.random() < 0.8
            if goes_on:
                command, most = "continue", r.choice([None, 1, 2, 5])
                line = f"continue{f' {most}' if most else ''} .\n"
        had["solutions"] = had.get("solutions", 0) + len(listing.kept)
        had["passed"] = had.get("passed", 0) + listing.at - len(listing.kept)
    return had, difference(program, text, wanted, ["--limit", str(LIMIT)])


if __name__ == "__main__":
    compare_texts(compare)
