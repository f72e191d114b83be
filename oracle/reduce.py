#!/usr/bin/env python3
"""Compares `reduce` on random modules with a plain evaluator, written from the specification apart from the code and its proofs.

usage: oracle/reduce.py PROGRAM FIRST LAST [conditions [plain]]

For each number from FIRST on and below LAST it makes a module with random equations, ordinary ones and `owise`, and reduces random terms in it, with a
small budget; with the word `conditions` equations have conditions, and there are memberships, but not with the word `plain` too. What is compared is the count, the value with its shown
sort, and each end. Modules that are refused are the other comparisons' matter.
"""
import random
import sys

sys.dont_write_bytecode = True
from comparing import compare_texts, difference
from evaluation import Evaluator, Statement, TooMuch
from modules import random_module, random_term, suits
from prelude import bool_equations, signature_with_truth
from signature import module_text, numbered
from statements_of import is_no_head, is_variable, pairs_of

LIMIT = 40
HAS_CONDITIONS = "conditions" in sys.argv[4:]
HAS_MEMBERSHIPS = HAS_CONDITIONS and "plain" not in sys.argv[4:]
sys.setrecursionlimit(30_000)


def random_fragments(sig, r, pool, bound):
    """Fragments whose variables are bound in order, with those that are bound behind them; or nothing."""
    kinds, out = sorted({sig.kind[a] for a in sig.sorts}), []
    for _ in range(r.choice([0, 1, 1, 2])):
        sign, kind = r.choice(["=", "=", ":=", ":", "Bool"]), r.choice(kinds)
        make = lambda kind, names: random_term(sig, r, kind, r.choice([0, 1, 1, 2]), sorted(names), 0.6)
        if sign == ":=":
            one, other = make(kind, pool), make(kind, bound)
        else:
            kind = sig.kind["Bool"] if sign == "Bool" else kind
            one = make(kind, bound)
            other = make(kind, bound) if sign == "=" else r.choice([a for a in sig.sorts if sig.kind[a] == kind]) if sign == ":" else None
        if one is None or other is None and sign != "Bool":
            return None
        out.append((sign, one, other))
        bound = bound | pairs_of(one)
    return out, bound


def random_statement(sig, r):
    """An equation or a membership that is accepted, with its text; or nothing."""
    kinds = sorted({sig.kind[a] for a in sig.sorts if a != "Bool"})
    pool = {(name, r.choice(sig.sorts) if r.random() < 0.9 else r.choice(kinds)) for name in r.sample("XYZW", r.choice([1, 2, 3]))}
    kind, is_membership = r.choice(kinds), HAS_MEMBERSHIPS and r.random() < 0.3
    left = random_term(sig, r, kind, r.choice([1, 1, 2]), sorted(pool), 0.5)
    if left is None or (is_no_head if is_membership else is_variable)(sig, left):
        return None
    fragments, bound = [], pairs_of(left)
    if HAS_CONDITIONS and r.random() < 0.5:
        found = random_fragments(sig, r, pool, bound)
        if found is None:
            return None
        fragments, bound = found
    right = r.choice([a for a in sig.sorts if sig.kind[a] == kind]) if is_membership else random_term(sig, r, kind, r.choice([0, 0, 1, 2]), sorted(bound), 0.6)
    if right is None:
        return None
    owise, nonexec = not is_membership and r.random() < 0.2, r.random() < 0.05
    return left, right, fragments, owise, nonexec


def text_of(sig, statement, keyword="eq"):
    """The text of an equation or a rule, by its keyword, or of a membership."""
    left, right, fragments, owise, nonexec = statement
    source = lambda term: term if isinstance(term, str) else sig.source(numbered(term, variables := []), variables)
    shown = [source(one) if sign == "Bool" else f"{source(one)} {sign} {source(other)}" for sign, one, other in fragments]
    word, sign = ("mb", ":") if isinstance(right, str) else (keyword, "=" if keyword == "eq" else "=>")
    attributes = " ".join(word for word, has in (("owise", owise), ("nonexec", nonexec)) if has)
    condition = " if " + " /\\ ".join(shown) if shown else ""
    return f"{'c' if shown else ''}{word} {source(left)} {sign} {source(right)}{condition}{f' [{attributes}]' if attributes else ''} .\n"


def associative(declarations):
    """The names that some declaration makes associative."""
    return {name for name, _, _, attrs in declarations if attrs.get("assoc")}


def with_strategies(r, declarations):
    """Some operators evaluate some of their arguments, in some order; an associative one all or none."""
    seen, out = set(), []
    for name, args, result, attrs in declarations:
        if args and name not in seen and r.random() < 0.2:
            count = r.choice([0, len(args)]) if name in associative(declarations) else r.randrange(len(args) + 1)
            attrs = {**attrs, "strat": r.sample(range(len(args)), count)}
        seen.add(name)
        out.append((name, args, result, attrs))
    return out


def compare(number, program):
    r = random.Random(number)
    own, pairs, declarations, with_nat = random_module(r)
    module = own, pairs, with_strategies(r, declarations), with_nat
    sig = signature_with_truth(module)
    if not suits(sig) or sig.refusal():
        return ["unsuited"], None
    statements = [it for it in (random_statement(sig, r) for _ in range(r.choice([2, 4, 6, 9]))) if it]
    text = module_text(*module)[: -len("endfm\n")] + "".join(text_of(sig, it) for it in statements) + "endfm\n"
    true = (("true", ()), ())
    made = [Statement(left, right, [("=", one, true) if sign == "Bool" else (sign, one, other) for sign, one, other in fragments], owise, nonexec)
            for left, right, fragments, owise, nonexec in statements]
    equations = bool_equations(sig) + [it for it in made if not isinstance(it.right, str)]
    memberships = [it for it in made if isinstance(it.right, str)]
    wanted, item, had = ["[1] module M"], 1, {"modules": 1}
    for _ in range(6):
        kinds = sorted({sig.kind[a] for a in sig.sorts})
        pool = [(name, r.choice(sig.sorts)) for name in "XY"]
        term = random_term(sig, r, r.choice(kinds), r.choice([1, 2, 3]), pool, 0.1)
        if term is None:
            continue
        variables = []
        term = numbered(term, variables)
        try:
            lines = Evaluator(sig, equations, memberships, LIMIT, 300_000).answer(term, variables)
        except TooMuch:
            continue
        item += 1
        text += f"reduce {sig.source(term, variables)} .\n"
        wanted += [f"[{item}] reduce in M", *lines]
        word = "ends" if len(lines) == 1 else "unchanged" if lines[0] == "rewrites: 0" else "reduced"
        had[word] = had.get(word, 0) + 1
    return had, difference(program, text, wanted, ["--limit", str(LIMIT)])


if __name__ == "__main__":
    compare_texts(compare)
