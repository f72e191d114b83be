#!/usr/bin/env python3
"""Compares `mrew run` on random modules with a brute-force reading of the definitions, written apart from the code and its proofs.

usage: oracle/match.py PROGRAM FIRST LAST

For each number from FIRST on and below LAST it makes a module with random sorts, operators and axioms, and commands over it: match and
xmatch with and without bounds, and continue. What the transcript should be is found here by trying all values for all variables. It
prints each text whose transcript differs, and at the end what was compared. It says nothing of texts that are larger, of other commands,
and of how mixfix text is read: operators are written in prefix form. `mrew` is proved and needs no such test; what is tested is that
the definitions say what the specification means.
"""
import itertools
import random
import sys

sys.dont_write_bytecode = True
from comparing import compare_texts, difference
from modules import random_module, random_term, signature_of, suits
from signature import module_text, numbered

# ---- solutions

def first_places(sig, term, under, found):
    """The variables of a term by first occurrence, each with the associative operator of which it is an argument there."""
    if isinstance(term, int):
        return
    if term[0] == "v":
        found.setdefault(term[1], under)
        return
    for x in term[1]:
        first_places(sig, x, term[0] if sig.op(term).attrs.get("assoc") else None, found)


def around(sig, key, subject, part):
    """The contexts between which a part stands in a subject, all of them lists under an operator."""
    whole, part = sig.items(key, subject), sig.items(key, part)
    if sig.operators[key].attrs.get("comm"):
        for x in part:
            if x not in whole:
                return []
            whole.remove(x)
        found = [((), tuple(whole))]
    else:
        n = len(part)
        found = [(tuple(whole[:i]), tuple(whole[i + n:])) for i in range(len(whole) - n + 1) if whole[i:i + n] == part]
    return [it for it in found if len(part) >= 2 or not any(it)]


def solutions(sig, pattern, subject, variables, is_part, most=200_000):
    """The variables of a pattern, its associative top, and its solutions in order: contexts, instance and values; nothing where there is too much to try."""
    places = {}
    first_places(sig, pattern, None, places)
    whole, known, shape = sig.norm(subject), {}, sig.norm(pattern)
    top = shape[0] if is_part and isinstance(shape, tuple) and shape[0] != "v" and sig.op(shape).attrs.get("assoc") else None
    parts = sig.parts(whole)
    choices = [[t for t in parts if variables[v][1] in sig.sorts_of(t, variables, known)] for v in places]
    count = 1
    for it in choices:
        count *= max(1, len(it))
    if count > most:
        return None
    found = {}
    for values in itertools.product(*choices):
        instance = sig.norm(pattern, dict(zip(places, values)))
        contexts = around(sig, top, whole, instance) if top else [((), ())] if instance == whole else []
        for left, right in contexts:
            order = [tuple(map(sig.order, left))]
            for under, value in zip(places.values(), values):
                order.append(tuple(map(sig.order, sig.items(under, value))) if under else sig.order(value))
            found[left, right, values] = order, left, right, instance, values
    return list(places), top, sorted(found.values(), key=lambda it: it[0])


def listed(sig, answer, variables, is_part, begin, bound):
    """The lines of the solutions from one on, at most so many; how many were shown by then, and whether one may go on."""
    places, top, found = answer
    show = lambda term: sig.shown(term, variables)[0]
    out, at = [], begin
    while at < len(found) and at - begin != bound:
        _, left, right, instance, values = found[at]
        at += 1
        out.append(f"Matcher {at}")
        if is_part and not left and not right:
            out.append("Matched portion = (whole)")
        elif is_part:
            out.append(f"Matched portion = {show(instance)}")
            names = ["Left context", "Rest" if sig.operators[top].attrs.get("comm") else "Right context"]
            out += [f"{name} = {show(sig.over(top, list(it)))}" for name, it in zip(names, (left, right)) if it]
        out += [f"{sig.variable(variables[v])} --> {show(value)}" for v, value in zip(places, values)] or ["empty substitution"]
    if at - begin == bound:
        return out + ["Bound reached."], at, True
    return out + ["No more matches." if found else "No match."], at, False


# ---- random questions

def size(term):
    return 1 if isinstance(term, int) or term[0] == "v" else 1 + sum(map(size, term[1]))


def random_question(sig, r):
    """A pattern and a subject of one kind, more often than not such that there are solutions; or nothing."""
    kinds = sorted({sig.kind[a] for a in sig.sorts if a != "Bool"})
    kind = r.choice(kinds)
    names = r.sample("XYZW", r.choice([1, 2, 2, 3]))
    pool = [(name, r.choice(sig.sorts) if r.random() < 0.85 else r.choice(kinds)) for name in names]
    pattern = random_term(sig, r, kind, r.choice([1, 2, 2, 3]), pool, 0.55)
    if pattern is None:
        return None
    if r.random() >= 0.75:
        subject = random_term(sig, r, kind, r.choice([1, 2, 3]), pool, 0.15)
        return None if subject is None else (pattern, subject)
    values = {}

    def instance(term):
        if isinstance(term, int):
            return term
        if term[0] == "v":
            if term[1] not in values:
                value = random_term(sig, r, sig.kind.get(term[1][1], term[1][1]), r.choice([0, 0, 1, 2]), [], 0)
                values[term[1]] = term if value is None else value
            return values[term[1]]
        return (term[0], tuple(map(instance, term[1])))

    subject = instance(pattern)
    for _ in range(r.choice([0, 0, 1, 2])):
        wider = [op for op in sig.of if op.kinds == (kind, kind) and op.result == kind]
        other = random_term(sig, r, kind, r.choice([0, 1]), [], 0)
        if not wider or other is None:
            break
        subject = (r.choice(wider).key, (subject, other) if r.random() < 0.5 else (other, subject))
    return pattern, subject


def compare(number, program):
    r = random.Random(number)
    module = random_module(r)
    sig = signature_of(module)
    if not suits(sig):
        return ["unsuited"], None
    text, wanted, item, shown = module_text(*module), ["[1] module M"], 1, 0
    refusal = sig.refusal()
    if refusal:
        wanted = [f"[1] refused: {refusal}"]
    for _ in range(0 if refusal else 6):
        question = random_question(sig, r)
        if not question or size(question[0]) > 12 or size(question[1]) > 17:
            continue
        variables, is_part = [], r.random() < 0.5
        pattern, subject = (numbered(it, variables) for it in question)
        answer = solutions(sig, pattern, subject, variables, is_part)
        source = [sig.source(it, variables) for it in (pattern, subject)]
        if answer is None:
            continue
        shown += len(answer[2])
        command, bound = "xmatch" if is_part else "match", r.choice([None, None, 1, 2, 3])
        text += f"{command}{f' [{bound}]' if bound else ''} {source[0]} <=? {source[1]} .\n"
        at, goes_on = 0, True
        while goes_on:
            lines, at, goes_on = listed(sig, answer, variables, is_part, at, bound)
            item += 1
            wanted += [f"[{item}] {command} in M", *lines]
            goes_on = goes_on and r.random() < 0.8
            if goes_on:
                command, bound = "continue", r.choice([None, 1, 2, 5])
                text += f"continue{f' {bound}' if bound else ''} .\n"
    had = {"refused": 1} if refusal else {"answered": 1, "commands": item - 1, "solutions": shown}
    return had, difference(program, text, wanted)


if __name__ == "__main__":
    compare_texts(compare)
