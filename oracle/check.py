#!/usr/bin/env python3
"""Compares `check` on random documents with a plain checker, written from the specification apart from the code and its proofs.

usage: oracle/check.py PROGRAM FIRST LAST

For each number from FIRST on and below LAST it makes a module with random statements, and a document of sections whose facts are justified, as far as they
were easily found; then most documents are altered: numbers and words of lines, items, modules, the size of the text. What is compared is all that the
program writes, and its exit status. Before the first one come the rows of the specification: a document, and what alterations of it are answered.
"""
import difflib
import random
import re
import subprocess
import sys

sys.dont_write_bytecode = True
import reduce
from comparing import compare_texts
from derivations import HOLE, Checker, Fault, holes, nested, put, read
from evaluation import Evaluator, Statement
from modules import random_module, suits
from prelude import bool_equations, signature_with_truth
from reduce import random_statement, text_of
from signature import module_text

reduce.HAS_CONDITIONS = True


class Section:
    """The lines of a section as they are made, in a module with a checker of its own."""

    def __init__(self, checker, r):
        self.checker, self.sig, self.r = checker, checker.sig, r
        self.lines, self.numbers, self.facts, self.said = [], {}, [], []
        self.names = {i: (name, r.choice(self.sig.sorts)) for i, name in enumerate(r.sample("XYZ", r.choice([0, 1, 2])))}
        checker.variables = {**self.names, **{HOLE + i: ("HOLE", kind) for i, kind in enumerate(checker.kinds)}}

    # ---- terms

    def random(self, kind, depth):
        """A random bare term of a kind, or nothing."""
        sig, r = self.sig, self.r
        fitting = [i for i, (_, sort) in self.names.items() if sig.kind[sort] == kind]
        if fitting and r.random() < 0.3:
            return ("v", r.choice(fitting))
        if "Nat" in sig.sorts and kind == sig.kind["Nat"] and r.random() < 0.5:
            return r.choice([0, 0, 1, 2, 3, 7, 2**127])
        found = [op for op in sig.of if op.result == kind and (depth > 0 or not op.kinds)]
        if not found:
            return None
        op = r.choice(found)
        args = tuple(self.random(k, depth - 1) for k in op.kinds)
        return None if None in args else (op.key, args)

    def context(self, kind):
        """A term with the hole of a kind."""
        sig, r, term = self.sig, self.r, self.checker.hole(kind)
        for _ in range(r.choice([0, 0, 1, 2])):
            found = [(op, i) for op in sig.of for i, k in enumerate(op.kinds) if k == kind]
            if not found:
                break
            op, place = r.choice(found)
            args = [term if i == place else self.random(k, 1) for i, k in enumerate(op.kinds)]
            if None not in args:
                term, kind = (op.key, tuple(args)), op.result
        return term

    def number(self, term):
        """The number of a term's line, which is added where there is none."""
        if term not in self.numbers:
            if isinstance(term, int):
                line = f"num {term}"
            elif term[0] == "v":
                name, sort = self.checker.variables[term[1]]
                line = f"var {name}:{sort}{']' if sort[0] == '[' else ''}"
            else:
                op, args = self.sig.op(term), list(term[1])
                while op.attrs.get("assoc") and self.r.random() < 0.5 and not isinstance(args[-1], int) and args[-1][0] == term[0]:
                    args[-1:] = args[-1][1]
                line = " ".join(["app", str(op.number + 1), *(str(self.number(x)) for x in args)])
            self.lines.append(line)
            self.numbers[term] = len(self.lines)
        return self.numbers[term]

    def other(self, term):
        """The same term, or one that is equal modulo the axioms."""
        return self.checker.bare(self.sig.norm(term)) if self.r.random() < 0.5 else term

    # ---- facts: each gives its number

    def add(self, said, *words):
        self.facts.append(" ".join(map(str, words)))
        self.said.append(said)
        return len(self.facts)

    def same(self, one, other):
        return self.add(("leads", True, one, other), "same", self.number(one), self.number(other))

    def values(self, statement):
        """Values of a statement's variables, and the facts that show its condition, as far as they are easily found."""
        r, sig, found, uses = self.r, self.sig, {}, []
        for i, (_, sort) in enumerate(statement.variables):
            kind = sig.kind.get(sort, sort)
            tries = [self.random(kind, r.choice([0, 1, 2])) for _ in range(4)] + [it[1] for it in self.said if it[0] == "sort" and r.random() < 0.5]
            tries = [it for it in tries if it is not None and self.checker.kind_in(it) == kind]
            if not tries:
                return None
            fitting = [it for it in tries if self.checker.has_sort(it, sort, self.said)]
            found[i] = r.choice(fitting if fitting and r.random() < 0.95 else tries)
            if sort not in self.checker.sorts(sig.norm(found[i]), []):
                uses += [n + 1 for n, it in enumerate(self.said) if it[0] == "sort" and self.checker.equal(it[1], found[i])]
        for sign, one, other in statement.fragments:
            if sign == ":=" and not isinstance(one, int) and one[0] == "v":
                found[one[1]] = put(other, found)
            one = put(one, found)
            if sign == ":":
                uses += [self.same(one, one), *(n + 1 for n, it in enumerate(self.said) if it[0] == "sort")]
            else:
                other = put(other, found)
                uses += [self.same(one, one), self.same(other, one if r.random() < 0.7 else other)]
        uses += [r.randrange(len(self.facts)) + 1 for _ in range(r.choice([0, 0, 1])) if self.facts]
        r.shuffle(uses)
        return [found[i] for i in range(len(statement.variables))], uses

    def in_context(self, word, number, term, made, rest):
        kind = self.checker.kind_in(term)
        context = self.context(kind) if kind else self.checker.hole(self.r.choice(self.checker.kinds))
        one, other = (self.other(self.checker.fill(context, it)) for it in (term, made))
        numbers = [self.number(it) for it in (context, one, other)]
        return self.add(("leads", "rl" not in word, one, other), *word, number, numbers[0], "from", numbers[1], "to", numbers[2], *rest)

    def step(self, kind, statements):
        if not statements:
            return None
        number = self.r.randrange(len(statements))
        chosen = self.values(statements[number])
        if chosen is None:
            return None
        named = dict(enumerate(chosen[0]))
        rest = ["bind", *map(self.number, chosen[0]), "uses", *chosen[1]]
        return self.in_context(["step", kind], number + 1, put(statements[number].left, named), put(statements[number].right, named), rest)

    def member(self):
        if not self.checker.memberships:
            return None
        number = self.r.randrange(len(self.checker.memberships))
        m = self.checker.memberships[number]
        chosen = self.values(m)
        if chosen is None:
            return None
        term = self.other(put(m.left, dict(enumerate(chosen[0]))))
        sort = self.r.choice([a for a in self.sig.sorts if self.sig.leq(m.right, a)])
        words = [self.number(term), self.sig.sorts.index(sort) + 1, "mb", number + 1, "bind", *map(self.number, chosen[0]), "uses", *chosen[1]]
        return self.add(("sort", term, sort), "sort", *words)

    def declared(self):
        term = self.random(self.r.choice(self.checker.kinds), 2)
        if term is None:
            return None
        uses = [n + 1 for n, it in enumerate(self.said) if it[0] == "sort" and self.r.random() < 0.7]
        has = self.checker.sorts(self.sig.norm(term), [self.said[n - 1][1:] for n in uses])
        sort = self.r.choice([a for a in self.sig.sorts if a in has or self.r.random() < 0.05] or self.sig.sorts)
        return self.add(("sort", term, sort), "sort", self.number(term), self.sig.sorts.index(sort) + 1, "decl", "uses", *uses)

    def built(self):
        sig, r = self.sig, self.r
        op = r.choice([op for op in sig.of if "hook" in op.attrs or op.name in ("_==_", "_=/=_", "if_then_else_fi")])
        args = [self.random(k, r.choice([0, 0, 1])) for k in op.kinds + op.kinds[:op.attrs.get("assoc", 0) * r.choice([0, 0, 1])]]
        if None in args:
            return None
        if op.name == "if_then_else_fi" and r.random() < 0.8:
            args[0] = ((r.choice(["true", "false"]), ()), ())
        made = self.checker.made(op, args)
        if made is None:
            made = r.choice(args)
        return self.in_context(["built"], op.number + 1, nested(sig, op.key, args), self.checker.bare(made), ["args", *map(self.number, args)])

    def leads(self, kind):
        """A fact that leads from a term of a kind."""
        found = [n + 1 for n, it in enumerate(self.said) if it[0] == "leads" and self.checker.kind_in(it[2]) == kind]
        if found and self.r.random() < 0.8:
            return self.r.choice(found)
        term = self.random(kind, 1)
        return None if term is None else self.same(term, self.other(term))

    def under(self):
        op = self.r.choice([op for op in self.sig.of if op.kinds])
        facts = [self.leads(k) for k in op.kinds + op.kinds[:op.attrs.get("assoc", 0) * self.r.choice([0, 1])]]
        if None in facts:
            return None
        said = [self.said[n - 1] for n in facts]
        one, other = (self.other(nested(self.sig, op.key, [it[place] for it in said])) for place in (2, 3))
        words = [op.number + 1, *facts, "from", self.number(one), "to", self.number(other)]
        return self.add(("leads", all(it[1] for it in said), one, other), "under", *words)

    def chain(self):
        first = next((n + 1 for n, it in sorted(enumerate(self.said), key=lambda _: self.r.random()) if it[0] == "leads"), None)
        if first is None:
            return None
        facts = [first]
        for _ in range(self.r.choice([0, 1, 1, 2])):
            end = self.said[facts[-1] - 1][3]
            found = [n + 1 for n, it in enumerate(self.said) if it[0] == "leads" and self.checker.equal(end, it[2])]
            facts.append(self.r.choice(found) if found else self.same(end, self.other(end)))
        said = [self.said[n - 1] for n in facts]
        return self.add(("leads", all(it[1] for it in said), said[0][2], said[-1][3]), "chain", *facts)

    def write(self, item):
        """Makes facts, and gives the lines of the section."""
        checker = self.checker
        kinds = [lambda: self.step("eq", checker.equations), lambda: self.step("eq", checker.equations), lambda: self.step("rl", checker.rules), self.member,
                 self.member, self.declared, self.built, self.under, self.under, self.chain]
        for _ in range(self.r.choice([0, 1, 3, 6, 9])):
            self.r.choice(kinds)()
        terms = [f"term {i + 1} {line}" for i, line in enumerate(self.lines)]
        return [f"section {item} M", *terms, *(f"fact {i + 1} {line}" for i, line in enumerate(self.facts)), "end"]


class Made(Checker):
    def made(self, op, args):
        """What is built in of an operator gives over terms, or nothing."""
        sig, normals = self.sig, [self.sig.norm(x) for x in args]
        if "hook" in op.attrs:
            normals = [x for item in normals for x in (sig.items(op.key, item) if op.attrs.get("assoc") else [item])]
            normals = sorted(normals, key=sig.order) if op.attrs.get("comm") else normals
        return self.built_in((op.key, tuple(normals)))


def alter(r, lines):
    """Some lines with a word changed, taken out, put in or exchanged with another one."""
    lines = list(lines)
    for _ in range(r.choice([1, 1, 2])):
        at = r.randrange(len(lines))
        words = lines[at].split(" ")
        numbers = [i for i, word in enumerate(words) if word.isdigit() and i != 1]
        how = r.random()
        if how < 0.7 and numbers:
            i = r.choice(numbers)
            words[i] = str(max(0, r.choice([int(words[i]) + 1, int(words[i]) - 1, r.randrange(1, 12)])))
        elif how < 0.8 and len(numbers) > 1:
            i, j = r.sample(numbers, 2)
            words[i], words[j] = words[j], words[i]
        elif how < 0.9:
            i = r.randrange(len(words))
            words[i:i + 1] = [] if r.random() < 0.6 else [words[i], r.choice(["1", "2", "0", "01", "uses", ""])]
        else:
            i = r.randrange(len(words))
            words[i] = r.choice(["rl", "eq", "same", "N", "HOLE:[Bool]", "X:Bool", "4294967296", "340282366920938463463374607431768211456", words[i] + "x"])
        lines[at] = " ".join(words)
        if r.random() < 0.05:
            del lines[at]
    return lines


def wanted(data, checkers):
    """The lines that a check writes, where `checkers` gives the checker of a module that is known before an item."""
    try:
        text, sections = read(data)
    except Fault as fault:
        return ["refused: {} {}".format(*fault.args)]
    out = []
    for section in sections:
        checker = checkers(text, section[0], section[1])
        out += checker.answer(section) if checker else [f"[{section[0]}] refused: UnknownModule {section[1]}"]
    return out


ROW = b"""mrew-facts 1
text 64
fmod P is sort S . ops a b : -> S . eq a = b . endfm
reduce a .

section 2 P
term 1 app 8
term 2 app 9
term 3 var HOLE:[S]
fact 1 step eq 10 3 from 1 to 2 bind uses
end
"""
ROWS = [("", "", "[2] accepted 1\nconclusion: a ---> b\n", 0), ("from 1 to 2", "from 2 to 1", "[2] rejected 1\n", 1), ("text 64", "text 65", "refused: Unexpected 6\n", 1),
        ("section 2 P", "section 2 Q", "[2] refused: UnknownModule Q\n", 1), ("section 2 P", "section 1 P", "[1] refused: UnknownModule P\n", 1),
        ("term 1 app 8", "term 1 app 9", "[2] rejected 1\n", 1), ("term 3 var HOLE:[S]", "term 3 var HOLE:[Bool]", "[2] rejected 1\n", 1),
        ("step eq 10", "step eq 11", "[2] rejected 1\n", 1), ("from 1 to 2", "from 1 to 4", "refused: BadNumber 10\n", 1)]


def compare_rows(program):
    """What is answered otherwise than the rows say, if something is."""
    for old, new, answer, status in ROWS:
        ran = subprocess.run([program, "check"], input=ROW.replace(old.encode(), new.encode(), 1) if old else ROW, capture_output=True)
        if (ran.stdout.decode(), ran.returncode) != (answer, status):
            return f"{old!r} changed to {new!r}: {ran.stdout.decode()!r} {ran.returncode}"
    return None


def compare(number, program):
    if number == 0:
        return ["rows"], compare_rows(program)
    r = random.Random(number)
    module = random_module(r)
    sig = signature_with_truth(module)
    if not suits(sig) or sig.refusal():
        return ["unsuited"], None
    kinds = [[], [], []]
    for _ in range(r.choice([3, 5, 8, 12])):
        if it := random_statement(sig, r):
            kinds[1 if isinstance(it[1], str) else 2 if r.random() < 0.3 and not it[3] else 0].append(it)
    text = module_text(*module)[: -len("endfm\n")].replace("fmod", "mod", 1)
    text += "".join(text_of(sig, it, keyword) for keyword, some in zip(("eq", "mb", "rl"), kinds) for it in some) + "endm\n"
    true = (("true", ()), ())
    made = [[Statement(left, right, [("=", one, true) if sign == "Bool" else (sign, one, other) for sign, one, other in fragments], owise, nonexec)
             for left, right, fragments, owise, nonexec in some] for some in kinds]
    evaluator = Evaluator(sig, [], [], 0)
    checker = Made(sig, bool_equations(sig) + made[0], made[1], made[2], lambda term: built_in(evaluator, term))
    lines = [line for _ in range(r.choice([1, 1, 2, 3])) for line in Section(checker, r).write(r.choice([2, 2, 2, 3, 9]))]
    had = ["altered" if r.random() < 0.6 else "whole"]
    size = len(text.encode())
    if had == ["altered"]:
        lines = alter(r, lines)
        if r.random() < 0.05:
            lines = [re.sub(r"section \d+ M", r.choice(["section 1 M", "section 0 M", "section 2 N"]), line) for line in lines]
        size += r.choice([0] * 20 + [1, -1, 100])
    data = f"mrew-facts 1\ntext {size}\n{text}\n".encode() + "".join(f"{line}\n" for line in lines).encode()
    known = lambda source, item, name: checker if name == "M" and item > 1 and source == text.encode() else None
    lines = wanted(data, known)
    ran = subprocess.run([program, "check"], input=data, capture_output=True)
    status = int(any(re.match(r"(\[\d+\] )?(refused: |rejected )", line) for line in lines))
    got, want = [*ran.stdout.decode().split("\n"), f"status {ran.returncode}"], [*lines, "", f"status {status}"]
    had += [re.search(r"(accepted|rejected|[A-Z]\w+)", line)[0] for line in lines if not line.startswith("conclusion")]
    return had, None if got == want else "\n".join([data.decode(), *difflib.unified_diff(want, got, "oracle", "mrew", lineterm="", n=2)])


def built_in(evaluator, term):
    """What is built in gives for an operator over normal forms, or nothing, also where it is too large."""
    try:
        return evaluator.built_in(term)
    except Exception:
        return None


if __name__ == "__main__":
    sys.setrecursionlimit(30_000)
    compare_texts(compare)
