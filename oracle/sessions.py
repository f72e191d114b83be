#!/usr/bin/env python3
"""Compares how `mrew run` keeps its state between items with a plain reading of the specification, written apart from the code and its proofs.

usage: oracle/sessions.py PROGRAM FIRST LAST

For each number from FIRST on and below LAST it makes a text of small modules, some at fault and some of an earlier name, which include
each other, of listings and strategies with and without bounds, and of continue, select and settings. What matters is the state: the accepted modules,
the current one, what continue goes on with, and the exit status.
"""
import random
import sys

sys.dont_write_bytecode = True
from comparing import compare_texts, difference

NAMES = ["A", "B", "C", "BOOL", "NAT"]
MODES = ["protecting", "pr", "extending", "ex", "including", "inc"]
BOUNDS = [None, None, 1, 1, 1, 1, 2, 2, 3, 0, 10**12, 10**12 + 1, 10**40]


class Module:
    """A module with constants over one sort, its own and those of its imports; each has the name of its module and its version."""

    def __init__(self, name, constants):
        self.name, self.constants = name, constants


class Session:
    def __init__(self):
        self.modules = {name: Module(name, []) for name in ("TRUTH-VALUE", "TRUTH", "BOOL", "NAT")}
        self.current, self.listing, self.text, self.lines, self.items, self.words = "NAT", None, "", [], 0, []

    def answer(self, text, lines):
        """An item with its lines, the first without its number."""
        self.text += text
        self.items += 1
        self.lines += [f"[{self.items}] {lines[0]}", *lines[1:]]
        self.words.append(lines[0].removeprefix("refused: ").split()[0])

    def module(self, r, version):
        """A module of lists over constants; a fault is an unknown import, an unknown sort, or a cycle."""
        name = r.choice(NAMES)
        imports = r.sample(sorted({*self.modules, r.choice(NAMES), r.choice(["A", "D"])}), r.choice([0, 0, 1, 1, 2]))
        unknown = [it for it in imports if it not in self.modules]
        fault = r.choice(["", "", "", "", "", "", "sort", "cycle"])
        own = [f"k{version}{c}" for c in "ab"[: r.choice([1, 2])]]
        text = f"fmod {name} is {''.join(f'{r.choice(MODES)} {it} . ' for it in imports)}sort S . ops {' '.join(own)} : -> S . "
        text += "op nil : -> S . op __ : S S -> S [assoc id: nil] . "
        begin = len((self.text + text).encode())
        if fault == "sort":
            text += "op x : T -> S . "
            fault = f"UnknownSort {begin + len('op x : ')}"
        elif fault == "cycle":
            text += "subsort S < S . "
            fault = "Cycle S S"
        fault = f"UnknownModule {unknown[0]}" if unknown else fault
        if not fault:
            included = []
            for it in imports:
                included += [c for c in self.modules[it].constants if c not in included]
            self.modules[name], self.current = Module(name, included + own), name
        self.answer(text + "endfm\n", [f"refused: {fault}" if fault else f"module {name}"])

    def match(self, r):
        self.list(r, "match")

    def strategy(self, r):
        self.list(r, "dsrewrite")

    def list(self, r, word):
        """All cuts of a list in two, or one result of a strategy, with or without a bound."""
        named, bound = r.choice([None, None, None, None, None, None, *self.modules, *NAMES, "D"]), r.choice(BOUNDS)
        name, is_match = named or self.current, word == "match"
        head = f"{word}{'' if bound is None else f' [{bound}]'}{f' in {named} :' if named else ''} "
        module = self.modules.get(name)
        # (a constant that was never there has no reading)
        constants = r.sample(module.constants, min(len(module.constants), r.choice([1, 2, 3]))) if module else []
        goal = constants or ["none"]
        subject, show = " ".join(goal), lambda items: " ".join(items) or "nil"
        text = f"{head}{f'X:S Y:S <=? {subject}' if is_match else f'{subject} using idle'} .\n"
        if not module:
            lines = [f"refused: UnknownModule {name}"]
        elif bound is not None and not 1 <= bound <= 10**12:
            lines = ["refused: BadBound"]
        elif not constants:
            lines = [f"refused: NoParse {len((self.text + head).encode())}"]
        else:
            cuts = [[f"Matcher {at + 1}", f"X:S --> {show(goal[:at])}", f"Y:S --> {show(goal[at:])}"] for at in range(len(goal) + 1)]
            self.listing = [module.name, cuts if is_match else [["Solution 1", f"result S: {subject}"]], f"No more {'matches' if is_match else 'solutions'}."]
            lines = [f"{word} in {module.name}", *self.listed(bound)]
        self.answer(text, lines)

    def listed(self, bound):
        """The next answers of a listing, and how it is left."""
        name, answers, end = self.listing
        out, self.listing = answers[:bound], None
        if len(out) == bound:
            self.listing, end = [name, answers[bound:], end], "Bound reached."
        return [line for lines in out for line in lines] + [end]

    def go_on(self, r):
        bound = r.choice(BOUNDS)
        if bound is not None and not 1 <= bound <= 10**12:
            lines = ["refused: BadBound"]
        elif not self.listing:
            lines = ["refused: NothingToContinue"]
        else:
            name = self.listing[0]
            lines = [f"continue in {name}", *self.listed(bound)]
        self.answer(f"{r.choice(['continue', 'cont'])}{'' if bound is None else f' {bound}'} .\n", lines)

    def select(self, r):
        name = r.choice([*self.modules, *NAMES, "D"])
        if name in self.modules:
            self.current = name
        self.answer(f"select {name} .\n", ["ok" if name in self.modules else f"refused: UnknownModule {name}"])

    def other(self, r):
        at = len(self.text.encode())
        text, line = r.choice([("set show stats off", "ok"), ("set print mixfix on", "ok"), ("set trace off", "ok"), ("foo", f"refused: Unexpected {at}"),
                               ("show modules", f"refused: Unsupported show {at}"), ("dsrewrite in D : a using idle", "refused: UnknownModule D")])
        self.answer(text + " .\n", [line])


def compare(number, program):
    r, session = random.Random(number), Session()
    for version in range(r.randrange(4, 30)):
        usual = ["go_on"] * 6 if session.listing else ["match", "match", "match", "strategy", "strategy"]
        step = "module" if version < 3 else r.choice(["module", "match", "strategy", "go_on", "select", "other", *usual])
        if step == "module":
            session.module(r, version)
        else:
            getattr(session, step)(r)
    return session.words, difference(program, session.text, session.lines)


compare_texts(compare)
