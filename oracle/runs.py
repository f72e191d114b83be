#!/usr/bin/env python3
"""Compares `rewrite`, `frewrite` and `continue` on random system modules with a plain reading of the specification, written apart from the code.

usage: oracle/runs.py PROGRAM FIRST LAST [conditions [plain]]

For each number from FIRST on and below LAST it makes a module with random equations and rules, some arguments frozen, and runs rules on random terms in
it with small bounds and a small budget; with the word `conditions` statements have conditions, and there are memberships, but not with the word `plain` too.
What is compared is the count, the term with its shown sort, whether the bound was reached, and each end, of a run and of what goes on with it.
"""
import random
import sys

sys.dont_write_bytecode = True
from comparing import compare_texts, difference
from evaluation import End, Evaluator, Statement, TooMuch
from modules import random_module, random_term, suits
from prelude import bool_equations, signature_with_truth
from reduce import LIMIT, associative, random_statement, text_of, with_strategies
from signature import module_text, numbered


class Runner(Evaluator):
    """Runs of rules. A run stands at a term, with how many rules stand before the one that is tried first, by operator."""

    def __init__(self, sig, equations, memberships, rules, limit, tries):
        super().__init__(sig, equations, memberships, limit, tries)
        self.rules, self.turns, self.count = rules, {}, 0

    def value(self, term):
        value, count = self.evaluate(term, 1)
        self.count += count
        return value

    def places(self, term, around=lambda it: it):
        """The places in pre-order outside frozen arguments: a subterm, and the whole with something in its place."""
        yield term, around
        if isinstance(term, tuple) and term[0] != "v":
            for i, x in enumerate(term[1]):
                if not self.is_frozen(term[0], i):
                    yield from self.places(x, lambda it, i=i: around((term[0], (*term[1][:i], it, *term[1][i + 1:]))))

    def is_frozen(self, key, i):
        op = self.sig.operators[key]
        frozen = op.attrs.get("frozen", [])
        return bool(frozen) if op.attrs.get("assoc") else i in frozen

    def rewritten(self, term, around):
        """The whole term after the first rule by turn that applies at a place, or nothing."""
        top = term[0] if isinstance(term, tuple) and term[0] != "v" else None
        first = self.turns.get(top, 0) if top else 0
        for n in [*range(first, len(self.rules)), *range(first)]:
            rule = self.rules[n]
            for left, right, values in self.solutions(rule.variables, rule.left, term, 1, True) if not rule.nonexec else ():
                answer = self.solve(rule.variables, rule.fragments, values, 2)
                if answer is not None:
                    made = self.sig.norm(rule.right, answer[0])
                    whole = around(self.sig.over(term[0], [*left, made, *right]) if left or right else made)
                    self.spend()
                    self.count += answer[1] + 1
                    if top:
                        self.turns[top] = n + 1
                    return whole
        return None

    def spend(self):
        if self.budget == 0:
            raise End(f"Stopped: {self.limit}.")
        self.budget -= 1

    def rewrite(self, term, most):
        """The last term of a run, and whether the bound was reached."""
        term, made = self.value(term), 0
        while made != most:
            for place, around in self.places(term):
                whole = self.rewritten(place, around)
                if whole is not None:
                    break
            else:
                return term, False
            made += 1
            term = self.value(whole)
        return term, True

    def frewrite(self, term, most, gas):
        self.left, self.gas = most, gas
        term = self.admit(self.sig.norm(term))
        while True:
            self.made = False
            term = self.passed(term)
            if self.left == 0:
                return self.value(term), True
            if not self.made:
                return term, False

    def passed(self, term):
        """A pass over a term: its arguments from left to right, and then its top."""
        if isinstance(term, tuple) and term[0] != "v":
            term = (term[0], tuple(x if self.is_frozen(term[0], i) else self.passed(x) for i, x in enumerate(term[1])))
        if self.left == 0:
            return term
        term = self.value(term)
        for _ in range(self.gas):
            if self.left == 0:
                break
            found = self.rewritten(term, lambda it: it)
            if found is None:
                break
            self.left, self.made = self.left and self.left - 1, True
            term = self.value(found)
        return term

    def run(self, term, variables, most, gas, goes_on):
        """The lines of a run of rules, and the term at which it may go on, if it may."""
        self.budget, self.variables, self.count = self.limit, variables, 0
        if not goes_on:
            self.known, self.turns = {}, {}
        try:
            term, bound = self.frewrite(term, most, gas) if gas else self.rewrite(term, most)
            shown = f"result {self.shown_sort(term)}: {self.sig.shown(term, variables)[0]}"
            return [f"rewrites: {self.count}", shown, *(["Bound reached."] if bound else [])], term if bound else None
        except End as end:
            return [str(end)], None


def with_frozen(r, declarations):
    """Some arguments of some operators are frozen; of an associative one all."""
    seen, out = set(), []
    for name, args, result, attrs in declarations:
        if args and name not in seen and r.random() < 0.2:
            every = list(range(len(args)))
            attrs = {**attrs, "frozen": every if name in associative(declarations) else sorted(r.sample(every, r.randrange(1, len(args) + 1)))}
        seen.add(name)
        out.append((name, args, result, attrs))
    return out


def compare(number, program):
    r = random.Random(number)
    own, pairs, declarations, with_nat = random_module(r)
    module = own, pairs, with_frozen(r, with_strategies(r, declarations)), with_nat
    sig = signature_with_truth(module)
    if not suits(sig) or sig.refusal():
        return ["unsuited"], None
    of_equations = [it for it in (random_statement(sig, r) for _ in range(r.choice([0, 1, 3]))) if it]
    of_rules = [(*it[:3], False, it[4]) for it in (random_statement(sig, r) for _ in range(r.choice([2, 4, 6]))) if it and not isinstance(it[1], str)]
    text = module_text(*module)[: -len("endfm\n")].replace("fmod", "mod", 1)
    text += "".join(text_of(sig, it) for it in of_equations) + "".join(text_of(sig, it, "rl") for it in of_rules) + "endm\n"
    true = (("true", ()), ())
    make = lambda it: Statement(it[0], it[1], [("=", one, true) if sign == "Bool" else (sign, one, other) for sign, one, other in it[2]], it[3], it[4])
    made, rules = [make(it) for it in of_equations], [make(it) for it in of_rules]
    equations = bool_equations(sig) + [it for it in made if not isinstance(it.right, str)]
    runner = Runner(sig, equations, [it for it in made if isinstance(it.right, str)], rules, LIMIT, 600_000)
    wanted, item, had = ["[1] module M"], 1, {"modules": 1}
    for _ in range(5):
        term = random_term(sig, r, r.choice(sorted({sig.kind[a] for a in sig.sorts if a != "Bool"})), r.choice([1, 2, 3]), [("X", r.choice(sig.sorts))], 0.1)
        if term is None:
            continue
        variables, goes_on = [], False
        term, most = numbered(term, variables), r.choice([None, 1, 2, 3])
        gas = r.choice([0, 0, 1, 2])
        bound = f" [{most}{f', {gas}' if gas > 1 or gas and r.random() < 0.3 else ''}]" if most else ""
        gas = 1 if gas > 1 and not most else gas
        command = f"{'frewrite' if gas else 'rewrite'}{bound} {sig.source(term, variables)} .\n"
        while term is not None:
            try:
                lines, term = runner.run(term, variables, most, gas, goes_on)
            except TooMuch:
                return had, difference(program, text, wanted, ["--limit", str(LIMIT)])
            item += 1
            text += command
            wanted += [f"[{item}] {'continue' if goes_on else 'frewrite' if gas else 'rewrite'} in M", *lines]
            word = "ends" if len(lines) == 1 else "bounded" if len(lines) == 3 else "normal"
            had[word] = had.get(word, 0) + 1
            if r.random() < 0.4:
                break
            goes_on, most = True, r.choice([1, 2])
            command = f"continue {most} .\n"
    return had, difference(program, text, wanted, ["--limit", str(LIMIT)])


if __name__ == "__main__":
    compare_texts(compare)
