#!/usr/bin/env python3
"""Compares `dsrewrite` and `continue` on random system modules and strategies with a plain reading of the specification, written apart from the code.

usage: oracle/strategies.py PROGRAM FIRST LAST [conditions [plain]] [later]

For each number from FIRST on and below LAST it makes a module with random equations, labelled rules and definitions of strategies, and runs random
strategies on random terms in it, with small bounds and small budgets. With the word `conditions` statements have conditions, and there are memberships, but
not with the word `plain` too. What strategies are not searched for yet is decided here too, apart from the code, and few texts have it: such a command is
refused by name and changes nothing. With the word `later` all are searched for, as will be, and more of them are tried. What is compared is the solutions in
their order, how each listing ends, what goes on with it, and what is refused. Of a listing that is at its end it is also seen here that it has just the terms
that satisfy the strategy by its text.
"""
import random
import sys

sys.dont_write_bytecode = True
from comparing import compare_texts, difference
from evaluation import Statement, TooMuch
from modules import random_module, random_term, suits
from prelude import bool_equations, signature_with_truth
from reduce import random_fragments, random_statement, text_of, with_strategies
from runs import with_frozen
from signature import module_text, numbered
from statements_of import is_variable, kind_of, pairs_of
from walks import TESTS, TRUE, Definition, Walk, condition_text, numbered_strategy, source, text_of_strategy, variables_of

IS_LATER = "later" in sys.argv[4:]
LABELS = ["go", "turn", "end"]
LEAVES = ["idle", "fail", "all", "all", "label", "label", "label", "label", "top", "match", "match", "call", "call"]
FORMS = ["seq", "seq", "seq", "or", "or", "star", "star", "if", "orelse", "not", "try", "test", "plus", "normal"]


class World:
    """What random strategies name: a signature, rules with their labels, and strategies with the kinds of their arguments; and whether some labels have values."""

    def __init__(self, sig, r, rules, declared, assigns):
        self.sig, self.r, self.rules, self.declared, self.assigns = sig, r, rules, declared, assigns
        self.kinds = sorted({sig.kind[a] for a in sig.sorts if a != "Bool"})

    def term(self, kind, pairs, depth=1):
        return random_term(self.sig, self.r, kind, self.r.choice([0, 0, depth]), sorted(pairs), 0.5)

    def label(self, bound):
        """A label form, some with values for variables of a rule of this label, or for others."""
        r, (label, rule) = self.r, self.r.choice(self.rules)
        pairs, assigns = list(Statement(*rule[:3]).variables), []
        # (a variable that only a rule without a condition of being executable has to be given is given mostly)
        for pair in pairs if r.random() < (0 if not self.assigns else 0.8 if rule[4] else 0.25) else []:
            if r.random() < 0.7:
                given = pair if r.random() < 0.95 else ("X", r.choice(self.sig.sorts))
                term = self.term(self.sig.kind.get(given[1], given[1]), bound)
                if term is not None:
                    assigns.append((given, term))
        return "label", label, tuple(assigns)

    def test(self, bound):
        r = self.r
        pool = set(bound) | {(name, r.choice(self.sig.sorts)) for name in r.sample("UVW", 2)}
        pattern = random_term(self.sig, r, r.choice(self.kinds), r.choice([0, 1, 1]), sorted(pool), 0.5)
        if pattern is None:
            return ("idle",)
        found = random_fragments(self.sig, r, pool, set(bound) | pairs_of(pattern)) if r.random() < 0.5 else ([], None)
        return r.choice(TESTS), pattern, tuple(found[0] if found else ())

    def call(self, bound):
        if not self.declared:
            return ("all",)
        name, kinds = self.r.choice(self.declared)
        terms = tuple(self.term(kind, bound, 2) for kind in kinds)
        return ("all",) if None in terms else ("call", name, terms)

    def strategy(self, depth, bound):
        """A random strategy over variables that are bound outside."""
        r = self.r
        if depth == 0 or r.random() < 0.15:
            form = r.choice(LEAVES)
            if form == "top":
                return form, self.label(bound) if r.random() < 0.6 else ("all",)
            return getattr(self, "test" if form == "match" else form)(bound) if form in ("label", "match", "call") else (form,)
        form = r.choice(FORMS)
        return (form, *(self.strategy(depth - 1, bound) for _ in range(3 if form == "if" else 2 if form in ("seq", "or", "orelse") else 1)))

    def definition(self, name, kinds):
        """A random definition as it is written: its arguments, its fragments and its body; or nothing."""
        r = self.r
        pool = {(name, r.choice(self.sig.sorts)) for name in r.sample("PQR", 2)}
        args = tuple(self.term(kind, pool) for kind in kinds)
        if None in args:
            return None
        bound = {pair for it in args for pair in pairs_of(it)}
        found = random_fragments(self.sig, r, pool, bound) if r.random() < 0.3 else ([], bound)
        if found is None:
            return None
        body = self.strategy(r.choice([0, 1, 2]), found[1])
        if r.random() < 0.3:
            body = ("orelse" if r.random() < 0.2 else r.choice(["seq", "or"]), body, self.call(found[1]))
        return name, args, body, tuple(found[0])


def definition_text(sig, name, args, body, fragments):
    left = f"{name}({', '.join(source(sig, it) for it in args)})" if args else name
    condition = f" if {condition_text(sig, fragments, False)}" if fragments else ""
    return f"{'c' if fragments else ''}sd {left} := {text_of_strategy(sig, body)}{condition} .\n"


def simple_rule(sig, r):
    """A rule that often applies, over few and small terms; or nothing."""
    kind = r.choice(sorted({sig.kind[a] for a in sig.sorts if a != "Bool"}))
    left = random_term(sig, r, kind, r.choice([0, 0, 0, 1]), [("X", r.choice(sig.sorts)), ("Y", r.choice(sig.sorts))], 0.5)
    if left is None or is_variable(sig, left):
        return None
    right = random_term(sig, r, kind, r.choice([0, 0, 0, 1]), sorted(pairs_of(left)), 0.7)
    return None if right is None else (left, right, [], False, False)


def random_rules(sig, r):
    """Rules, some with a rewriting fragment, some with a variable that has to be given."""
    out, chances = [], (0.12, 0.7, 0.03) if IS_LATER else (0.1, 0.85, 0.01)
    for it in (r.choice([random_statement, simple_rule, simple_rule, simple_rule])(sig, r) for _ in range(r.choice([4, 6, 8]))):
        if it and not isinstance(it[1], str):
            nonexec, kind = r.random() < chances[0], kind_of(sig, it[0])
            given = ("N", r.choice([a for a in sig.sorts if sig.kind[a] == kind]))
            right = random_term(sig, r, kind, 1, [given], 0.7) if nonexec and r.random() < chances[1] else it[1]
            reach = [("=>", it[0], it[0])] if r.random() < chances[2] * (5 if nonexec else 1) else []
            out.append((it[0], it[1] if right is None else right, it[2] + reach, False, nonexec))
    return out


def made(it):
    return Statement(it[0], it[1], [("=", one, TRUE) if sign == "Bool" else (sign, one, other) for sign, one, other in it[2]], it[3], it[4])


def random_world(r, module):
    """A random module with rules and strategies: its text, what is in it, and what makes runs in it. Nothing where it isn't suited."""
    sig = signature_with_truth(module)
    if not suits(sig) or sig.refusal():
        return None
    statements = [it for it in (random_statement(sig, r) for _ in range(r.choice([0, 0, 1, 2]))) if it]
    of_rules = random_rules(sig, r)
    if not of_rules:
        return None
    labels, kinds = ["go", *(r.choice(LABELS) for _ in of_rules[1:])], sorted({sig.kind[a] for a in sig.sorts if a != "Bool"})
    names = r.choice([[], [("plan", 0)], [("plan", 1)], [("plan", 0), ("other", 1)], [("plan", 2), ("plan", 1), ("turn", 0)]])
    declared = [(name, tuple(r.choice(kinds) for _ in range(count))) for name, count in names]
    hidden = {name for name, _ in declared}
    world = World(sig, r, [(label, it) for label, it in zip(labels, of_rules) if label not in hidden], declared, IS_LATER or r.random() < 0.3)
    definitions = [it for name, kinds in declared for it in [world.definition(name, kinds) for _ in range(r.choice([0, 1, 1, 2]))] if it]
    text = module_text(*module)[: -len("endfm\n")].replace("fmod", "smod" if declared else "mod", 1) + "".join(text_of(sig, it) for it in statements)
    text += "".join(text_of(sig, it, "rl").replace("rl ", f"rl [{label}] : ", 1) for it, label in zip(of_rules, labels))
    for name, kinds in declared:
        text += f"strat {name}{' :' if kinds else ''} {' '.join(kind[1:] for kind in kinds)} @ {r.choice(module[0])} .\n"
    text += "".join(definition_text(sig, *it) for it in definitions) + ("endsm\n" if declared else "endm\n")
    rules = [made(it) for it in of_rules]
    for rule, label in zip(rules, labels):
        rule.label = label
    equations = bool_equations(sig) + [made(it) for it in statements if not isinstance(it[1], str)]
    memberships = [made(it) for it in statements if isinstance(it[1], str)]
    world.is_refused = lambda strategy: is_refused(rules, definitions, strategy)
    world.runs_none = any(not it.nonexec and rewrites(it.fragments) for it in rules)
    return text, world, lambda limit: Walk(sig, equations, memberships, rules, [Definition(*it) for it in definitions], limit, 100_000)


# ---- what strategies are not searched for yet, by their parts as they are written


def rewrites(fragments):
    return any(sign == "=>" for sign, _, _ in fragments)


def is_determined(rule):
    """Whether a rule with `nonexec` might be used all the same, since its left side and what is matched in its condition have all its variables."""
    matched = [one for sign, one, _ in rule.fragments if sign == ":="]
    return rule.nonexec and {v for it in [rule.left, *matched] for v in variables_of(it)} == set(range(len(rule.variables)))


def is_open(pattern, fragments):
    """Whether the condition of a test has a variable that neither the pattern nor what is matched before has."""
    bound = pairs_of(pattern)
    for sign, one, other in fragments:
        needed = {"Bool": [one], "=": [one, other], ":": [one], ":=": [other]}[sign]
        if any(pairs_of(it) - bound for it in needed):
            return True
        bound = bound | (pairs_of(one) if sign == ":=" else set())
    return False


def parts_of(strategy):
    """A strategy and all those in it."""
    yield strategy
    if strategy[0] not in ("label", "call", *TESTS):
        for part in strategy[1:]:
            yield from parts_of(part)


def is_unsearched(rules, strategy, is_own):
    """Whether a part of a strategy, in a command itself or in a definition, is a label with values, takes a rule that is determined, or is a test that is open."""
    for form, *parts in parts_of(strategy):
        if form == "label" and parts[1] or form in TESTS and (rewrites(parts[1]) or is_own and is_open(*parts)):
            return True
        if form in ("all", "label") and any(is_determined(it) for it in rules if form == "all" or it.label == parts[0]):
            return True
    return False


def is_refused(rules, definitions, strategy):
    """Whether the strategy of a command isn't searched for; one with a call needs that all definitions of the module are, called or not."""
    has_call = any(part[0] == "call" for part in parts_of(strategy))
    return is_unsearched(rules, strategy, True) or has_call and any(rewrites(it[3]) or is_unsearched(rules, it[2], False) for it in definitions)


# ---- commands


def answers(r, world, walk, going, at):
    """The text, the long name and the lines of a random command that begins at a place, and of what goes on with it, each with its walk. `going` is what may
    go on before: a walk with its solutions, nothing, or "unknown"."""
    sig, pool = world.sig, [("N", r.choice(world.sig.sorts))] if r.random() < 0.3 else []
    term = random_term(sig, r, r.choice(world.kinds), r.choice([1, 2, 2]), pool, 0.2)
    written = world.strategy(r.choice([1, 2, 3]), set(pool) if IS_LATER or r.random() < 0.6 else set())
    if r.random() < 0.3:
        written = r.choice(["star", "plus"]), ("or", *r.sample([("all",), written], 2))
    using = text_of_strategy(sig, written)
    if term is None or len(using) > 1500:
        return
    variables, most = [], r.choice([None, None, 1, 2])
    term = numbered(term, variables)
    word, most = r.choice(["dsrewrite", "dsrew"]), 0 if r.random() < 0.02 else most
    command = f"{word}{'' if most is None else f' [{most}]'} {sig.source(term, variables)} using {using} .\n"
    runs_none, isnt_searched = not IS_LATER and world.runs_none, not IS_LATER and world.is_refused(written)
    if runs_none or most == 0 or isnt_searched:
        yield command, "", ["refused: BadBound" if most == 0 and not runs_none else f"refused: NotBuilt {word} {at}"], going
    else:
        lines, solutions, goes_on = walk.listing(term, numbered_strategy(written, variables), variables, most)
        going = (walk, solutions) if goes_on else None
        yield command, "dsrewrite", lines, going
    while going and going != "unknown" and r.random() < 0.8:
        most, (walk, solutions) = r.choice([None, 1, 1, 2, 3]), going
        lines, goes_on = walk.lines(solutions, most)
        going = going if goes_on else None
        yield f"continue{f' {most}' if most else ''} .\n", "continue", lines, going
    if not going and r.random() < 0.1:
        yield "continue .\n", "", ["refused: NothingToContinue"], None


def compare(number, program):
    r = random.Random(number)
    own, pairs, declarations, with_nat = random_module(r)
    found = random_world(r, (own, pairs, with_frozen(r, with_strategies(r, declarations)), with_nat))
    if not found:
        return ["unsuited"], None
    (text, world, start), limit = found, r.choice([15, 60, 60, 60, 150, 450])
    wanted, item, had = ["[1] module M"], 1, {"modules": 1}
    going = None
    for _ in range(5):
        walk = start(limit)
        try:
            for command, word, lines, goes_on in answers(r, world, walk, going, len(text.encode())):
                walked = going[0] if word == "continue" else walk
                if lines[-1] in ("No solution.", "No more solutions.") and not walked.all_found():
                    raise AssertionError(f"text {number}: what was listed isn't what satisfies the strategy\n{text}{command}")
                going = goes_on
                item += 1
                text += command
                head = [f"{word} in M"] if word else []
                wanted += [f"[{item}] {(head + lines)[0]}", *(head + lines)[1:]]
                had["solutions"] = had.get("solutions", 0) + sum(it.startswith("Solution") for it in lines)
                ending = lines[-1].split(":")[0] if word else lines[-1].split()[1]
                had[ending] = had.get(ending, 0) + 1
        except TooMuch:
            # (whether what went on before still does isn't known where a walk was given up in the middle)
            going = "unknown" if going else None
    return had, difference(program, text, wanted, ["--limit", str(limit)])


if __name__ == "__main__":
    sys.setrecursionlimit(30_000)
    compare_texts(compare)
