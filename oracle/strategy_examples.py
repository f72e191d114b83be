#!/usr/bin/env python3
"""Prints what the examples of strategies have to answer, by the plain evaluator: the expected transcripts were made from this.

usage: oracle/strategy_examples.py [NAME]

A module is given by its sorts, pairs, declarations and statements, with terms in prefix form; examples/NAME.maude, or examples/strategies/NAME.maude, has the same module
as a user writes it.
"""
import re
import sys

sys.dont_write_bytecode = True
from evaluation import Statement
from examples import Module, op, term_of
from signature import numbered
from walks import MARKS, SIGNS, TESTS, TRUE, Definition, Walk, numbered_strategy

WORD = re.compile(r"[()\[\],]|[^\s()\[\],]+")
FORM_OF = {sign: form for form, (sign, _) in SIGNS.items()}
LEVEL_OF = dict(SIGNS.values())
MARK_OF = {mark: form for form, mark in MARKS.items()}
ENDS = {*FORM_OF, "?", ":", "s.t."}


class Reader:
    """Reads the text of a strategy whose terms are in prefix form; `declared` has the names of strategies."""

    def __init__(self, sig, declared, text):
        self.sig, self.declared, self.words, self.at = sig, declared, WORD.findall(text), 0

    def word(self):
        return self.words[self.at] if self.at < len(self.words) else None

    def take(self, *words):
        """Goes on behind the next word, which is one of these, if they are given."""
        word, self.at = self.word(), self.at + 1
        assert not words or word in words, (word, words)
        return word

    def whole(self):
        strategy = self.strategy(6)
        assert self.word() is None, self.word()
        return strategy

    def strategy(self, level):
        if level == 6:
            e = self.strategy(5)
            if self.word() != "?":
                return e
            self.take()
            f = self.strategy(6)
            self.take(":")
            return "if", e, f, self.strategy(6)
        if level > 2:
            e = self.strategy(level - 1)
            if LEVEL_OF.get(self.word()) != level:
                return e
            return FORM_OF[self.take()], e, self.strategy(level)
        e = self.leaf()
        while self.word() in MARK_OF:
            e = MARK_OF[self.take()], e
        return e

    def leaf(self):
        word = self.take()
        if word == "(":
            e = self.strategy(6)
            self.take(")")
            return e
        if word in TESTS:
            pattern, condition = term_of(self.sig, self.part(ENDS)), ""
            if self.word() == "s.t.":
                self.take()
                condition = self.part(ENDS)
            return word, pattern, fragments_of(self.sig, condition)
        if word in ("idle", "fail", "all"):
            return (word,)
        if word in ("top", "not", "try", "test"):
            self.take("(")
            e = self.strategy(6)
            self.take(")")
            return word, e
        end, values = {"(": ")", "[": "]"}.get(self.word()), []
        while end and self.take() != end:
            values.append(self.part({",", end}))
        if word in self.declared:
            return "call", word, tuple(term_of(self.sig, it) for it in values)
        pairs = (it.split(" <- ") for it in values)
        return "label", word, tuple((tuple(x.split(":")), term_of(self.sig, it)) for x, it in pairs)

    def part(self, ends):
        words, depth = [], 0
        while self.word() is not None and (depth or self.word() not in {*ends, ")", "]"}):
            depth += (self.word() in ("(", "[")) - (self.word() in (")", "]"))
            words.append(self.take())
        return " ".join(words)


def fragments_of(sig, text):
    out = []
    for it in text.split(" /\\ ") if text else []:
        for sign in (":=", "=", ":"):
            if f" {sign} " in it:
                one, other = it.split(f" {sign} ")
                out.append((sign, term_of(sig, one), other.strip(" )") if sign == ":" else term_of(sig, other)))
                break
        else:
            out.append(("Bool", term_of(sig, it), None))
    return tuple(out)


class Strategies(Module):
    """A module with rules, LABEL : LEFT => RIGHT if CONDITION, and definitions of strategies, CALL := STRATEGY if CONDITION."""

    def __init__(self, name, sorts, pairs, declarations, equations, rules, definitions=(), with_nat=True):
        super().__init__(name, sorts, pairs, declarations, equations, with_nat)
        self.rules, self.declared = [self.rule(it) for it in rules], {re.split(r"[( ]", it)[0] for it in definitions}
        self.definitions = [self.definition(it) for it in definitions]

    def rule(self, text):
        label, text = text.split(" : ", 1)
        text, _, condition = text.partition(" if ")
        fragments = [("=", one, TRUE) if sign == "Bool" else (sign, one, other) for sign, one, other in fragments_of(self.sig, condition)]
        rule = Statement(*(term_of(self.sig, it) for it in text.split(" => ")), fragments)
        rule.label = label
        return rule

    def definition(self, text):
        call, text = text.split(" := ", 1)
        text, _, condition = text.partition(" if ")
        name, args = Reader(self.sig, {call.split("(")[0]}, call).leaf()[1:]
        return Definition(name, args, Reader(self.sig, self.declared, text).whole(), fragments_of(self.sig, condition))

    def lists(self, commands, limit=1_000_000):
        """The answers of commands: each a bound, a term and a strategy, or the number of `continue`."""
        for command in commands:
            if isinstance(command, tuple):
                most, text, strategy = command
                variables = []
                term = numbered(term_of(self.sig, text), variables)
                walk = Walk(self.sig, self.equations, [], self.rules, self.definitions, limit, 10**12)
                lines, solutions, _ = walk.listing(term, numbered_strategy(Reader(self.sig, self.declared, strategy).whole(), variables), variables, most)
            else:
                lines, _ = walk.lines(solutions, command)
            assert not lines[-1].startswith("No ") or walk.all_found()
            yield [f"{'dsrewrite' if isinstance(command, tuple) else 'continue'} in {self.name}", *lines]


def show(module, commands, before=()):
    for number, name in enumerate([*before, module.name], 1):
        print(f"[{number}] module {name}")
    for number, lines in enumerate(module.lists(commands), len(before) + 2):
        print(f"[{number}] {lines[0]}", *lines[1:], sep="\n")


PLACE = op("__", "Place Place", "Place", assoc=1, comm=1)
COINS = "Coin Item Place", "Coin<Place Item<Place", [op("$", "", "Coin"), op("q", "", "Coin"), op("a", "", "Item"), op("c", "", "Item"), PLACE]
SALES = ["buy-c : $ => c", "buy-a : $ => __(a, q)", "change : __(q, __(q, __(q, q))) => $"]


def machine():
    two = "__($, $)"
    show(Strategies("VENDING", *COINS, [], SALES, with_nat=False), [
        (None, two, "buy-c ; buy-a"), (None, two, "fail"), (None, two, "idle *"), (None, "$", "(change | buy-c) ? idle : buy-a"), (None, two, "all !"),
        (1, two, "all *"), 2, None, (None, two, "buy-a ; xmatch __(a, $) ; buy-c"), (None, "__(q, __(q, __(q, __(q, $))))", "change ; test(change) or-else buy-c +")])


def shopping():
    two = "__($, $)"
    show(Strategies("SHOPPING", *COINS, [], SALES, [
        "spend := all !", "apples := try(buy-a or-else change) ; (amatch $ ? apples : idle)", "get(X:Item) := all * ; amatch X:Item", "twice(X:Item) := get(X:Item) ; get(X:Item)",
        "loop := loop"], with_nat=False), [
        (None, two, "spend"), (None, two, "apples"), (None, "$", "get(c)"), (2, two, "twice(a)"), (None, "$", "get(a) ; not(get(c))"), (None, "$", "loop"),
        (None, "$", "idle | loop")])


def frogs():
    row = lambda *xs: xs[0] if len(xs) == 1 else f"__({xs[0]}, {row(*xs[1:])})"
    show(Strategies("FROGS", "Leaf", "", [op(x, "", "Leaf") for x in ("f", "t", "o")] + [op("__", "Leaf Leaf", "Leaf", assoc=1)], [], [
        f"hop : {row('f', 'o')} => {row('o', 'f')}", f"leap : {row('f', 't', 'o')} => {row('o', 't', 'f')}", f"hop : {row('o', 't')} => {row('t', 'o')}",
        f"leap : {row('o', 'f', 't')} => {row('t', 'f', 'o')}"], [
        f"solved := xmatch {row('t', 't', 'o', 'f', 'f')}", "cross := leap * ; (match X:Leaf ; solved or-else (hop ; cross))"], with_nat=False), [
        (None, row("f", "f", "o", "t", "t"), "all !"), (1, row("f", "f", "o", "t", "t"), "all * ; solved"), None, (None, row("f", "o", "t"), "all *"),
        (None, row("f", "f", "o", "t", "t"), "hop ; leap ; not(solved)"), (None, row("f", "f", "o", "t", "t"), "cross"),
        (None, row("f", "f", "o", "t", "t"), "leap or-else hop")], ["FROGS-RULES"])


def rows(*ns):
    return "none" if not ns else str(ns[0]) if len(ns) == 1 else f"__({ns[0]}, {rows(*ns[1:])})"


def board(definitions):
    return Strategies("QUEENS", "Rows Queens Board", "Nat<Rows", [
        op("none", "", "Rows"), op("__", "Rows Rows", "Rows", assoc=1, comm=1, id=(("none", ()), ()), prec=40), op("nil", "", "Queens"),
        op("_;_", "Nat Queens", "Queens", prec=45, gather="eE"), op("_free:_", "Rows Queens", "Board", prec=50), op("safe", "Nat Nat Queens", "Bool")], [
        "safe(N:Nat, D:Nat, nil) = true",
        "safe(N:Nat, D:Nat, _;_(M:Nat, L:Queens)) = if_then_else_fi(_==_(sd(N:Nat, M:Nat), D:Nat), false, safe(N:Nat, s_(D:Nat), L:Queens))"], [
        "put : _free:_(__(N:Nat, R:Rows), L:Queens) => _free:_(R:Rows, _;_(N:Nat, L:Queens)) if safe(N:Nat, 1, L:Queens)"], [
        "solve := match _free:_(none, L:Queens) ? idle : (put ; solve)", *definitions])


def queens():
    show(board([]), [
        (None, f"_free:_({rows(1, 2, 3, 4)}, nil)", "solve"), (None, f"_free:_({rows(1, 2, 3)}, nil)", "solve"),
        (1, f"_free:_({rows(1, 2, 3, 4, 5)}, nil)", "put ! ; match _free:_(none, L:Queens)"), 2, (None, f"_free:_({rows(1, 2, 3)}, nil)", "put !")])


def placed():
    show(board(["first(N:Nat) := put[N:Nat <- N:Nat] ; solve", "all-first(0) := fail", "all-first(s_(N:Nat)) := first(s_(N:Nat)) or-else all-first(N:Nat)"]), [
        (None, f"_free:_({rows(1, 2, 3, 4, 5)}, nil)", "first(3)"), (None, f"_free:_({rows(1, 2, 3, 4)}, nil)", "first(1)"), (None, f"_free:_({rows(1, 2, 3, 4)}, nil)", "all-first(4)"),
        (None, f"_free:_({rows(1, 2, 3, 4)}, nil)", "put[N:Nat <- 1] ; put ; not(put)"), (None, f"_free:_({rows(1, 2, 3)}, nil)", "all-first(3)")])


def nim():
    one, two, three = "heap(1)", "heap(2)", "heap(3)"
    put = lambda *xs: xs[0] if len(xs) == 1 else f"__({xs[0]}, {put(*xs[1:])})"
    show(Strategies("NIM", "Heaps", "", [op("empty", "", "Heaps"), op("heap", "Nat", "Heaps"), op("__", "Heaps Heaps", "Heaps", assoc=1, comm=1, id=(("empty", ()), ()))], [
        "heap(0) = empty"], ["take : heap(s_(N:Nat)) => heap(N:Nat)", "take : heap(s_(s_(N:Nat))) => heap(N:Nat)", "take : heap(s_(s_(s_(N:Nat)))) => heap(N:Nat)"], [
        "win := take ; not(win)", "game := win ; (match empty or-else (take ; game))", "round := win ; take"]), [
        (None, "heap(5)", "win"), (None, "heap(4)", "win"), (None, put(one, two, three), "win"), (None, put(one, one, three), "win"), (None, put(two, three), "win"),
        (None, put(one, three), "game"), (None, "heap(4)", "test(win) ? fail : idle"), (None, put(two, three), "round"), (1, put(one, two, three), "take ; win"), None])


def river():
    start, goal = "crossing(left, left, left, left)", "crossing(right, right, right, right)"
    state = lambda *xs: f"crossing({', '.join(xs)})"
    s, t, w, g, c = "S:Side", "T:Side", "W:Side", "G:Side", "C:Side"
    show(Strategies("RIVER", "Side Crossing", "", [op("left", "", "Side"), op("right", "", "Side"), op("over", "Side", "Side"), op("crossing", "Side Side Side Side", "Crossing")], [
        "over(left) = right", "over(right) = left"], [
        f"alone : {state(s, w, g, c)} => {state(f'over({s})', w, g, c)}", f"wolf : {state(s, s, g, c)} => {state(f'over({s})', f'over({s})', g, c)}",
        f"goat : {state(s, w, s, c)} => {state(f'over({s})', w, f'over({s})', c)}", f"cabbage : {state(s, w, g, s)} => {state(f'over({s})', w, g, f'over({s})')}"], [
        f"eaten := match {state(s, w, w, c)} s.t. _=/=_({s}, {w}) | match {state(s, w, g, g)} s.t. _=/=_({s}, {g})", "cross := all ; not(eaten)",
        f"done := match {goal}"], with_nat=False), [
        (None, start, "all"), (None, start, "cross"), (None, start, "cross * ; done"), (1, start, "cross *"), 3, (None, start, "cross *"),
        (None, start, "goat ; alone ; wolf ; goat ; cabbage ; alone ; goat ; done"), (None, start, "(cross ; cross ; cross ; cross ; cross) ; done"),
        (None, start, "wolf ; eaten ? idle : fail")])


EXAMPLES = {it.__name__: it for it in (machine, shopping, frogs, queens, placed, nim, river)}

if __name__ == "__main__":
    sys.setrecursionlimit(30_000)
    for name in sys.argv[1:] or EXAMPLES:
        EXAMPLES[name]()
