#!/usr/bin/env python3
"""Compares what the program says of random definitions of strategies with a plain reader of strategies, written apart from the code.

usage: oracle/strategy_texts.py PROGRAM FIRST LAST

For each number from FIRST on and below LAST it makes some definitions `sd f := E`, whose strategies are right or have a word more, less or another one, and runs a
module with each. What is compared is whether it is accepted, and else the fault and its place. A term is one word or `g ( t )`; a text in which another term would
have to be judged is not compared.
"""
import random
import sys

sys.dont_write_bytecode = True
from comparing import compare_texts, difference

HEAD = "smod M is sort S . ops a b : -> S . op g : S -> S . rl [l] : a => b . rl [m] : g(X:S) => X:S . rl [p] : b => a . strats f p @ S . strat h : S @ S . strat k : S S @ S ."
LABELS, DECLARED = {"l", "m", "p"}, {("f", 0), ("p", 0), ("h", 1), ("k", 2)}
NAMES = {name for name, _ in DECLARED}
FORMS, TESTS, WRAPPERS = {"idle", "fail", "all"}, {"match", "xmatch", "amatch"}, {"not", "try", "test"}
NEVER = {"matchrew", "xmatchrew", "amatchrew", ";", "|", "?", ":", ")", "]", "}"}
OPEN, CLOSE = set("([{"), set(")]}")
LEVEL = {";": 3, "|": 4, "or-else": 5}


class Unexpected(Exception):
    """The word with this number can't stand where it stands."""


class Skipped(Exception):
    """A term that this reader doesn't judge."""


class Reader:
    """Reads the words of a strategy. Faults of names and terms are kept in the order in which they are met, with the number of the word at which each is told."""

    def __init__(self, words):
        self.words, self.at, self.faults, self.unbound = words, 0, [], False

    def word(self, ahead=0):
        place = self.at + ahead
        return self.words[place] if place < len(self.words) else None

    def fault(self, name, place):
        self.faults.append((name, place))

    def take(self, word):
        if self.word() != word:
            raise Unexpected(self.at)
        self.at += 1

    def whole(self):
        self.strategy(6, False)
        if self.at < len(self.words):
            raise Unexpected(self.at)

    # a strategy of a level or of a tighter one; directly under `top` a form of rules alone
    def strategy(self, level, narrow):
        if level == 6:
            self.strategy(5, narrow)
            if self.word() == "?" and not narrow:
                self.at += 1
                self.strategy(6, False)
                self.take(":")
                self.strategy(6, False)
        elif level >= 3:
            self.strategy(level - 1, narrow)
            if LEVEL.get(self.word()) == level and not narrow:
                self.at += 1
                self.strategy(level, False)
        else:
            self.leaf(narrow)
            while self.word() in ("*", "+", "!") and not narrow:
                self.at += 1

    def leaf(self, narrow):
        word, behind = self.word(), self.word(1)
        if word is None or word in NEVER:
            raise Unexpected(self.at)
        if narrow and (word == "(" or word in TESTS or word in ("idle", "fail")):
            raise Unexpected(self.at)
        if word == "(":
            self.at += 1
            self.strategy(6, False)
            self.take(")")
        elif word in TESTS:
            self.at += 1
            self.test()
        elif word in FORMS:
            self.at += 1
        elif behind == "(":
            if narrow:
                self.name(word, narrow)
                raise Unexpected(self.at)
            self.with_parentheses(word)
        elif behind == "[":
            self.values(word)
        else:
            self.name(word, narrow)

    def name(self, word, narrow):
        place, self.at = self.at, self.at + 1
        if word in NAMES:
            if narrow:
                self.fault("Unexpected", place)
            elif (word, 0) not in DECLARED:
                self.fault("Arity", place)
        elif word not in LABELS:
            self.fault("UnknownName", place)

    def with_parentheses(self, word):
        place, self.at = self.at, self.at + 2
        if word == "top" or word in WRAPPERS:
            self.strategy(6, word == "top")
            self.take(")")
            return
        if word not in NAMES:
            self.fault(*(("Unexpected", place + 1) if word in LABELS else ("UnknownName", place)))
        terms = [self.part({","})]
        while self.word() == ",":
            self.at += 1
            terms.append(self.part({","}))
        self.take(")")
        if word in NAMES and (word, len(terms)) not in DECLARED:
            self.fault("Arity", place)
        elif word in NAMES:
            for term in terms:
                self.judge(term, set())

    def values(self, word):
        place, self.at = self.at, self.at + 2
        kept = word in LABELS and word not in NAMES
        if not kept:
            self.fault(*(("Unexpected", place + 1) if word in NAMES else ("UnknownName", place)))
        while True:
            variable = self.part({"<-", ","})
            if kept and not is_variable(self.words[variable[0]:variable[1]]):
                self.known(variable)
                self.fault("Unexpected", variable[0])
            self.take("<-")
            term = self.part({","})
            if kept:
                self.judge(term, set())
            if self.word() != ",":
                break
            self.at += 1
        self.take("]")

    def test(self):
        ends = set(LEVEL) | {"?", ":", "s.t.", "such"}
        pattern = self.part(ends)
        known = self.judge(pattern, None)
        if self.word() == "s.t.":
            self.at += 1
        elif self.word() == "such":
            self.at += 1
            self.take("that")
        else:
            return
        self.fragment(ends | {"/\\"}, known)
        while self.word() == "/\\":
            self.at += 1
            self.fragment(ends | {"/\\"}, known)

    # a part up to a word that ends it, or a closing bracket, outside brackets; one word at least
    def part(self, ends):
        start, depth = self.at, 0
        while self.at < len(self.words):
            word = self.words[self.at]
            if depth == 0 and (word in ends or word in CLOSE):
                break
            depth += (word in OPEN) - (word in CLOSE)
            self.at += 1
        if self.at == start:
            raise Unexpected(self.at)
        if depth or self.at == len(self.words) and not ends & {";"}:
            raise Unexpected(len(self.words))
        return start, self.at

    # the number of the one word of a term that is no operator over another
    def known(self, part):
        start, end = part
        while end - start > 3 and self.words[start:start + 2] == ["g", "("] and self.words[end - 1] == ")":
            start, end = start + 2, end - 1
        if end - start != 1:
            raise Skipped
        return start

    # the term of a part, whose variables have to be bound, where these are; gives its variables
    def judge(self, part, bound):
        place = self.known(part)
        word = self.words[place]
        if is_variable([word]):
            self.unbound |= bound is not None and word not in bound
            return {word}
        if word not in ("a", "b"):
            self.fault("NoParse", part[0])
        return set()

    def fragment(self, ends, bound):
        start, end = self.part(ends)
        words = self.words[start:end]
        if words[1:2] in ([":"], ["="], [":="]) and words[0] == "(":
            raise Skipped
        if len(words) == 5 and words[0] == "(" and words[2] == ":" and words[4] == ")":
            self.judge((start + 1, start + 2), bound)
            if words[3] != "S":
                self.fault("UnknownName", start + 3)
        elif len(words) == 3 and words[1] == "=":
            self.judge((start, start + 1), bound)
            self.judge((start + 2, start + 3), bound)
        elif len(words) == 3 and words[1] == ":=":
            self.judge((start + 2, start + 3), bound)
            bound |= self.judge((start, start + 1), None)
        else:
            raise Skipped


def is_variable(words):
    return words in (["X:S"], ["Y:S"])


def answer(words, start):
    """What the module with this strategy is answered, whose words stand at these places of the text."""
    reader, place = Reader(words), None
    try:
        reader.whole()
    except Unexpected as unexpected:
        place = min(unexpected.args[0], len(words) - 1)
    first = reader.faults[0] if reader.faults else None
    if place is not None and (first is None or first[1] >= place):
        first = "Unexpected", place
    if first:
        return f"refused: 4 {first[0]} {start[first[1]]}"
    return "refused: UnboundVariable 4" if reader.unbound else "module M"


def random_strategy(r, depth):
    def inner():
        return random_strategy(r, depth - 1)

    def term():
        return r.choice((["a"], ["b"], ["a"], ["b"], ["X:S"], ["g", "(", "a", ")"], ["zz"] if r.random() < 0.2 else ["a"]))

    def condition():
        fragments = r.choice((["X:S", "=", "a"], ["(", "X:S", ":", "S", ")"], ["Y:S", ":=", "a"], ["a", "=", "b"], ["(", "a", ":", "T", ")"]))
        return r.choice((["s.t."], ["such", "that"])) + fragments + (["/\\", "a", "=", "a"] if r.random() < 0.3 else [])

    form = r.randrange(6 if depth == 0 else 14)
    if form < 2:
        return [r.choice(("l", "m", "f", "p", "idle", "fail", "all", "h", "top", "nope") if r.random() < 0.3 else ("l", "m", "f", "p", "idle", "all"))]
    if form == 2:
        return [r.choice("lmmp"), "[", "X:S", "<-", *term(), *([",", r.choice(("Y:S", "a")), "<-", *term()] if r.random() < 0.3 else []), "]"]
    if form == 3:
        return [r.choice("hhhkf"), "(", *term(), ")"] if r.random() < 0.5 else ["k", "(", *term(), ",", *term(), ")"]
    if form < 6:
        return [r.choice(sorted(TESTS)), *term(), *(condition() if r.random() < 0.5 else [])]
    if form < 8:
        return [r.choice(("not", "try", "test")), "(", *inner(), ")"]
    if form == 8:
        return ["top", "(", r.choice(("l", "m", "all", "f", "p")), ")"]
    if form == 9:
        return ["(", *inner(), ")"]
    if form == 10:
        return [*inner(), r.choice("*+!")]
    if form == 11:
        return [*inner(), "?", *inner(), ":", *inner()]
    return [*inner(), r.choice((";", "|", "or-else")), *inner()]


WORDS = ["l", "f", "nope", "(", ")", "[", "]", ";", "|", "?", ":", "*", "a", "X:S", ",", "<-", "match", "top", "not", "s.t.", "such", "or-else", "idle", "matchrew", "{", "}"]


def altered(r, words):
    words, i = list(words), r.randrange(len(words))
    if r.random() < 0.4:
        words[i] = r.choice(WORDS)
    elif r.random() < 0.5:
        words.insert(i, r.choice(WORDS))
    elif len(words) > 1:
        del words[i]
    return words


def is_closed(words):
    """No bracket is open at the end: else the full stop stands elsewhere."""
    depth = 0
    for word in words:
        depth += (word in OPEN) - (word in CLOSE and depth > 0)
    return depth == 0


def compare(number, program):
    r, text, wanted, had = random.Random(number), "", [], []
    while len(wanted) < 20:
        words = random_strategy(r, 3)
        for _ in range(r.choice((0, 1, 1, 2))):
            words = altered(r, words)
        if not is_closed(words) or "." in words:
            continue
        more, start = text + HEAD + " sd f :=", []
        for word in words:
            start.append(len(more) + 1)
            more += " " + word
        try:
            said = answer(words, start)
        except Skipped:
            continue
        text = more + " . endsm\n"
        wanted.append(f"[{len(wanted) + 1}] {said}")
        had.append(next((name for name in FAULTS if name in said), "module"))
    return had, difference(program, text, wanted)


FAULTS = "Unexpected", "UnknownName", "NoParse", "Arity", "UnboundVariable"
compare_texts(compare)
