#!/usr/bin/env python3
"""Prints what the examples of evaluation and of fair rule runs have to answer, by the plain evaluator: the expected transcripts were made from this.

usage: oracle/examples.py [NAME]

A module is given by its sorts, pairs, declarations, equations and rules, with terms in prefix form; examples/NAME.maude has the same module as a user writes it.
"""
import re
import sys

sys.dont_write_bytecode = True
from evaluation import Evaluator, Statement
from prelude import NAT, bool_equations, over, signature_with_truth
from runs import Runner
from signature import numbered

sys.setrecursionlimit(30_000)
TOKEN = re.compile(r"\s*([^\s(),]+|[(),])")


def term_of(sig, text):
    """The term that a text in prefix form is. A variable is `X:S`."""
    tokens, at = TOKEN.findall(text), 0

    def read():
        nonlocal at
        word = tokens[at]
        at += 1
        args = []
        if at < len(tokens) and tokens[at] == "(":
            while tokens[at] != ")":
                at += 1
                args.append(read())
            at += 1
        if word.isdigit():
            return int(word)
        if re.fullmatch(r"[A-Z]\w*:\w+", word):
            return ("v", tuple(word.split(":")))
        term = over(sig, word, *args)
        while len(args) > 2 and term[0] not in sig.operators:
            args = [*args[:-2], over(sig, word, *args[-2:])]
            term = over(sig, word, *args)
        return term

    return read()


class Module:
    def __init__(self, name, sorts, pairs, declarations, equations, with_nat=True):
        self.name = name
        self.sig = signature_with_truth((sorts.split(), [tuple(it.split("<")) for it in pairs.split()], declarations, with_nat))
        self.equations = bool_equations(self.sig) + [self.equation(*it.split(" = ")) for it in equations]

    def equation(self, left, right):
        owise = right.endswith(" [owise]")
        return Statement(term_of(self.sig, left), term_of(self.sig, right.removesuffix(" [owise]")), owise=owise)

    def answer(self, text, limit=1_000_000):
        variables = []
        term = numbered(term_of(self.sig, text), variables)
        return Evaluator(self.sig, self.equations, [], limit, 10**12).answer(term, variables)

    def runs(self, rules, commands, limit=1_000_000):
        """The answers of rewrite commands: of the word and term, the bound, and the number of rewrites at each top, or of `continue` and its number."""
        runner = Runner(self.sig, self.equations, [], [self.equation(*it.split(" => ")) for it in rules], limit, 10**12)
        for word, text, most, gas in commands:
            if word != "continue":
                variables = []
                term = numbered(term_of(self.sig, text), variables)
            lines, term = runner.run(term, variables, most, gas, word == "continue")
            yield [f"{word} in {self.name}", *lines]


def op(form, args, result, **attrs):
    return form, tuple(args.split()), result, attrs


def show(module, texts, first=2):
    print(f"[{first - 1}] module {module.name}")
    for number, text in enumerate(texts, first):
        print(f"[{number}] reduce in {module.name}", *module.answer(text), sep="\n")


def show_runs(module, rules, commands, first=2):
    print(f"[{first - 1}] module {module.name}")
    for number, lines in enumerate(module.runs(rules, commands), first):
        print(f"[{number}] {lines[0]}", *lines[1:], sep="\n")


def numbers():
    show(Module("FUNCTIONS", "", "", [
        op("_!", "Nat", "NzNat"), op("fib", "Nat", "Nat"), op("sum-to", "Nat", "Nat"), op("even", "Nat", "Bool"), op("odd", "Nat", "Bool"),
    ], [
        "_!(0) = 1", "_!(s_(N:Nat)) = _*_(s_(N:Nat), _!(N:Nat))",
        "fib(0) = 0", "fib(1) = 1", "fib(s_(s_(N:Nat))) = _+_(fib(s_(N:Nat)), fib(N:Nat))",
        "sum-to(0) = 0", "sum-to(s_(N:Nat)) = _+_(s_(N:Nat), sum-to(N:Nat))",
        "even(0) = true", "even(s_(N:Nat)) = odd(N:Nat)", "odd(0) = false", "odd(s_(N:Nat)) = even(N:Nat)",
    ]), ["_!(5)", "_!(20)", "_!(35)", "fib(10)", "sum-to(10)", "even(7)", "gcd(_!(5), _^_(2, 10))", "_+_(1, _+_(2, _+_(3, 4)))",
         "_quo_(100, sum-to(4))", "_rem_(100, 7)", "sd(3, 10)", "_quo_(5, 0)", "_<_(_^_(2, 10), _!(6))", "max(fib(7), min(12, 20))", "_+_(X:Nat, _*_(2, 3))",
         "if_then_else_fi(even(4), _!(3), _!(35))", "_==_(_!(3), _*_(2, 3))"])


def sequences():
    show(Module("SEQUENCES", "Seq Stack", "Nat<Seq", [
        op("nil", "", "Seq"), op("__", "Seq Seq", "Seq", assoc=1, id=(("nil", ()), ())), op("length", "Seq", "Nat"), op("reverse", "Seq", "Seq"), op("last", "Seq", "Nat"),
        op("empty", "", "Stack"), op("_:_", "Nat Stack", "Stack", prec=45, gather="eE"), op("_++_", "Stack Stack", "Stack", prec=47), op("stack", "Seq", "Stack"),
        op("top", "Stack", "Nat"),
    ], [
        "length(nil) = 0", "length(__(N:Nat, L:Seq)) = s_(length(L:Seq))", "reverse(nil) = nil", "reverse(__(N:Nat, L:Seq)) = __(reverse(L:Seq), N:Nat)",
        "last(__(L:Seq, N:Nat)) = N:Nat", "_++_(empty, S:Stack) = S:Stack", "_++_(_:_(N:Nat, S:Stack), T:Stack) = _:_(N:Nat, _++_(S:Stack, T:Stack))",
        "stack(nil) = empty", "stack(__(N:Nat, L:Seq)) = _:_(N:Nat, stack(L:Seq))", "top(_:_(N:Nat, S:Stack)) = N:Nat",
    ]), ["length(__(3, __(1, 2)))", "reverse(__(3, __(1, 2)))", "_==_(reverse(reverse(__(1, __(2, 3)))), __(1, __(2, 3)))", "last(__(4, __(5, 6)))", "last(nil)",
         "_++_(stack(__(1, 2)), stack(__(3, 4)))", "top(stack(reverse(__(7, __(8, 9)))))", "top(empty)", "reverse(__(L:Seq, N:Nat))"])


def sets():
    show(Module("SETS", "Set", "Nat<Set", [
        op("none", "", "Set"), op("_&_", "Set Set", "Set", assoc=1, comm=1, id=(("none", ()), ()), prec=45), op("_in_", "Nat Set", "Bool", prec=51), op("size", "Set", "Nat"),
        op("_without_", "Set Nat", "Set", prec=47), op("greatest", "Set", "Nat"),
    ], [
        "_&_(N:Nat, N:Nat) = N:Nat", "_in_(N:Nat, _&_(N:Nat, A:Set)) = true", "_in_(N:Nat, A:Set) = false [owise]", "size(none) = 0", "size(N:Nat) = 1",
        "size(_&_(N:Nat, _&_(M:Nat, A:Set))) = s_(size(_&_(M:Nat, A:Set)))", "_without_(_&_(N:Nat, A:Set), N:Nat) = A:Set", "_without_(A:Set, N:Nat) = A:Set [owise]",
        "greatest(N:Nat) = N:Nat", "greatest(_&_(N:Nat, _&_(M:Nat, A:Set))) = greatest(_&_(max(N:Nat, M:Nat), A:Set))",
    ]), ["_&_(2, _&_(1, 2))", "_in_(1, _&_(3, _&_(1, 2)))", "_in_(5, _&_(3, _&_(1, 2)))", "_in_(5, none)", "size(_&_(2, _&_(1, 3)))", "_without_(_&_(1, _&_(2, 3)), 2)",
         "_without_(_&_(1, _&_(2, 3)), 4)", "greatest(_&_(2, _&_(7, 5)))", "size(_&_(_+_(1, 1), _&_(2, 3)))"])


def sorting():
    lists = lambda *ns: "nil" if not ns else f"_;_({ns[0]}, {lists(*ns[1:])})"
    show(Module("SORTING", "List", "", [
        op("nil", "", "List"), op("_;_", "Nat List", "List", prec=45, gather="eE"), op("sort", "List", "List"), op("insert", "Nat List", "List"), op("merge", "List List", "List"),
        op("sorted", "List", "Bool"),
    ], [
        "sort(nil) = nil", "sort(_;_(N:Nat, L:List)) = insert(N:Nat, sort(L:List))", "insert(N:Nat, nil) = _;_(N:Nat, nil)",
        "insert(N:Nat, _;_(M:Nat, L:List)) = if_then_else_fi(_<=_(N:Nat, M:Nat), _;_(N:Nat, _;_(M:Nat, L:List)), _;_(M:Nat, insert(N:Nat, L:List)))",
        "merge(nil, K:List) = K:List", "merge(L:List, nil) = L:List",
        "merge(_;_(N:Nat, L:List), _;_(M:Nat, K:List)) = "
        "if_then_else_fi(_<_(N:Nat, M:Nat), _;_(N:Nat, merge(L:List, _;_(M:Nat, K:List))), _;_(M:Nat, merge(_;_(N:Nat, L:List), K:List)))",
        "sorted(nil) = true", "sorted(_;_(N:Nat, nil)) = true", "sorted(_;_(N:Nat, _;_(M:Nat, L:List))) = _and_(_<=_(N:Nat, M:Nat), sorted(_;_(M:Nat, L:List)))",
    ]), ["sort(nil)", f"sort({lists(3, 1, 2)})", f"sort({lists(5, 4, 3, 2, 1)})", f"sorted({lists(2, 1, 3)})", f"sorted(sort({lists(2, 1, 3)}))",
         f"merge({lists(1, 4)}, {lists(2, 3, 5)})", f"sort(merge(sort({lists(2, 1)}), {lists(0)}))"])


def interpreter():
    then = lambda *ps: ps[0] if len(ps) == 1 else f"_;_({ps[0]}, {then(*ps[1:])})"
    put = lambda name, e: f"_:=_({name}, {e})"
    plus = lambda a, b: f"_plus_({a}, {b})"
    loop = "while_do_od(T:Test, P:Program)"
    show(Module("INTERPRETER", "Name Expression Test Program Store", "Nat<Expression Name<Expression", [
        op("x", "", "Name"), op("y", "", "Name"), op("z", "", "Name"), op("_plus_", "Expression Expression", "Expression", prec=33, gather="Ee"),
        op("_times_", "Expression Expression", "Expression", prec=31, gather="Ee"), op("_less_", "Expression Expression", "Test", prec=37), op("skip", "", "Program"),
        op("_:=_", "Name Expression", "Program", prec=40), op("_;_", "Program Program", "Program", prec=50, gather="eE"), op("while_do_od", "Test Program", "Program"),
        op("if_then_else_end", "Test Program Program", "Program"), op("empty", "", "Store"), op("[_=_]", "Name Nat", "Store"),
        op("__", "Store Store", "Store", assoc=1, comm=1, id=(("empty", ()), ())), op("value", "Expression Store", "Nat"), op("holds", "Test Store", "Bool"),
        op("write", "Name Nat Store", "Store"), op("run", "Program Store", "Store"), op("when", "Bool Program Program Store", "Store", strat=[0]),
    ], [
        "value(N:Nat, S:Store) = N:Nat", "value(X:Name, __([_=_](X:Name, N:Nat), S:Store)) = N:Nat",
        "value(_plus_(E:Expression, F:Expression), S:Store) = _+_(value(E:Expression, S:Store), value(F:Expression, S:Store))",
        "value(_times_(E:Expression, F:Expression), S:Store) = _*_(value(E:Expression, S:Store), value(F:Expression, S:Store))",
        "holds(_less_(E:Expression, F:Expression), S:Store) = _<_(value(E:Expression, S:Store), value(F:Expression, S:Store))",
        "write(X:Name, N:Nat, __([_=_](X:Name, M:Nat), S:Store)) = __([_=_](X:Name, N:Nat), S:Store)", "write(X:Name, N:Nat, S:Store) = __([_=_](X:Name, N:Nat), S:Store) [owise]",
        "run(skip, S:Store) = S:Store", "run(_:=_(X:Name, E:Expression), S:Store) = write(X:Name, value(E:Expression, S:Store), S:Store)",
        "run(_;_(P:Program, Q:Program), S:Store) = run(Q:Program, run(P:Program, S:Store))",
        f"run({loop}, S:Store) = when(holds(T:Test, S:Store), _;_(P:Program, {loop}), skip, S:Store)",
        "run(if_then_else_end(T:Test, P:Program, Q:Program), S:Store) = when(holds(T:Test, S:Store), P:Program, Q:Program, S:Store)",
        "when(true, P:Program, Q:Program, S:Store) = run(P:Program, S:Store)", "when(false, P:Program, Q:Program, S:Store) = run(Q:Program, S:Store)",
    ]), ["value(_plus_(2, _times_(3, 4)), empty)", "value(_plus_(x, y), __([_=_](x, 1), [_=_](y, 41)))", "value(z, [_=_](x, 1))",
         f"run({then(put('x', 1), put('y', plus('x', 1)))}, empty)", f"run({then(put('x', 7), put('x', '_times_(x, x)'))}, [_=_](y, 0))",
         f"run(if_then_else_end(_less_(x, 3), {put('y', 1)}, {put('y', 2)}), [_=_](x, 5))",
         f"run({then(put('x', 0), put('y', 0), 'while_do_od(_less_(x, 4), ' + then(put('x', plus('x', 1)), put('y', plus('y', 'x'))) + ')')}, empty)"])


def readers():
    state = lambda r, w: f"readers_writers_({r}, {w})"
    show_runs(Module("READERS-AND-WRITERS", "State Stores", "", [op("readers_writers_", "Nat Nat", "State"), op("<_;_>", "State State", "Stores")], []), [
        f"{state(0, 0)} => {state(0, 1)}", f"{state('R:Nat', 's_(W:Nat)')} => {state('R:Nat', 'W:Nat')}",
        f"{state('R:Nat', 0)} => {state('s_(R:Nat)', 0)}", f"{state('s_(R:Nat)', 'W:Nat')} => {state('R:Nat', 'W:Nat')}",
    ], [("frewrite", state(0, 0), 1, 1), ("continue", None, 2, 1), ("continue", None, 3, 1), ("rewrite", f"<_;_>({state(0, 0)}, {state(0, 0)})", 4, 0),
        ("frewrite", f"<_;_>({state(0, 0)}, {state(0, 0)})", 4, 1), ("continue", None, 4, 1), ("frewrite", f"<_;_>({state(0, 0)}, {state(3, 0)})", 100, 1)])


def ring():
    ring = lambda *xs: xs[0] if len(xs) == 1 else f"__({xs[0]}, {ring(*xs[1:])})"
    start = ring("token(0)", "waits(0, 0)", "waits(1, 0)", "waits(2, 0)")
    show_runs(Module("TOKEN-RING", "Ring", "", [
        op("token", "Nat", "Ring"), op("waits", "Nat Nat", "Ring"), op("ready", "Nat Nat", "Ring"), op("__", "Ring Ring", "Ring", assoc=1, comm=1), op("next", "Nat", "Nat"),
    ], ["next(0) = 1", "next(1) = 2", "next(2) = 0"]), [
        "waits(I:Nat, N:Nat) => ready(I:Nat, N:Nat)", "__(token(I:Nat), ready(I:Nat, N:Nat)) => __(token(next(I:Nat)), waits(I:Nat, s_(N:Nat)))",
    ], [("frewrite", start, 4, 1), ("continue", None, 2, 1), ("continue", None, 2, 1), ("frewrite", start, 6, 3), ("continue", None, 6, 3), ("rewrite", start, 4, 0),
        ("frewrite", start, 60, 1)])


EXAMPLES = {it.__name__: it for it in (readers, ring, numbers, sequences, sets, sorting, interpreter)}

if __name__ == "__main__":
    for name in sys.argv[1:] or EXAMPLES:
        EXAMPLES[name]()
