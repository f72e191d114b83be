"""The prelude's modules as the specification writes them: declarations with native operators, equations, and the operators of truth values."""
import math

from evaluation import GREATEST, Statement
from signature import Signature
from statements_of import kind_of

BOOL = [("true", (), "Bool", {}), ("false", (), "Bool", {}), ("_and_", ("Bool", "Bool"), "Bool", {"assoc": 1, "comm": 1, "prec": 55}),
        ("_or_", ("Bool", "Bool"), "Bool", {"assoc": 1, "comm": 1, "prec": 59}), ("_xor_", ("Bool", "Bool"), "Bool", {"assoc": 1, "comm": 1, "prec": 57}),
        ("not_", ("Bool",), "Bool", {"prec": 53}), ("_implies_", ("Bool", "Bool"), "Bool", {"prec": 61, "gather": "eE"})]


def power(a, b):
    return a**b if a < 2 or b <= 128 else GREATEST + 1


N, P = "Nat", "NzNat"
AC = {"assoc": 1, "comm": 1}
NAT = [("s_", (N,), P, {}), ("_+_", (P, N), P, {**AC, "prec": 33, "hook": lambda a, b: a + b}), ("_+_", (N, N), N, {}),
       ("sd", (N, N), N, {"comm": 1, "hook": lambda a, b: abs(a - b)}), ("_*_", (P, P), P, {**AC, "prec": 31, "hook": lambda a, b: a * b}),
       ("_*_", (N, N), N, {}), ("_quo_", (N, P), N, {"prec": 31, "gather": "Ee", "hook": lambda a, b: a // b if b else None}),
       ("_rem_", (N, P), N, {"prec": 31, "gather": "Ee", "hook": lambda a, b: a % b if b else None}),
       ("_^_", (P, N), P, {"prec": 29, "gather": "Ee", "hook": power}), ("_^_", (N, N), N, {}), ("gcd", (P, N), P, {**AC, "hook": math.gcd}),
       ("gcd", (N, N), N, {}), ("min", (P, P), P, {**AC, "hook": min}), ("min", (N, N), N, {}), ("max", (P, N), P, {**AC, "hook": max}),
       ("max", (N, N), N, {}), ("_<_", (N, N), "Bool", {"prec": 37, "hook": lambda a, b: a < b}),
       ("_<=_", (N, N), "Bool", {"prec": 37, "hook": lambda a, b: a <= b}), ("_>_", (N, N), "Bool", {"prec": 37, "hook": lambda a, b: a > b}),
       ("_>=_", (N, N), "Bool", {"prec": 37, "hook": lambda a, b: a >= b})]


def signature_with_truth(module):
    """The signature of a module with all that it includes: NAT, if it does, and BOOL; the operators of TRUTH for each kind come last."""
    own, pairs, declarations, with_nat = module
    sorts = ["Bool", *(["Zero", "NzNat", "Nat"] if with_nat else []), *own]
    below = ([("Zero", "Nat"), ("NzNat", "Nat")] if with_nat else []) + pairs
    plain = BOOL + (NAT if with_nat else []) + declarations
    first = Signature(sorts, below, plain)
    truth = []
    for kind in dict.fromkeys(first.kind[a] for a in sorts):
        truth += [("if_then_else_fi", ("Bool", kind, kind), kind, {"strat": [0]}), ("_==_", (kind, kind), "Bool", {"prec": 51}),
                  ("_=/=_", (kind, kind), "Bool", {"prec": 51})]
    return Signature(sorts, below, plain + truth)


def over(sig, name, *args):
    """A term of the only operator of this name and these kinds."""
    kinds = tuple(kind_of(sig, x) for x in args)
    return ((name, kinds), args)


def bool_equations(sig):
    a, b, c = (("v", (name, "Bool")) for name in "ABC")
    put = lambda name, *args: over(sig, name, *args)
    true, false = put("true"), put("false")
    return [Statement(*it) for it in [
        (put("_and_", true, a), a), (put("_and_", false, a), false), (put("_and_", a, a), a), (put("_xor_", false, a), a), (put("_xor_", a, a), false),
        (put("_and_", a, put("_xor_", b, c)), put("_xor_", put("_and_", a, b), put("_and_", a, c))), (put("not_", a), put("_xor_", a, true)),
        (put("_or_", a, b), put("_xor_", put("_xor_", put("_and_", a, b), a), b)),
        (put("_implies_", a, b), put("not_", put("_xor_", a, put("_and_", a, b))))]]
