"""Evaluation as the specification says it, written apart from the code: values, conditions and sorts under limits, by brute force."""
import itertools

from signature import numbered

GREATEST = 2**128 - 1


class End(Exception):
    """Where an evaluation ends without a value: its line."""


class TooMuch(Exception):
    """There is more to try than a comparison has time for."""


class Statement:
    """An equation or a membership: its left side, its right side or sort, fragments (sign, left, right), `owise` and `nonexec`.

    Variables are numbered as they occur in the left side, the fragments and the right side; `variables` has their names and sorts."""

    def __init__(self, left, right, fragments=(), owise=False, nonexec=False):
        self.variables, self.owise, self.nonexec = [], owise, nonexec
        number = lambda term: term if isinstance(term, str) else numbered(term, self.variables)
        self.left = number(left)
        self.fragments = [(sign, number(one), other if other is None else number(other)) for sign, one, other in fragments]
        self.right = number(right)


def depth(term):
    return 1 if isinstance(term, int) or term[0] == "v" or not term[1] else 1 + max(map(depth, term[1]))


def overflows(term):
    """Whether the successor of the greatest numeral stands in a normal form."""
    if isinstance(term, int):
        return term > GREATEST
    return term[0] != "v" and any(map(overflows, term[1]))


def greatest(term):
    """The greatest numeral in a term."""
    return term if isinstance(term, int) else 0 if term[0] == "v" else max(map(greatest, term[1]), default=0)


def has_successor(term):
    return isinstance(term, tuple) and term[0] != "v" and (term[0][0] == "s_" or any(map(has_successor, term[1])))


def first_places(sig, term, under, found):
    """The variables of a term by first occurrence, each with the associative operator of which it is an argument there."""
    if isinstance(term, int):
        return
    if term[0] == "v":
        found.setdefault(term[1], under)
        return
    for x in term[1]:
        first_places(sig, x, term[0] if sig.op(term).attrs.get("assoc") else None, found)


def around(sig, key, subject, part):
    """The contexts between which a part stands in a subject, all of them lists under an operator."""
    whole, part = sig.items(key, subject), sig.items(key, part)
    if sig.operators[key].attrs.get("comm"):
        for x in part:
            if x not in whole:
                return []
            whole.remove(x)
        found = [((), tuple(whole))]
    else:
        n = len(part)
        found = [(tuple(whole[:i]), tuple(whole[i + n:])) for i in range(len(whole) - n + 1) if whole[i:i + n] == part]
    return [it for it in found if len(part) >= 2 or not any(it)]


class Evaluator:
    """`sorts_of` gives the declared sorts and what memberships add; limits are the budget of an item and of each membership's condition."""

    def __init__(self, sig, equations, memberships, limit, tries=4_000_000):
        self.sig, self.equations, self.memberships, self.limit, self.tries = sig, equations, memberships, limit, tries
        self.budget, self.variables, self.known = limit, [], {}
        self.units = [op.attrs["id"] for op in sig.of if "id" in op.attrs]

    # ---- sorts

    def sorts(self, term, level):
        """All sorts of a normal form, its kind too, where the conditions of memberships are one level deeper."""
        if (term, level) not in self.known:
            self.known[term, level] = self.derive(term, level)
        return self.known[term, level]

    def derive(self, term, level):
        sig = self.sig
        if isinstance(term, int):
            return sig.above("NzNat" if term else "Zero")
        if term[0] == "v":
            return sig.above(self.variables[term[1]][1])
        op, args = sig.op(term), term[1]
        for x in args:
            self.sorts(x, level)
        found = self.declared(op, [self.sorts(x, level) for x in args])
        for m in self.memberships:
            if not m.nonexec and any([self.holds(m, it[2], level) for it in self.solutions(m.variables, m.left, term, level, False)]):
                found = found | sig.above(m.right)
        return found

    def declared(self, op, parts):
        """What the declarations of an operator give; a list counts as nested to the right."""
        if len(parts) > len(op.kinds):
            parts = [parts[0], self.declared(op, parts[1:])]
        found = {op.result}
        for args, result in op.declared:
            if any(all(a in has for a, has in zip(way, parts)) for way in self.sig.both_ways(op, args)):
                found |= self.sig.above(result)
        return found

    def holds(self, m, values, level):
        """Whether the condition of a membership holds, which has a budget of its own."""
        budget, self.budget = self.budget, self.limit
        answer = self.solve(m.variables, m.fragments, values, level + 1)
        self.budget = budget
        return answer is not None

    def settle(self, term, level):
        for unit in self.units:
            self.sorts(unit, level)
        self.sorts(term, level)

    # ---- solutions

    def solutions(self, variables, pattern, subject, level, is_part, bound=()):
        """The solutions in order, one after the other, as contexts and values of the pattern's variables. The values have their sorts."""
        sig, places = self.sig, {}
        first_places(sig, pattern, None, places)
        shape = sig.norm(pattern)
        top = shape[0] if is_part and isinstance(shape, tuple) and shape[0] != "v" and sig.op(shape).attrs.get("assoc") else None
        if isinstance(shape, tuple) and shape[0] != "v" and shape[0][0] != "s_" and "id" not in sig.op(shape).attrs:
            if not isinstance(subject, tuple) or subject[0] != shape[0]:
                return
        folds = has_successor(pattern)
        if folds and greatest(subject) > 60:
            raise TooMuch
        parts, choices, count = sig.parts(subject, folds), [], 1
        for v in places:
            sort = variables[v][1]
            # (without memberships nothing can end where sorts are asked for)
            fits = lambda t: self.is_of_kind(t, sort) and (self.memberships or sort in self.sorts(t, level))
            choices.append([bound[v]] if v in bound else [t for t in parts if fits(t)])
            count *= max(1, len(choices[-1]))
        self.tries -= count
        if self.tries < 0:
            raise TooMuch
        found = {}
        for values in itertools.product(*choices):
            instance = sig.norm(pattern, dict(zip(places, values)))
            contexts = around(sig, top, subject, instance) if top else [((), ())] if instance == subject else []
            for left, right in contexts:
                order = [tuple(map(sig.order, left))]
                for under, value in zip(places.values(), values):
                    order.append(tuple(map(sig.order, sig.items(under, value))) if under else sig.order(value))
                found[left, right, values] = order, (left, right, dict(zip(places, values)))
        for _, (left, right, values) in sorted(found.values(), key=lambda it: it[0]):
            if all(variables[v][1] in self.sorts(value, level) for v, value in values.items()):
                yield left, right, values

    def is_of_kind(self, term, sort):
        sig = self.sig
        if isinstance(term, int):
            kind = sig.kind["Zero"]
        elif term[0] == "v":
            kind = sig.kind.get(self.variables[term[1]][1], self.variables[term[1]][1])
        else:
            kind = sig.op(term).result
        return sig.kind.get(sort, sort) == kind

    # ---- conditions: the values of the first solution, and the count of what led there

    def solve(self, variables, fragments, values, level):
        if not fragments:
            return values, 0
        (sign, one, other), rest = fragments[0], fragments[1:]
        if sign == ":=":
            value, count = self.evaluate(other, level, values)
            for _, _, found in self.solutions(variables, one, value, level, False, values):
                answer = self.solve(variables, rest, {**values, **found}, level)
                if answer is not None:
                    return answer[0], count + answer[1]
            return None
        value, count = self.evaluate(one, level, values)
        if sign == ":":
            holds = other in self.sorts(value, level)
        else:
            second, more = self.evaluate(other, level, values)
            count, holds = count + more, value == second
        answer = self.solve(variables, rest, values, level) if holds else None
        return answer and (answer[0], count + answer[1])

    # ---- values

    def admit(self, term):
        if depth(term) > 1000:
            raise End("Too deep.")
        if overflows(term):
            raise End("Overflow.")
        return term

    def order(self, op, count):
        names = op.attrs.get("strat", list(range(len(op.kinds))))
        return (list(range(count)) if names else []) if op.attrs.get("assoc") else names

    def top_changed(self, op, order, args, built):
        sig = self.sig
        if op.attrs.get("assoc"):
            return len([x for a in args for x in sig.items(op.key, a)]) < 2
        moved = (op.key, tuple(sorted(args, key=sig.order) if op.attrs.get("comm") else args))
        return built != moved or order != [] and set(order) != set(range(len(args))) and built != (op.key, tuple(args))

    def evaluate(self, term, level, values=None):
        """The value of an instance, and how many applications led to it."""
        if level > 2000:
            raise End("Too deep.")
        sig, count = self.sig, 0
        term = self.admit(sig.norm(term, values))
        while True:
            if isinstance(term, tuple) and term[0] != "v":
                op, args = sig.op(term), list(term[1])
                order = self.order(op, len(args))
                for i in order:
                    args[i], more = self.evaluate(args[i], level + 1)
                    count += more
                built = self.admit(sig.over(op.key, args))
                if self.top_changed(op, order, args, built):
                    value, more = self.evaluate(built, level + 1)
                    return value, count + more
                term = built
            self.settle(term, level)
            found = self.applied(term, level)
            if found is None:
                return term, count
            if self.budget == 0:
                raise End(f"Stopped: {self.limit}.")
            self.budget -= 1
            term = self.admit(found[0])
            count += found[1] + 1

    def applied(self, term, level):
        """What is made of a term at its top, and the count of the condition that held; or nothing."""
        found = self.built_in(term)
        if found is not None:
            return found, 0
        for owise in (False, True):
            for e in self.equations:
                if e.owise == owise and not e.nonexec:
                    for left, right, values in self.solutions(e.variables, e.left, term, level, True):
                        answer = self.solve(e.variables, e.fragments, values, level + 1)
                        if answer is not None:
                            made = self.sig.norm(e.right, answer[0])
                            return (self.sig.over(term[0], [*left, made, *right]) if left or right else made), answer[1]
        return None

    def built_in(self, term):
        if not isinstance(term, tuple) or term[0] == "v":
            return None
        (name, _), args = term[0], term[1]
        true, false = (("true", ()), ()), (("false", ()), ())
        if name == "if_then_else_fi":
            return args[1] if args[0] == true else args[2] if args[0] == false else None
        if name in ("_==_", "_=/=_"):
            return true if (args[0] == args[1]) == (name == "_==_") else false
        hook = self.sig.op(term).attrs.get("hook")
        if hook is None or len(args) < 2 or not all(isinstance(x, int) for x in args[:2]):
            return None
        found = hook(args[0], args[1])
        if found is None:
            return None
        if isinstance(found, bool):
            return true if found else false
        if found > GREATEST:
            raise End("Overflow.")
        return self.sig.over(term[0], [found, *args[2:]]) if len(args) > 2 else found

    def answer(self, term, variables):
        """The lines of `reduce`: the count and the value with its shown sort, or its end."""
        self.budget, self.variables, self.known = self.limit, variables, {}
        try:
            value, count = self.evaluate(term, 1)
            return [f"rewrites: {min(count, 2**64 - 1)}", f"result {self.shown_sort(value)}: {self.sig.shown(value, variables)[0]}"]
        except End as end:
            return [str(end)]

    def shown_sort(self, value):
        """The least sort, or the first minimal one, or the kind."""
        sig, has = self.sig, self.sorts(value, 1)
        own = [a for a in sig.sorts if a in has]
        minimal = [a for a in own if not any(a != b and sig.leq(b, a) for b in own)]
        return minimal[0] if minimal else sig.name_of(next(iter(has)))
