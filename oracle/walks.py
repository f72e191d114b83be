"""Runs of strategies as the specification says it, written apart from the code: configurations depth first, and apart from it what satisfies a strategy."""
from evaluation import End, TooMuch
from runs import Runner
from signature import numbered

CALLS = 200
TRUE = (("true", ()), ())

# ---- strategies: ("idle",), ("fail",), ("all",), ("label", name, assigns), ("top", strategy), ("call", name, terms), (a kind of test, pattern, fragments),
# and those over strategies. An assign is a pair, a name and a sort, and a term; a fragment is a sign and two terms, `Bool` being that of a single one.
# Variables are pairs in what is written, and numbers in what is run, where a test also has the sorts of its variables by number.

TESTS = "match", "xmatch", "amatch"
IDLE, FAIL = ("idle",), ("fail",)
DEFINED = {
    "plus": lambda e: ("seq", e, ("star", e)), "normal": lambda e: ("seq", ("star", e), ("not", e)), "orelse": lambda e, f: ("if", e, IDLE, f),
    "not": lambda e: ("if", e, FAIL, IDLE), "try": lambda e: ("if", e, IDLE, IDLE), "test": lambda e: ("if", ("not", e), FAIL, IDLE),
}
SIGNS = {"seq": (";", 3), "or": ("|", 4), "orelse": ("or-else", 5)}
MARKS = {"star": "*", "plus": "+", "normal": "!"}


def source(sig, term):
    """The text of a term whose variables are pairs."""
    return sig.source(numbered(term, variables := []), variables)


def condition_text(sig, fragments, in_strategy):
    def shown(sign, one, other):
        if sign == "Bool":
            return source(sig, one)
        text = f"{source(sig, one)} {sign} {other if sign == ':' else source(sig, other)}"
        return f"({text})" if sign == ":" and in_strategy else text

    return " /\\ ".join(shown(*it) for it in fragments)


def text_of_strategy(sig, strategy, level=6):
    """The text of a strategy where one of this level or a tighter one may stand: 1 for one that needs no parentheses, up to 6 for all."""
    form, *parts = strategy
    put = lambda part, level: text_of_strategy(sig, part, level)
    terms = lambda found: ", ".join(source(sig, it) for it in found)
    # (a test runs up to a sign that a mark is not)
    own = 2 if form in MARKS else SIGNS[form][1] if form in SIGNS else 6 if form == "if" else 3 if form in TESTS else 1
    if own > level:
        return f"({put(strategy, 6)})"
    if form in MARKS:
        return f"{put(parts[0], 2)} {MARKS[form]}"
    if form in SIGNS:
        return f"{put(parts[0], own - 1 if own > 3 or parts[0][0] not in TESTS else 3)} {SIGNS[form][0]} {put(parts[1], own)}"
    if form == "if":
        return f"{put(parts[0], 5)} ? {put(parts[1], 6)} : {put(parts[2], 6)}"
    if form in TESTS:
        return f"{form} {source(sig, parts[0])}{' s.t. ' + condition_text(sig, parts[1], True) if parts[1] else ''}"
    if form == "label":
        values = ", ".join(f"{sig.variable(pair)} <- {source(sig, term)}" for pair, term in parts[1])
        return f"{parts[0]}[{values}]" if values else parts[0]
    if form == "call":
        return f"{parts[0]}({terms(parts[1])})" if parts[1] else parts[0]
    return f"{form}({put(parts[0], 6)})" if parts else form


def numbered_condition(fragments, variables):
    """The fragments with their variables by number; of `p := u` the u is read first."""
    out = []
    for sign, one, other in fragments:
        other = numbered(other, variables) if sign == ":=" else other
        one = numbered(one, variables)
        out.append(("=", one, TRUE) if sign == "Bool" else (sign, one, numbered(other, variables) if sign == "=" else other))
    return tuple(out)


def variables_of(term):
    if isinstance(term, int):
        return set()
    return {term[1]} if term[0] == "v" else {v for it in term[1] for v in variables_of(it)}


def in_condition(fragments):
    return {v for sign, one, other in fragments for v in variables_of(one) | (set() if sign == ":" else variables_of(other))}


def numbered_strategy(strategy, variables):
    """The strategy with its variables by number, as they occur in its text."""
    form, *parts = strategy
    if form in TESTS:
        pattern = numbered(parts[0], variables)
        fragments = numbered_condition(parts[1], variables)
        sorts = sorted(variables_of(pattern) | in_condition(fragments))
        return form, pattern, fragments, tuple((v, variables[v]) for v in sorts)
    if form == "label":
        out = []
        for pair, term in parts[1]:
            numbered(("v", pair), variables)
            out.append((pair, numbered(term, variables)))
        return form, parts[0], tuple(out)
    if form == "call":
        return form, parts[0], tuple(numbered(it, variables) for it in parts[1])
    return (form, *(numbered_strategy(it, variables) for it in parts))


def cost_of(term):
    """About how long it takes to match a term: the arguments of one operator are tried in all their parts."""
    return 2 ** len(term[1]) + sum(map(cost_of, term[1])) if isinstance(term, tuple) and term[0] != "v" else 1


class Definition:
    """`sd NAME(ARGUMENTS) := BODY`, or `csd` with fragments."""

    def __init__(self, name, args, body, fragments=()):
        self.name, self.variables = name, []
        self.args = [numbered(it, self.variables) for it in args]
        self.fragments = numbered_condition(fragments, self.variables)
        self.body = numbered_strategy(body, self.variables)


class Walk(Runner):
    """A run of a strategy, depth first over configurations: a term, what is left to do, and the enclosing tests, the innermost first. What is left to do is
    a list of strategies, each with the calls that are left to it and the values of its variables. `tries` bounds all matching, and what satisfies a strategy too."""

    def __init__(self, sig, equations, memberships, rules, definitions, limit, tries):
        super().__init__(sig, equations, memberships, rules, limit, tries)
        self.definitions = definitions

    def begin(self, term, strategy, variables):
        """The solutions of a numbered strategy on a term, in order, one after the other."""
        self.variables, self.known, self.found, self.satisfied = variables, {}, [], {}
        self.begins = self.fresh(term), (strategy, CALLS, ())
        return self.solutions_from((self.begins[0], (self.begins[1],), ()))

    def solutions_from(self, start):
        entered, stack = {start}, [(start, self.successors(start))]
        while stack:
            config, rest = stack[-1]
            if config[1] == () == config[2] and rest is not None:
                stack[-1] = config, None
                self.found.append(config[0])
                yield config[0]
            following = next(rest, None) if rest else None
            if following is None:
                stack.pop()
            elif following not in entered:
                if len(entered) >= self.limit:
                    raise End(f"Stopped: {self.limit}.")
                entered.add(following)
                stack.append((following, self.successors(following)))

    def successors(self, config):
        term, todo, frames = config
        if not todo:
            if frames:
                ((_, _, after, _), *setting), _, behind = frames[0]
                yield term, ((after, *setting), *behind), frames[1:]
            return
        ((form, *parts), *setting), behind = todo[0], todo[1:]
        of = lambda strategy: (strategy, *setting)
        if form == "seq":
            yield term, (of(parts[0]), of(parts[1]), *behind), frames
        elif form == "or":
            yield term, (of(parts[0]), *behind), frames
            yield term, (of(parts[1]), *behind), frames
        elif form == "star":
            yield term, behind, frames
            yield term, (of(parts[0]), todo[0], *behind), frames
        elif form == "if":
            yield term, (of(parts[0]),), ((todo[0], term, behind), *frames)
            if not self.satisfying(of(parts[0]), term):
                yield term, (of(parts[2]), *behind), frames
        elif form in DEFINED:
            yield term, (of(DEFINED[form](*parts)), *behind), frames
        elif form == "call":
            for body in self.bodies(*parts, *setting):
                yield term, (body, *behind), frames
        else:
            for result in self.results(form, parts, dict((v[0], x) for v, x in setting[1]), term):
                yield result, behind, frames

    def satisfying(self, todo, term):
        """All terms that satisfy a strategy from a term, by its text."""
        if (todo, term) not in self.satisfied:
            self.tries -= 1
            if self.tries < 0:
                raise TooMuch
            self.satisfied[todo, term] = frozenset(self.satisfied_by(todo, term))
        return self.satisfied[todo, term]

    def satisfied_by(self, todo, term):
        (form, *parts), *setting = todo
        of = lambda strategy, term: self.satisfying((strategy, *setting), term)
        if form == "seq":
            return [u for v in of(parts[0], term) for u in of(parts[1], v)]
        if form == "or":
            return of(parts[0], term) | of(parts[1], term)
        if form == "star":
            reached, waiting = {term}, [term]
            while waiting:
                new = of(parts[0], waiting.pop()) - reached
                reached |= new
                waiting += new
            return reached
        if form == "if":
            inner = of(parts[0], term)
            return [u for v in inner for u in of(parts[1], v)] if inner else of(parts[2], term)
        if form in DEFINED:
            return of(DEFINED[form](*parts), term)
        if form == "call":
            return [u for body in self.bodies(*parts, *setting) for u in self.satisfying(body, term)]
        return list(self.results(form, parts, dict((v[0], x) for v, x in setting[1]), term))

    def solutions(self, variables, pattern, subject, *rest):
        self.tries -= cost_of(subject)
        if self.tries < 0:
            raise TooMuch
        return super().solutions(variables, pattern, subject, *rest)

    # ---- leaves and calls, one result after the other

    def fresh(self, term, values=None):
        """The value of an instance, by the whole budget."""
        self.budget = self.limit
        return self.evaluate(term, 1, values)[0]

    def results(self, form, parts, values, term):
        if form == "idle":
            yield term
        elif form in TESTS:
            if self.passes(form, *parts, values, term):
                yield term
        elif form in ("all", "label", "top"):
            places = self.places(term)
            if form == "top":
                places, (form, *parts) = [(term, lambda it: it)], parts[0]
            label, assigns = parts or (None, ())
            given = [self.fresh(it, values) for _, it in assigns]
            for place, around in places:
                for rule in self.rules:
                    if (label is None or rule.label == label) and all(sign != "=>" for sign, _, _ in rule.fragments):
                        bound = self.assigned(rule, assigns, given)
                        if bound is not None:
                            yield from self.by_rule(rule, bound, place, around)

    def assigned(self, rule, assigns, given):
        """What assigns give to the variables of a rule; nothing where it hasn't one of them, where a value hasn't its sort, or where one has two values."""
        if not assigns:
            return {}
        pair, value = assigns[0][0], given[0]
        if pair not in rule.variables or pair[1] not in self.sorts(value, 1):
            return None
        found, v = self.assigned(rule, assigns[1:], given[1:]), rule.variables.index(pair)
        return None if found is None or found.get(v, value) != value else {**found, v: value}

    def by_rule(self, rule, bound, place, around):
        determined = variables_of(rule.left) | set(bound) | {v for sign, one, _ in rule.fragments if sign == ":=" for v in variables_of(one)}
        if rule.nonexec and len(determined) < len(rule.variables):
            return
        for left, right, values in self.solutions(rule.variables, rule.left, place, 1, True, bound):
            for answer in self.asked(rule.variables, rule.fragments, {**bound, **values}):
                made = self.sig.norm(rule.right, answer)
                yield self.fresh(around(self.sig.over(place[0], [*left, made, *right]) if left or right else made))

    def passes(self, kind, pattern, fragments, sorts, values, term):
        """Whether a test has a solution whose condition holds; nothing is asked behind the first one."""
        variables = dict(sorts)
        for place in self.everywhere(term) if kind == "amatch" else [term]:
            for _, _, found in self.solutions(variables, pattern, place, 1, kind != "match", values):
                self.budget = self.limit
                if self.ask(variables, fragments, {**values, **found}, 2) is not None:
                    return True
        return False

    def everywhere(self, term):
        yield term
        if isinstance(term, tuple) and term[0] != "v":
            for x in term[1]:
                yield from self.everywhere(x)

    def bodies(self, name, args, calls, values):
        if calls == 0:
            raise End(f"Call depth: {CALLS}.")
        values = dict((v[0], x) for v, x in values)
        given = [self.fresh(it, values) for it in args]
        for it in self.definitions:
            if it.name == name and len(it.args) == len(given):
                for bound in self.fitting(it, list(zip(it.args, given)), {}):
                    for found in self.asked(it.variables, it.fragments, bound):
                        yield it.body, calls - 1, tuple(((v, it.variables[v][1]), found[v]) for v in sorted(found))

    def fitting(self, definition, pairs, bound):
        if not pairs:
            yield bound
            return
        for _, _, found in self.solutions(definition.variables, pairs[0][0], pairs[0][1], 1, False, bound):
            yield from self.fitting(definition, pairs[1:], {**bound, **found})

    # ---- conditions

    def asked(self, variables, fragments, values):
        """All solutions of a condition in order, each asking with the whole budget."""
        last = None
        while True:
            self.budget = self.limit
            last = self.ask(variables, fragments, values, 2, last)
            if last is None:
                return
            yield last

    def ask(self, variables, fragments, values, level, last=None):
        """The first solution of a condition, or the first one behind a last one."""
        if not fragments:
            return values if last is None else None
        (sign, one, other), rest = fragments[0], fragments[1:]
        if sign == ":=":
            value, _ = self.evaluate(other, level, values)
            for _, _, found in self.solutions(variables, one, value, level, False, values):
                if last is not None and any(last[v] != x for v, x in found.items()):
                    continue
                answer = self.ask(variables, rest, {**values, **found}, level, last)
                if answer is not None:
                    return answer
                last = None
            return None
        value, _ = self.evaluate(one, level, values)
        holds = other in self.sorts(value, level) if sign == ":" else value == self.evaluate(other, level, values)[0]
        return self.ask(variables, rest, values, level, last) if holds else None

    # ---- answers

    def lines(self, solutions, most):
        """The lines of at most so many further solutions, and whether one may go on."""
        out, before = [], len(self.found)
        while most is None or len(self.found) - before < most:
            try:
                term = next(solutions, None)
            except End as end:
                return out + [str(end)], False
            if term is None:
                return out + ["No more solutions." if self.found else "No solution."], False
            out += [f"Solution {len(self.found)}", f"result {self.shown_sort(term)}: {self.sig.shown(term, self.variables)[0]}"]
        return out + ["Bound reached."], True

    def listing(self, term, strategy, variables, most):
        """The lines of a command, its solutions that may follow, and whether one may go on."""
        try:
            solutions = self.begin(term, strategy, variables)
        except End as end:
            return [str(end)], None, False
        lines, goes_on = self.lines(solutions, most)
        return lines, solutions, goes_on

    def all_found(self):
        """Whether the solutions that were listed up to the end are just the terms that satisfy the strategy, each once."""
        return len(self.found) == len(set(self.found)) and set(self.found) == self.satisfying(self.begins[1], self.begins[0])
