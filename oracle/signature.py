"""Signatures and terms as the definitions mean them, written apart from the code: sorts, normal forms, their order, their text."""
import itertools

# ---- signatures: what the declarations of a module say

BOOL = [("true", (), "Bool", {}), ("false", (), "Bool", {}), ("_and_", ("Bool", "Bool"), "Bool", {"assoc": 1, "comm": 1, "prec": 55}),
        ("_or_", ("Bool", "Bool"), "Bool", {"assoc": 1, "comm": 1, "prec": 59}), ("_xor_", ("Bool", "Bool"), "Bool", {"assoc": 1, "comm": 1, "prec": 57}),
        ("not_", ("Bool",), "Bool", {"prec": 53}), ("_implies_", ("Bool", "Bool"), "Bool", {"prec": 61, "gather": "eE"})]
NAT = [("s_", ("Nat",), "NzNat", {}), ("_+_", ("NzNat", "Nat"), "NzNat", {"assoc": 1, "comm": 1, "prec": 33}), ("_+_", ("Nat", "Nat"), "Nat", {}),
       ("sd", ("Nat", "Nat"), "Nat", {"comm": 1}), ("_*_", ("NzNat", "NzNat"), "NzNat", {"assoc": 1, "comm": 1, "prec": 31}),
       ("_*_", ("Nat", "Nat"), "Nat", {})]


def pieces(form):
    """The words of a form, with `_` for its holes."""
    return form.replace("_", " _ ").split()


class Operator:
    def __init__(self, key, result, number):
        self.key, (self.name, self.kinds), self.result, self.number = key, key, result, number
        self.declared, self.attrs = [], {}


class Signature:
    """Sorts in order, subsort pairs, and declarations (form, argument sorts, result, attributes). A kind is written as `[` and one of its sorts."""

    def __init__(self, sorts, pairs, declarations):
        self.sorts, self.pairs = sorts, pairs
        self.below = {(a, a) for a in sorts} | set(pairs)
        for b in sorts:
            for a, c in itertools.product(sorts, sorts):
                if (a, b) in self.below and (b, c) in self.below:
                    self.below.add((a, c))
        self.kind = {}
        for a in sorts:
            joined, before = {a}, None
            while joined != before:
                before = set(joined)
                joined |= {x for pair in pairs for x in pair if set(pair) & joined}
            self.kind[a] = "[" + min(joined, key=sorts.index)
        self.operators = {}
        for name, args, result, attrs in declarations:
            key = name, tuple(self.kind.get(a, a) for a in args)
            op = self.operators.setdefault(key, Operator(key, self.kind.get(result, result), len(self.operators)))
            op.declared.append((args, result))
            op.attrs.update(attrs)
        self.of = list(self.operators.values())

    def leq(self, a, b):
        return a == b or (a, b) in self.below or self.kind.get(a) == b

    def above(self, a):
        return {b for b in [*self.sorts, *self.kind.values()] if self.leq(a, b)}

    def members(self, kind):
        """The sorts of a kind in order, and the kind behind them."""
        return [a for a in self.sorts if self.kind[a] == kind] + [kind]

    def name_of(self, sort):
        if not sort.startswith("["):
            return sort
        members = self.members(sort)[:-1]
        return "[" + ",".join(a for a in members if not any(a != b and self.leq(a, b) for b in members)) + "]"

    def both_ways(self, op, args):
        return {args, args[::-1]} if op.attrs.get("comm") else {args}

    def least(self, sorts):
        return next((a for a in sorts if all(self.leq(a, b) for b in sorts)), None)

    def result(self, op, sorts):
        """The least result of the declarations that apply, the kind where none does, or nothing."""
        found = {r for args, r in op.declared for way in self.both_ways(op, args) if all(map(self.leq, sorts, way))}
        return self.least(found) if found else op.result

    def refusal(self):
        """The text of the first operator that isn't accepted, with its least tuple, triple or sort; or nothing."""
        for op in self.of:
            for sorts in itertools.product(*map(self.members, op.kinds)):
                if self.result(op, sorts) is None:
                    return " ".join(["NotPreregular", op.name, *map(self.name_of, sorts)])
            two = lambda a, b: self.result(op, (a, b))
            if op.attrs.get("assoc"):
                for a, b, c in itertools.product(self.members(op.kinds[0]), repeat=3):
                    if two(two(a, b), c) != two(a, two(b, c)):
                        return " ".join(["NotAssociativeSorts", op.name, *map(self.name_of, (a, b, c))])
            if "id" in op.attrs:
                e = self.least(self.sorts_of(op.attrs["id"], [], {}))
                for a in self.members(op.kinds[0]):
                    if any(r != a and self.leq(r, a) for r in (two(e, a), two(a, e))):
                        return f"IdentityLowersSort {op.name} {self.name_of(a)}"
        return None

    # ---- terms: a number, a variable ("v", index), or (the key of an operator, arguments)

    def op(self, term):
        return self.operators[term[0]]

    def order(self, term):
        """Terms compare as these do: numerals, variables by first occurrence, applications by operator and arguments."""
        if isinstance(term, int):
            return (0, term)
        if term[0] == "v":
            return (1, term[1])
        return (2, self.op(term).number, tuple(map(self.order, term[1])))

    def over(self, key, items):
        """The normal form of an operator over normal forms, of which it takes any number where it is associative."""
        attrs = self.operators[key].attrs
        if attrs.get("assoc"):
            items = [x for item in items for x in (item[1] if isinstance(item, tuple) and item[0] == key else [item])]
        if "id" in attrs:
            items = [x for x in items if x != attrs["id"]]
            if not items:
                return attrs["id"]
        if len(items) == 1 and len(self.operators[key].kinds) == 2:
            return items[0]
        if attrs.get("comm"):
            items = sorted(items, key=self.order)
        if key[0] == "s_" and isinstance(items[0], int):
            return items[0] + 1
        return (key, tuple(items))

    def norm(self, term, values=None):
        """The normal form of a term, with these normal forms for its variables, if they are given."""
        if isinstance(term, int):
            return term
        if term[0] == "v":
            return (values or {}).get(term[1], term)
        return self.over(term[0], [self.norm(x, values) for x in term[1]])

    def items(self, key, term):
        """The list of a normal form under an associative operator."""
        if "id" in self.operators[key].attrs and term == self.operators[key].attrs["id"]:
            return []
        return list(term[1]) if isinstance(term, tuple) and term[0] == key else [term]

    def sorts_of(self, term, variables, known):
        """All sorts of a normal form, and its kind."""
        if term not in known:
            if isinstance(term, int):
                known[term] = self.above("NzNat" if term else "Zero")
            elif term[0] == "v":
                known[term] = self.above(variables[term[1]][1])
            else:
                op, args = self.op(term), term[1]
                if len(args) > len(op.kinds):
                    args = (args[0], (term[0], args[1:]))
                parts = [self.sorts_of(x, variables, known) for x in args]
                found = {op.result}
                for declared, result in op.declared:
                    if any(all(a in has for a, has in zip(way, parts)) for way in self.both_ways(op, declared)):
                        found |= self.above(result)
                known[term] = found
        return known[term]

    def parts(self, term, folds=True):
        """All that a variable can stand for where an instance is this normal form; numerals below others only where successors are folded."""
        found, seen = {op.attrs["id"] for op in self.of if "id" in op.attrs}, set()

        def walk(t):
            if t in seen:
                return
            seen.add(t)
            found.add(t)
            if isinstance(t, int):
                found.update(range(t) if folds else ())
            elif t[0] != "v":
                n, attrs = len(t[1]), self.op(t).attrs
                if attrs.get("assoc") and attrs.get("comm"):
                    found.update(self.over(t[0], [t[1][i] for i in range(n) if m >> i & 1]) for m in range(1, 2**n))
                elif attrs.get("assoc"):
                    found.update(self.over(t[0], t[1][i:j]) for i in range(n) for j in range(i + 1, n + 1))
                for x in t[1]:
                    walk(x)

        walk(term)
        return found

    # ---- text

    def variable(self, pair):
        return f"{pair[0]}:{self.name_of(pair[1])}"

    def source(self, term, variables):
        """A term as input: every operator in prefix form."""
        if isinstance(term, int):
            return str(term)
        if term[0] == "v":
            return self.variable(variables[term[1]])
        if not term[1]:
            return self.op(term).name
        return f"{self.op(term).name}({', '.join(self.source(x, variables) for x in term[1])})"

    def layout(self, op):
        """The precedence and the gather pattern of an operator, given or by default."""
        words = pieces(op.name)
        ends = [words[0] == "_", words[-1] == "_"]
        default = 0 if not any(ends) else 15 if len(op.kinds) == 1 else 41
        if "gather" in op.attrs:
            gather = op.attrs["gather"]
        elif len(op.kinds) == 2 and op.attrs.get("assoc") and all(ends):
            gather = "eE"
        else:
            gather = ["E" if at in (0, len(words) - 1) else "&" for at, word in enumerate(words) if word == "_"]
        return op.attrs.get("prec", default), gather

    def admits(self, how, level, inner):
        return {"E": inner <= level, "e": inner < level, "&": True}[how]

    def shown(self, term, variables):
        """A normal form as it is printed, and its precedence."""
        if isinstance(term, int):
            return str(term), 0
        if term[0] == "v":
            return self.variable(variables[term[1]]), 0
        op, args = self.op(term), term[1]
        if not args:
            return op.name, 0
        if "_" not in op.name:
            return f"{op.name}({', '.join(self.shown(x, variables)[0] for x in args)})", 0
        if len(args) > len(op.kinds):
            args = (args[0], (term[0], args[1:]))
        words, (level, gather) = pieces(op.name), self.layout(op)
        rest, admits = list(args), list(gather)
        for at, word in enumerate(words):
            if word == "_":
                text, inner = self.shown(rest.pop(0), variables)
                words[at] = text if self.admits(admits.pop(0), level, inner) else f"({text})"
        return " ".join(words), level


# ---- texts

def numbered(term, variables):
    """The term with its variables numbered as they occur."""
    if isinstance(term, int):
        return term
    if term[0] == "v":
        if term[1] not in variables:
            variables.append(term[1])
        return ("v", variables.index(term[1]))
    return (term[0], tuple(numbered(x, variables) for x in term[1]))


def module_text(own, pairs, declarations, with_nat=False):
    """The text of a module M with these sorts, subsort pairs and declarations."""
    out = ["fmod M is", *(["protecting NAT ."] if with_nat else []), f"sorts {' '.join(own)} ."]
    out += [f"subsort {a} < {b} ." for a, b in pairs]
    for name, args, result, attrs in declarations:
        words = [word for word in ("assoc", "comm") if word in attrs]
        if "id" in attrs:
            words.append(f"id: {attrs['id'] if attrs['id'] == 0 else attrs['id'][0][0]}")
        if "prec" in attrs:
            words.append(f"prec {attrs['prec']}")
        if "gather" in attrs:
            words.append(f"gather ({' '.join(attrs['gather'])})")
        if "frozen" in attrs:
            words.append(f"frozen ({' '.join(str(i + 1) for i in attrs['frozen'])})")
        if "strat" in attrs:
            words.append(f"strat ({' '.join(str(i + 1) for i in attrs['strat'])} 0)".replace("( ", "("))
        out.append(f"op {name} : {' '.join(args)} -> {result}{' [' + ' '.join(words) + ']' if words else ''} .")
    return "\n".join(out + ["endfm", ""])
