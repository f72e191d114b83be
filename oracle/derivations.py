"""Derivations as the specification says them, written apart from the code: documents read, and each fact judged by those before it."""
import re

from evaluation import GREATEST, depth, overflows
from statements_of import kind_of

HOLE = 2**32 - 1


class Fault(Exception):
    """Where bytes are no document: the name of the fault and the line."""


# ---- documents

LINES = [(word, re.compile(pattern + r"\Z")) for word, pattern in [
    ("section", r"section (?P<small>#) (?P<name>[^ ]+)"), ("term", r"term (?P<next>#) num (?P<numeral>#)"),
    ("term", r"term (?P<next>#) var (?P<variable>[^ ]+:[^ :]+)"), ("term", r"term (?P<next>#) app (?P<small>#)(?P<terms>( #)*)"),
    ("fact", r"fact (?P<next>#) same (?P<terms>#) (?P<terms2>#)"),
    ("fact", r"fact (?P<next>#) step (?P<kind>eq|rl) (?P<small>#) (?P<terms>#) from (?P<terms2>#) to (?P<terms3>#) bind(?P<terms4>( #)*) uses(?P<facts>( #)*)"),
    ("fact", r"fact (?P<next>#) built (?P<small>#) (?P<terms>#) from (?P<terms2>#) to (?P<terms3>#) args(?P<terms4>( #)*)"),
    ("fact", r"fact (?P<next>#) under (?P<small>#)(?P<facts>( #)+) from (?P<terms>#) to (?P<terms2>#)"),
    ("fact", r"fact (?P<next>#) chain(?P<facts>( #)+)"),
    ("fact", r"fact (?P<next>#) sort (?P<terms>#) (?P<small>#) decl uses(?P<facts>( #)*)"),
    ("fact", r"fact (?P<next>#) sort (?P<terms>#) (?P<small>#) mb (?P<small2>#) bind(?P<terms2>( #)*) uses(?P<facts>( #)*)"), ("end", r"end")]
    for pattern in [pattern.replace("#", r"(?:0|[1-9][0-9]*)")]]


def is_in_range(group, number, terms, facts, following):
    if group == "numeral":
        return number <= GREATEST
    if group == "next":
        return number == following
    if group.startswith("small"):
        return number < 2**32
    return 1 <= number <= (terms if group.startswith("terms") else facts)


def read(data):
    """The text and the sections of a document, each with its item, its module, its terms and its facts as words; or a fault."""
    if not data.startswith(b"mrew-facts 1\n"):
        raise Fault("Unexpected", 1)
    end = data.find(b"\n", 13)
    size = re.fullmatch(rb"text (0|[1-9][0-9]*)", data[13:end]) if end >= 0 else None
    if size is None:
        raise Fault("Unexpected", 2)
    if int(size[1]) >= 2**32:
        raise Fault("BadNumber", 2)
    start, count = end + 1, int(size[1])
    if data[start + count:start + count + 1] != b"\n":
        raise Fault("Unexpected", data[:min(start + count, len(data))].count(b"\n") + 1)
    text, sections, at, state = data[start:start + count], [], start + count + 1, "outside"
    while at < len(data):
        line, end = data[:at].count(b"\n") + 1, data.find(b"\n", at)
        try:
            words = data[at:end].decode() if end >= 0 else None
        except UnicodeDecodeError:
            words = None
        found = None if words is None else next(((word, it) for word, pattern in LINES if (it := pattern.match(words))), None)
        allowed = {"outside": ["section"], "terms": ["term", "fact", "end"], "facts": ["fact", "end"]}[state]
        if found is None or found[0] not in allowed or any(c in words for c in "\t\r\f"):
            raise Fault("Unexpected", line)
        word, it = found
        terms, facts = (len(sections[-1][2]), len(sections[-1][3])) if word in ("term", "fact") else (0, 0)
        for group, value in it.groupdict().items():
            for number in re.findall(r"[0-9]+", value or "") if group not in ("name", "variable", "kind") else ():
                if not is_in_range(group, int(number), terms, facts, (terms if word == "term" else facts) + 1):
                    raise Fault("BadNumber", line)
        if word == "section":
            sections.append((int(it["small"]), it["name"], [], []))
        elif word != "end":
            sections[-1][2 if word == "term" else 3].append(words.split(" ")[2:])
        state = {"section": "terms", "term": "terms", "fact": "facts", "end": "outside"}[word]
        at = end + 1
    if state != "outside":
        raise Fault("Unexpected", data.count(b"\n") + 1)
    return text, sections


# ---- facts. Terms are as in the text: a number, a variable ("v", number), or (the key of an operator, as many arguments as it has)

def between(words, first, last=None):
    """The numbers behind a word, up to another one."""
    start = words.index(first) + 1
    return [int(it) for it in words[start:words.index(last, start) if last else None]]


def nested(sig, key, args):
    """An operator over terms, nested to the right where it is associative; then there are two or more."""
    if not sig.operators[key].attrs.get("assoc"):
        return (key, tuple(args))
    if len(args) < 2:
        return None
    term = args[-1]
    for other in reversed(args[:-1]):
        term = (key, (other, term))
    return term


def put(term, values):
    """The term with these terms for its variables."""
    if isinstance(term, int):
        return term
    return values.get(term[1], term) if term[0] == "v" else (term[0], tuple(put(x, values) for x in term[1]))


def holes(term):
    if isinstance(term, int):
        return []
    return [term[1]] * (term[1] >= HOLE) if term[0] == "v" else [hole for x in term[1] for hole in holes(x)]


class Checker:
    """Judges sections in a module. Statements are those of evaluation.py, all of the module in order; `built_in` gives what a normal form is by what is
    built in of its operator, or nothing."""

    def __init__(self, sig, equations, memberships, rules, built_in):
        self.sig, self.equations, self.memberships, self.rules, self.built_in = sig, equations, memberships, rules, built_in
        self.kinds = list(dict.fromkeys(sig.kind[a] for a in sig.sorts))

    # ---- terms

    def hole(self, kind):
        """The variable that is the hole of a kind."""
        return ("v", HOLE + self.kinds.index(kind))

    def read_terms(self, lines):
        sig, names, terms = self.sig, {}, []
        self.variables = {HOLE + i: ("HOLE", kind) for i, kind in enumerate(self.kinds)}
        for kind, *words in lines:
            term = None
            if kind == "num":
                term = int(words[0])
            elif kind == "var":
                name, sort = words[0].rsplit(":", 1)
                is_kind = sort[:1] == "[" and sort[-1:] == "]" and len(sort) > 1
                sort = sort[1:-1] if is_kind else sort
                if sort in sig.sorts:
                    pair = name, sig.kind[sort] if is_kind else sort
                    if name == "HOLE" and is_kind:
                        term = self.hole(pair[1])
                    else:
                        names.setdefault(pair, len(names))
                        self.variables[names[pair]] = pair
                        term = ("v", names[pair])
            else:
                args = [terms[int(it) - 1] for it in words[1:]]
                if 1 <= int(words[0]) <= len(sig.of) and None not in args:
                    term = nested(sig, sig.of[int(words[0]) - 1].key, args)
            terms.append(term)
        return terms

    def kind_in(self, term):
        """The kind in which a bare term lies, or nothing."""
        sig = self.sig
        if isinstance(term, int):
            return sig.kind.get("Zero")
        if term[0] == "v":
            return sig.kind.get(self.variables[term[1]][1], self.variables[term[1]][1])
        op = sig.op(term)
        return op.result if [self.kind_in(x) for x in term[1]] == list(op.kinds) else None

    def may_name(self, term):
        if term is None or self.kind_in(term) is None:
            return False
        normal = self.sig.norm(term)
        return depth(normal) <= 1000 and not overflows(normal)

    def equal(self, one, other):
        """Equal modulo the axioms."""
        are = one is not None and other is not None and self.kind_in(one) is not None and self.kind_in(one) == self.kind_in(other)
        return are and self.sig.norm(one) == self.sig.norm(other)

    def fill(self, context, term):
        return put(context, {hole: term for hole in holes(context)})

    # ---- what facts show

    def sorts(self, normal, told):
        sig = self.sig
        if isinstance(normal, int):
            found = sig.above("NzNat" if normal else "Zero")
        elif normal[0] == "v":
            found = sig.above(self.variables[normal[1]][1])
        else:
            found = self.declared(sig.op(normal), [self.sorts(x, told) for x in normal[1]])
        return found.union(*[sig.above(sort) for term, sort in told if sig.norm(term) == normal])

    def declared(self, op, parts):
        if len(parts) > len(op.kinds):
            parts = [parts[0], self.declared(op, parts[1:])]
        found = {op.result}
        for args, result in op.declared:
            if any(all(a in has for a, has in zip(way, parts)) for way in self.sig.both_ways(op, args)):
                found |= self.sig.above(result)
        return found

    def has_sort(self, term, sort, uses):
        return self.kind_in(term) is not None and sort in self.sorts(self.sig.norm(term), [it[1:] for it in uses if it[0] == "sort"])

    def ends(self, uses, term, by_equations):
        """To where the facts in use lead from a term."""
        return [it[3] for it in uses if it[0] == "leads" and (it[1] or not by_equations) and self.equal(term, it[2])]

    def shows(self, uses, fragment, values):
        sign, one, other = fragment
        one = put(one, values)
        if sign == ":":
            return any(self.has_sort(end, other, uses) for end in self.ends(uses, one, True))
        other = put(other, values)
        if sign == "=":
            return any(self.equal(a, b) for a in self.ends(uses, one, True) for b in self.ends(uses, other, True))
        start, end = (other, one) if sign == ":=" else (one, other)
        return any(self.equal(it, end) for it in self.ends(uses, start, sign == ":="))

    def uses(self, statement, values, uses):
        """Whether the values have the sorts of a statement's variables, and its condition is shown."""
        named = dict(enumerate(values))
        return (len(values) == len(statement.variables) and all(self.has_sort(v, sort, uses) for v, (_, sort) in zip(values, statement.variables))
                and all(self.shows(uses, it, named) for it in statement.fragments))

    # ---- facts

    def fits(self, context, term, made, one, other):
        """Whether one use of term for made in a context leads from one term to another."""
        kind = self.kind_in(term)
        if kind is None or holes(context) != [self.hole(kind)[1]]:
            return False
        return self.equal(one, self.fill(context, term)) and self.equal(self.fill(context, made), other)

    def says(self, words, terms, before):
        """What a fact says that is justified, or nothing."""
        sig, at = self.sig, lambda number: terms[int(number) - 1]
        says = lambda numbers: [before[number - 1] for number in numbers]
        every = lambda facts: all(it[0] == "leads" and it[1] for it in facts)
        if words[0] == "chain":
            facts = says(between(words, "chain"))
            on = all(it[0] == "leads" for it in facts) and all(self.equal(a[3], b[2]) for a, b in zip(facts, facts[1:]))
            return ("leads", every(facts), facts[0][2], facts[-1][3]) if on else None
        if words[0] == "sort":
            term, sort = at(words[1]), sig.sorts[int(words[2]) - 1] if 1 <= int(words[2]) <= len(sig.sorts) else None
            if sort is None or not self.may_name(term):
                return None
            if words[3] == "decl":
                return ("sort", term, sort) if self.has_sort(term, sort, says(between(words, "uses"))) else None
            values, number = [at(it) for it in between(words, "bind", "uses")], int(words[4])
            if not 1 <= number <= len(self.memberships) or not all(map(self.may_name, values)):
                return None
            m = self.memberships[number - 1]
            is_member = self.uses(m, values, says(between(words, "uses"))) and sig.leq(m.right, sort) and self.equal(term, put(m.left, dict(enumerate(values))))
            return ("sort", term, sort) if is_member else None
        one, other = (int(words[1]), int(words[2])) if words[0] == "same" else (between(words, "from", "to")[0], int(words[words.index("to") + 1]))
        one, other = at(one), at(other)
        if not self.may_name(one) or not self.may_name(other):
            return None
        if words[0] == "same":
            return ("leads", True, one, other) if self.equal(one, other) else None
        if words[0] == "under":
            facts = says([int(it) for it in words[2:words.index("from")]])
            if not 1 <= int(words[1]) <= len(sig.of) or any(it[0] != "leads" for it in facts):
                return None
            over = lambda place: nested(sig, sig.of[int(words[1]) - 1].key, [it[place] for it in facts])
            return ("leads", every(facts), one, other) if self.equal(one, over(2)) and self.equal(over(3), other) else None
        context = at(words[3] if words[0] == "step" else words[2])
        values = [at(it) for it in (between(words, "bind", "uses") if words[0] == "step" else between(words, "args"))]
        if not self.may_name(context) or not all(map(self.may_name, values)):
            return None
        if words[0] == "built":
            return ("leads", True, one, other) if self.is_built(int(words[1]), context, values, one, other) else None
        statements = self.rules if words[1] == "rl" else self.equations
        if not 1 <= int(words[2]) <= len(statements):
            return None
        e, named = statements[int(words[2]) - 1], dict(enumerate(values))
        holds = self.uses(e, values, says(between(words, "uses"))) and self.fits(context, put(e.left, named), put(e.right, named), one, other)
        return ("leads", words[1] == "eq", one, other) if holds else None

    def is_built(self, number, context, args, one, other):
        sig = self.sig
        if not 1 <= number <= len(sig.of):
            return False
        key = sig.of[number - 1].key
        whole = nested(sig, key, args)
        if whole is None or self.kind_in(whole) is None:
            return False
        normals = [sig.norm(x) for x in args]
        if "hook" in sig.of[number - 1].attrs:
            normals = [x for item in normals for x in (sig.items(key, item) if sig.of[number - 1].attrs.get("assoc") else [item])]
            normals = sorted(normals, key=sig.order) if sig.of[number - 1].attrs.get("comm") else normals
        made = self.built_in((key, tuple(normals)))
        return made is not None and self.fits(context, whole, self.bare(made), one, other)

    def bare(self, normal):
        """A normal form as a term of the text."""
        if isinstance(normal, int) or normal[0] == "v":
            return normal
        args = [self.bare(x) for x in normal[1]]
        return nested(self.sig, normal[0], args) if len(args) > len(self.sig.op(normal).kinds) else (normal[0], tuple(args))

    def answer(self, section):
        """The lines of a section, whose module is this one."""
        item, _, lines, facts = section
        terms, before = self.read_terms(lines), []
        for number, words in enumerate(facts):
            said = self.says(words, terms, before)
            if said is None:
                return [f"[{item}] rejected {number + 1}"]
            before.append(said)
        out = [f"[{item}] accepted {len(facts)}"]
        if before and before[-1][0] == "leads":
            show = lambda term: self.sig.shown(self.sig.norm(term), self.variables)[0]
            out.append(f"conclusion: {show(before[-1][2])} ---> {show(before[-1][3])}")
        return out
