"""Random modules and terms, for the comparisons beside this file."""
import itertools

from signature import BOOL, NAT, Signature


def random_module(r):
    """Sorts, pairs and declarations of a module beside those of the prelude, and whether it includes NAT."""
    with_nat = r.random() < 0.3
    shape = r.choice(["one sort", "lists", "lists", "any"])
    own = {"one sort": ["S"], "lists": ["E", "L"], "any": ["A", "B", "C", "D"]}[shape]
    pairs = [("E", "L")] if shape == "lists" else [(a, b) for a, b in itertools.combinations(own, 2) if shape == "any" and r.random() < 0.4]
    r.shuffle(own)
    if with_nat and r.random() < 0.6:
        pairs.append(("Nat", r.choice([a for a in own if a != "E"])))
    sorts = own + (["Nat"] if with_nat else [])
    main = r.choice([a for a in own if not any(a == b for b, _ in pairs)])
    declarations = [(c, (), r.choice(own), {}) for c in "abc"]
    mixfix = r.random() < 0.6
    for name, unit in list(zip(["_;_", "_@_", "_&_"] if mixfix else "fhk", ["none", "nil", "unit"]))[: r.choice([1, 2, 2, 3])]:
        axioms = r.choice(["", "c", "a", "ac", "u", "cu", "au", "acu"])
        attrs = {word: 1 for word in ("assoc", "comm") if word[0] in axioms}
        if "u" in axioms:
            e = r.choice([unit, "b", "c"])
            attrs["id"] = ((e, ()), ())
            if e == unit:
                declarations.append((e, (), main if r.random() < 0.7 else r.choice(own), {}))
            elif with_nat and r.random() < 0.3:
                attrs["id"] = 0
        if mixfix and r.random() < 0.4:
            attrs["prec"] = r.randrange(20, 60)
        if mixfix and r.random() < 0.3:
            attrs["gather"] = r.choice("eE&") + r.choice("eE&")
        args, result = ((main, main), main) if r.random() < 0.6 else ((r.choice(sorts), r.choice(sorts)), r.choice(sorts))
        declarations.append((name, args, result, attrs))
        if r.random() < 0.3:
            # (attributes of an operator's declarations are united: some stand with the second one, or with both)
            later = {word: attrs[word] for word in attrs if r.random() < 0.3}
            for word in later:
                if r.random() < 0.5:
                    del attrs[word]
            declarations.append((name, (r.choice(sorts), r.choice(sorts)), r.choice(sorts), later))
    if r.random() < 0.6:
        declarations.append((r.choice(["g", "!_", "_?", "<_>"]), (r.choice(sorts),), r.choice(sorts), {}))
    return own, pairs, declarations, with_nat


def signature_of(module):
    """The signature of a module with all that it includes."""
    own, pairs, declarations, with_nat = module
    numerals = ["Zero", "NzNat", "Nat"] if with_nat else []
    below = [("Zero", "Nat"), ("NzNat", "Nat")] if with_nat else []
    return Signature(["Bool", *numerals, *own], below + pairs, BOOL + (NAT if with_nat else []) + declarations)


def suits(sig):
    """Whether each operator's kinds and identity suit its axioms."""
    for op in sig.of:
        if any(sig.kind.get(r, r) != op.result for _, r in op.declared) or op.attrs.get("comm") and len(set(op.kinds)) > 1:
            return False
        if (op.attrs.get("assoc") or "id" in op.attrs) and {*op.kinds} != {op.result}:
            return False
        e = op.attrs.get("id")
        if isinstance(e, tuple) and (e[0] not in sig.operators or sig.operators[e[0]].result != op.result) or e == 0 and sig.kind["Zero"] != op.result:
            return False
    return True


def random_term(sig, r, kind, depth, pool, often):
    """A random term of a kind; its variables are pairs, as ("v", pair)."""
    fitting = [pair for pair in pool if sig.kind.get(pair[1], pair[1]) == kind]
    if fitting and r.random() < often:
        return ("v", r.choice(fitting))
    if "Nat" in sig.sorts and kind == sig.kind["Nat"] and r.random() < 0.3:
        return r.randrange(4)
    found = [op for op in sig.of if op.result == kind and (depth > 0 or not op.kinds)]
    if depth > 0 and any(op.kinds for op in found) and r.random() < 0.85:
        found = [op for op in found if op.kinds]
    if not found:
        return None
    op = r.choice(found)
    args = tuple(random_term(sig, r, k, depth - 1, pool, often) for k in op.kinds)
    return None if None in args else (op.key, args)
