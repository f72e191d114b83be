"""What the specification asks of the sides of statements: no variable for a left side, no list for the head of a membership."""
from signature import numbered


def pairs_of(term):
    """The variables of a term, as pairs."""
    if isinstance(term, int):
        return set()
    return {term[1]} if term[0] == "v" else {pair for x in term[1] for pair in pairs_of(x)}


def top_of(sig, term):
    """The normal form of a term whose variables are pairs."""
    return sig.norm(numbered(term, []))


def kind_of(sig, term):
    if isinstance(term, int):
        return sig.kind["Zero"]
    return sig.kind.get(term[1][1], term[1][1]) if term[0] == "v" else sig.op(term).result


def is_variable(sig, term):
    top = top_of(sig, term)
    return isinstance(top, tuple) and top[0] == "v"


def is_no_head(sig, term):
    top = top_of(sig, term)
    if isinstance(top, int) or top[0] == "v" or top[0][0] == "s_":
        return True
    return len(top[1]) > 1 and ("assoc" in sig.op(top).attrs or "id" in sig.op(top).attrs)
