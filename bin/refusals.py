"""What bin/explain and bin/session share: a run of a text, its tokens and items, and what a refusal is about, in plain words. docs/LANGUAGE.md has the rules."""
import os
import re
import subprocess
import textwrap

ROOT = os.path.dirname(os.path.dirname(os.path.realpath(__file__)))
SPECIAL = rb"()\[\]{},"
BLANK = rb" \t\r\n\f"
PIECE = re.compile(
    rb"(?P<blank>[%s]+)|(?P<open>(?:\*\*\*|---)\()|(?P<comment>(?:\*\*\*|---)[^\n]*)" % BLANK
    + rb"|(?P<string>\"(?:[^\"]|(?<=\\)\")*(?<!\\)\")|(?P<fault>\")|(?P<token>[%s]|(?:`[%s]|[^%s%s])+)" % (SPECIAL, SPECIAL, SPECIAL, BLANK)
)
MODULES = {b"fmod": b"endfm", b"mod": b"endm", b"smod": b"endsm"}
ENDING = (b"quit", b"q", b"eof")
IMPORTS = (b"protecting", b"pr", b"extending", b"ex", b"including", b"inc")
STATEMENTS = (b"eq", b"ceq", b"cq", b"mb", b"cmb", b"rl", b"crl", b"sd", b"csd")
# The faults whose last field is the place of a token.
PLACED = "NotUtf8 OpenComment OpenString TokenTooLong Unended NotBuilt Unexpected Unsupported UnknownSort NumberTooLarge NoParse Ambiguous SuccessorTooLarge UnknownName"
SENTENCES = {
    "NotUtf8": "The text is not UTF-8 from here on.",
    "OpenComment": "This comment is not closed: each parenthesis in it wants its own `)`.",
    "OpenString": "This string is not closed: it wants a `\"` with no backslash before it.",
    "TokenTooLong": "This token has more than 1,024 bytes.",
    "Unended": "This item has no end: a module ends with `endfm` or `endm`, and a command with a full stop that stands alone, as in `a .`.",
    "NotBuilt": "`{0}` is understood, and is not answered yet.",
    "Unexpected": "An item can't go on with this token. Is a full stop missing before it, a word misspelt, or something left out?",
    "Unsupported": "`{0}` is a form of Maude that mrew does not have.",
    "UnknownModule": "No module of this name was accepted before.",
    "BadBound": "A bound is a numeral from 1 to 1,000,000,000,000.",
    "NothingToContinue": "There is no listing and no run of rules or of a strategy to go on with: none was begun, or the last one has ended.",
    "RewritingCondition": "The condition of the rule {0} has a fragment `t => u`, and terms are not rewritten in a module with such a rule.",
    "UnknownSort": "No sort of this name is declared in the module or in one that it imports.",
    "Cycle": "By the subsort declarations `{0}` is below itself.",
    "Arity": "`{0}` has more than 16 arguments, or its form has holes, but not one for each argument.",
    "KindMismatch": "`{0}` is declared twice over the same kinds of arguments, with results in two kinds.",
    "AttrConflict": "`{0}` has two values of one attribute, perhaps in two declarations, or one that does not suit its sorts.",
    "BadStrat": "The strategy of `{0}` does not suit: it names arguments from 1 on, each once at most, and ends with 0.",
    "IdNotConstant": "The identity of `{0}` is no constant in the kind of its result.",
    "TooManyTuples": "The declarations of `{0}` have {1} tuples of sorts to check, and 4,000,000 is the limit.",
    "NotPreregular": "With arguments of the sorts `{1}` no least sort of `{0}` is declared: two declarations apply, and neither result is below the other.",
    "NotAssociativeSorts": "`{0}` is associative, and with the sorts `{1}` its sort depends on where the parentheses stand.",
    "IdentityLowersSort": "`{0}` with its identity and an argument of the sort `{1}` has a lower sort than `{1}`.",
    "ImportTooDeep": "Imports go more than 32 modules deep.",
    "TooLarge": "The module has too many {0}, with all that it includes.",
    "TooManyTokens": "A term here has {0} tokens, and 1,000 is the limit.",
    "NumberTooLarge": "This numeral is 2^128 or more.",
    "NoParse": "No term of the module begins here, or none of the kind that is wanted. Is a name not declared, a sort of another kind, a parenthesis missing?",
    "Ambiguous": "What begins here can be read as two different terms. Try parentheses, or `(t).S` for the term t in the kind of the sort S; or give the operator `gather`, `prec` or `assoc`.",
    "SuccessorTooLarge": "The successor of the greatest numeral stands here.",
    "LhsVariable": "The left side of this equation is a variable once its normal form is taken.",
    "MembershipHead": "The left side of a membership must not be a variable or a numeral, nor have an operator with `assoc` or `id:`, or the successor, at its top.",
    "UnboundVariable": "A variable stands here that nothing before it binds.",
    "UnknownName": "No rule with this label and no strategy with this name is in the module or in one that it imports.",
    "LimitExceeded": "There are too many {1} here: the limits are 64 variables and 32 fragments.",
}


def run(text, stderr=None):
    """The exit status, the transcript, and what was said on standard error, where that is a pipe."""
    ran = subprocess.run([f"{ROOT}/bin/mrew", "run"], input=text, stdout=subprocess.PIPE, stderr=stderr)
    return ran.returncode, ran.stdout, ran.stderr


def tokens(text):
    """The tokens with their places, up to the end or a fault, and whether there was none."""
    found, at = [], 0
    while at < len(text):
        piece = PIECE.match(text, at)
        if piece["fault"]:
            return found, False
        if piece["token"] or piece["string"]:
            found.append((piece[0], at))
        at = piece.end()
        depth = 1 if piece["open"] else 0
        while depth and at < len(text):
            depth += {b"(": 1, b")": -1}.get(text[at:at + 1], 0)
            at += 1
        if depth:
            return found, False
    return found, True


def parted(rest):
    """Tokens, cut behind each full stop that stands outside the brackets since the cut before it."""
    cut, depth = [[]], 0
    for token in rest:
        cut[-1].append(token)
        if token[0] == b"." and depth == 0:
            cut.append([])
        elif token[0] in (b"(", b"[", b"{"):
            depth += 1
        elif token[0] in (b")", b"]", b"}"):
            depth = max(0, depth - 1)
    return [it for it in cut if it]


def items(rest):
    """The items, each as its tokens and whether it is whole. One that ends the text is the last."""
    found = []
    while rest:
        first = rest[0][0]
        if first in ENDING:
            return [*found, (rest[:1], True)]
        if first in MODULES:
            ends = [n for n, token in enumerate(rest) if token[0] == MODULES[first]]
            end = ends[0] + 1 if ends else len(rest)
            is_whole = bool(ends)
        else:
            item = parted(rest)[0]
            end, is_whole = len(item), item[-1][0] == b"."
            # A full stop inside brackets ends nothing.
            is_whole = is_whole and len(parted([*item, (b"x", 0)])) == 2
        found.append((rest[:end], is_whole))
        rest = rest[end:]
    return found


def elements(item):
    """The elements of a module."""
    return parted(item[3:-1])


def forms(element):
    """The forms that an element declares, each with its place."""
    words = [token for token, _ in element]
    colon = words.index(b":") if b":" in words else len(words)
    head = element[1:colon]
    text = lambda part: re.sub(rb"`([%s])" % SPECIAL, rb"\1", b"".join(token for token, _ in part))
    if words[0] == b"op" and head:
        return [(text(head), head[0][1])]
    found, inner = [], None
    for token in head if words[0] == b"ops" else []:
        if token[0] == b"(" and inner is None:
            inner = []
        elif token[0] == b")" and inner:
            found.append((text(inner), inner[0][1]))
            inner = None
        elif inner is None:
            found.append((text([token]), token[1]))
        else:
            inner.append(token)
    return found


def is_of_strategy(name, number, item):
    """Whether an Arity is that of a strategy, in a definition or in a command, which has its place; else it is that of an operator."""
    return name == "Arity" and bool(number or item and item[0][0] not in MODULES)


def place(name, fields, number, item):
    """The place in the text that a refusal of this item is about."""
    if name in PLACED.split() or is_of_strategy(name, number, item):
        return int(fields[-1])
    words, wanted = [token for token, _ in item], fields[0].encode() if fields else b""
    is_module = words[0] in MODULES
    if name == "UnknownModule":
        after = (*IMPORTS, b"in", b"select")
        return next((at for n, (token, at) in enumerate(item) if token == wanted and words[n - 1] in after), item[0][1])
    if name == "BadBound":
        return item[min(2 if words[1] == b"[" else 1, len(item) - 1)][1]
    if not is_module:
        return item[0][1]
    if name in ("LhsVariable", "MembershipHead", "UnboundVariable", "LimitExceeded") or number:
        number = number or int(fields[0])
        found = [it[0][1] for it in elements(item) if it[0][0] in STATEMENTS]
        return found[number - 1] if 0 < number <= len(found) else item[1][1]
    if name == "Cycle":
        found = [at for it in elements(item) if it[0][0] in (b"subsort", b"subsorts") for token, at in it if token == wanted]
    else:
        found = [at for it in elements(item) for form, at in forms(it) if form == wanted]
    return found[name == "KindMismatch" and len(found) > 1] if found else item[1][1]


def shown_line(text, at):
    """The line of the text that has this place, with its number, over a caret at the place."""
    begin, number = text.rfind(b"\n", 0, at) + 1, text.count(b"\n", 0, at) + 1
    end = text.find(b"\n", at)
    sides = (text[begin:at], text[at:len(text) if end < 0 else end].rstrip(b"\r"))
    before, behind = (re.sub(r"[\0-\x08\x0b-\x1f\x7f]", " ", it.decode(errors="replace")) for it in sides)
    if len(before) > 70:
        before = f"..{before[-60:]}"
    if len(behind) > 70:
        behind = f"{behind[:60]}.."
    head = f"    line {number}: "
    return [head + before + behind, " " * len(head) + re.sub(r"[^\t]", " ", before) + "^"]


def in_the_language(name):
    """What docs/LANGUAGE.md says of a fault that has no sentence here."""
    with open(f"{ROOT}/docs/LANGUAGE.md", encoding="utf-8") as it:
        found = re.search(r"(?m)^\| `(?:refused: |i )?%s\b[^|]*\| ([^|]*) \|$" % re.escape(name), it.read())
    return f"This stands where {found[1]}." if found else "docs/LANGUAGE.md says more."


def explained(text, line):
    """What a refusal line of the text's transcript is about: a line of the text with a caret, and a sentence."""
    said = re.match(r"(?:\[(\d+)\] )?refused: (?:(\d+) )?(\w+)(?: (.*))?$", line)
    kept, number, name = said[1], int(said[2] or 0), said[3]
    fields = (said[4] or "").split()
    if name in ("NotBuilt", "Unsupported"):
        fields = [" ".join(fields[:-1]), fields[-1]]
    cut = items(tokens(text)[0])
    item = cut[int(kept) - 1][0] if kept and int(kept) <= len(cut) else None
    at = place(name, fields, number, item) if item or name in PLACED.split() else 0
    if name in ("NotPreregular", "NotAssociativeSorts"):
        fields = [fields[0], " ".join(fields[1:])]
    sentence = SENTENCES[name].format(*fields) if name in SENTENCES else in_the_language(name)
    if name == "NotBuilt" and fields[0].startswith("dsrew"):
        sentence = "Its strategy, or one of the module's, isn't searched for yet, or a condition in the module rewrites. docs/LANGUAGE.md says which strategies these are."
    if is_of_strategy(name, number, item):
        sentence = "No strategy with this name is declared that takes so many arguments."
    if not number and name in ("LhsVariable", "MembershipHead") and fields[0] == "0":
        sentence += " It is one that the module includes, and is judged by the operators of this module."
    return [*shown_line(text, at), textwrap.fill(sentence, 100, initial_indent="    ", subsequent_indent="    ")]
