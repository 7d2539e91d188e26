"""The ways in which a rule of a definition is turned."""
import re
from functools import partial

from definitions import Tokens
from edits import Edit, changed_letter

TURNED = {
    "bound": {"≤": "<", "<": "≤", "leb": "ltb", "ltb": "leb"},
    "logic": {"&&": "||", "||": "&&"},
    "truth": {"true": "false", "false": "true"},
    "arithmetic": {"+": "-", "-": "+", "*": "+", "/": "*", "min": "max", "max": "min", "take": "drop", "drop": "take"},
    "name": {
        "OnePlusOne": "OneToOne",
        "OneToOne": "OnePlusOne",
        "be16": "be32",
        "be32": "be16",
        "at16": "at32",
        "at32": "at16",
        "PL": "CT",
        "CT": "EN",
        "EN": "PL",
    },
}
PARTS = """from/to first/second bandwidth/cost feeds/notices number/circuit number/rate out/into next/first rank/via
    rank/order places/circuits 0/1"""
# Data and no rule: what has such a type says nothing.
DATA = ("ℕ", "List", "Bool", "Mode", "Circuit", "V", "Type", "Call", "Answer", "Plan", "Act", "Tell")
# How tightly the operators bind; what is none of them binds most.
TIGHT = 9
LEVEL = {**dict.fromkeys("=:;,", -1), "→": 0, "×": 1, "⊎": 1, "≡": 2, "≤": 2, "<": 2, "∷": 3, "++": 3}


def other_parts():
    table = {}
    for pair in PARTS.split():
        one, other = pair.split("/")
        table.setdefault("." + one, []).append("." + other)
        table.setdefault("." + other, []).append("." + one)
    return table


OTHER_PARTS = other_parts()


class Rule:
    """A part of a definition, with its tokens and the part after it; `library` knows the other definitions."""

    def __init__(self, text, definition, number, library):
        self.library, self.definition, self.part = library, definition, definition.parts[number]
        self.following = definition.parts[number + 1 : number + 2]
        self.text, self.tokens = text, Tokens(text, self.part)
        self.all = self.tokens.all

    def edit(self, first, last, new):
        return Edit(self.all[first].start, self.all[last - 1].end, new)

    def word(self, i):
        return self.all[i].text if 0 <= i < len(self.all) else ""

    def operands(self, i):
        """The ranges that the operator at the token and those like it beside it join."""
        first, last = self.tokens.group(i)
        beside = [k for k in range(first, last) if self.tokens.depth[k] == self.tokens.depth[i]]
        weaker = [k for k in beside if LEVEL.get(self.word(k), TIGHT) < LEVEL[self.word(i)]]
        first = max([k + 1 for k in weaker if k < i], default=first)
        last = min([k for k in weaker if k > i], default=last)
        cuts = [k for k in beside if first <= k < last and self.word(k) == self.word(i)]
        return list(zip([first, *[k + 1 for k in cuts]], [*cuts, last]))

    def pair(self, i):
        """The two ranges that the operator at the token joins, and how many those beside it join in all."""
        places = self.operands(i)
        at = next(k for k, place in enumerate(places) if place[1] == i)
        return places[at], places[at + 1], len(places)

    def binds(self, first, last):
        """Whether the range is one group that declares names."""
        return self.word(first) in "({" and self.tokens.partner[first] == last - 1 and self.tokens.binds(first)


def one_word(kind):
    """The edits that put one word for another."""

    def edits(rule):
        for i, token in enumerate(rule.all):
            other = TURNED[kind].get(token.text)
            if other:
                yield rule.edit(i, i + 1, other)

    return edits


def joins(rule):
    """Two rules of which both must hold, where one may, and the other way round."""
    for i in range(len(rule.all)):
        other = {"×": "⊎", "⊎": "×"}.get(rule.word(i))
        if not other or is_pair_type(rule, i):
            continue
        (first, _), (_, last), number = rule.pair(i)
        both = f"{rule.tokens.words(first, i)} {other} {rule.tokens.words(i + 1, last)}"
        yield rule.edit(first, last, f"({both})" if number > 2 else both)


def is_pair_type(rule, i):
    """Whether × joins types and no statements: after (x : T), or in a group that declares names."""
    first, _ = rule.tokens.group(i)
    before = rule.tokens.partner.get(i - 1, i - 1)
    return rule.word(i - 1) == ")" and rule.tokens.binds(before) or first > 0 and rule.tokens.binds(first - 1)


def numbers(rule, default=False):
    for i, token in enumerate(rule.all):
        if token.text.isdigit() and rule.word(i - 1) not in ("Type", "{") and is_default(rule, i) == default:
            yield rule.edit(i, i + 1, str(int(token.text) + 1))


def is_default(rule, i):
    """Whether the number is what getD gives past the end of a list, which few rules rest on."""
    for _ in range(2):
        i -= 1
        while rule.word(i)[:1] == "." and i > 0:
            i -= 1
        i = min(rule.tokens.partner.get(i, i), i)
    return rule.word(i - 1) == "getD"


def left_out(rule):
    """A conjunct that says nothing, and an alternative that never holds."""
    nothing = {"×": "Unit {0}", "⊎": "⊥"}
    for i in range(len(rule.all)):
        if rule.word(i) not in nothing or is_pair_type(rule, i):
            continue
        for first, last in rule.operands(i):
            if not rule.binds(first, last):
                yield rule.edit(first, last, nothing[rule.word(i)])


def whole(rule):
    """All of a rule left out: a field, or an equation of a proposition."""
    if rule.definition.shape == "data" or not rule.definition.proposition:
        return
    value = rule.tokens.words(0, len(rule.all))
    if rule.definition.shape == "record" and is_data(value):
        return
    yield Edit(rule.all[0].start, rule.part.end, "⊥" if value == "Unit {0}" else "Unit {0}")


def is_data(value):
    return re.split(r"[\s)]", value.split("→")[-1].strip().lstrip("("))[0] in DATA


def premises(rule):
    """A condition left out, and a denial made a claim."""
    for i in range(len(rule.all)):
        if rule.word(i) != "→":
            continue
        if rule.word(i + 1) == "⊥":
            yield Edit(rule.all[i - 1].end, rule.all[i + 1].end, "")
        first = rule.pair(i)[0][0]
        if not rule.tokens.binds(first) and rule.word(i + 1) != "⊥" and not is_data(rule.tokens.words(first, i)):
            yield Edit(rule.all[first].start, rule.all[i + 1].start, "")


def branches(rule):
    """The two values of a condition turned."""
    for i in range(len(rule.all)):
        if rule.word(i) != "cond":
            continue
        one = rule.tokens.atom_end(i + 1)
        two = rule.tokens.atom_end(one)
        end = rule.tokens.atom_end(two)
        yield rule.edit(one, end, rule.tokens.words(two, end) + " " + rule.tokens.words(one, two))


def parts(rule):
    """Another part of a record or pair, of the same type."""
    for i, token in enumerate(rule.all):
        record = rule.library.records.get(rule.part.variables.get(rule.word(i - 1)))
        holders = [record] if record else rule.library.records.values()
        for other in OTHER_PARTS.get(token.text, ()):
            if other in (".0", ".1") or any(token.text in r and r.get(other) == r[token.text] for r in holders):
                yield rule.edit(i, i + 1, other)


def lists(rule):
    """An element left out, or two neighbours turned."""
    for i in range(len(rule.all)):
        if rule.word(i) not in ("∷", "++"):
            continue
        one, other, _ = rule.pair(i)
        yield Edit(rule.all[one[0]].start, rule.all[other[0]].start, "")
        if rule.word(i) == "++" or rule.word(other[1]) == "∷":
            between = rule.text[rule.all[one[1] - 1].end : rule.all[other[0]].start]
            yield rule.edit(one[0], other[1], rule.tokens.words(*other) + between + rule.tokens.words(*one))


def texts(rule):
    for i, token in enumerate(rule.all):
        if token.text[0] == '"':
            yield rule.edit(i, i + 1, changed_letter(token.text))


def variables(rule):
    """Another variable of the same type; else 0 for a number, and nothing for a list."""
    types = rule.part.variables
    for i, token in enumerate(rule.all):
        if token.text not in types or rule.word(i + 1) == "=" or rule.word(i - 1) == "λ":
            continue
        others = [name for name in types if types[name] and types[name] == types[token.text] and name != token.text]
        other = others[0] if others else plain_of(types[token.text])
        if other and (others or rule.word(i + 1)[:1] != "."):
            yield rule.edit(i, i + 1, other)


def plain_of(of_type):
    """The plainest value of a type; what a pattern binds has no known type, and may be a number."""
    return "0" if of_type in ("ℕ", "") else "[]" if of_type.startswith("List") and "→" not in of_type else ""


def values(rule):
    """A number or list that a definition gives, as 0 or as nothing: all of a group or of a field."""
    known = {"length": "ℕ", "map": "List", **rule.library.results}
    for i, token in enumerate(rule.all):
        begins = rule.word(i - 1) == "(" or rule.word(i - 1) == "=" and rule.tokens.depth[i] > 0
        plain = plain_of(known.get(token.text, "?"))
        if begins and plain:
            last = i
            while last < len(rule.all) and rule.word(last) not in ")}" and rule.word(last) not in LEVEL:
                last = rule.tokens.partner.get(last, last) + 1
            yield rule.edit(i, last, plain)


def equations(rule):
    """What the next equation says, where it uses no variable that this one does not bind."""
    if rule.definition.shape != "abbrev":
        return
    for after in rule.following:
        value = rule.text[after.start : after.end].strip()
        words = [set(re.findall(r"[^\s(){};,]+", text)) for text in (value, after.label, rule.part.label)]
        if not words[0] & words[1] - words[2]:
            yield Edit(rule.all[0].start, rule.part.end, value)


KINDS = {
    "bound": one_word("bound"),
    "join": joins,
    "number": numbers,
    "premise": premises,
    "left-out": left_out,
    "part": parts,
    "branches": branches,
    "list": lists,
    **{kind: one_word(kind) for kind in ("logic", "truth", "arithmetic", "name")},
    "text": texts,
    "value": values,
    "default": partial(numbers, default=True),
    "equation": equations,
    "variable": variables,
    "whole": whole,
}
