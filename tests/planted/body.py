"""A function's or a constant's code, and what its names are."""
import re

from edits import Edit
from source import names_fields

INTEGERS = ("u8", "u16", "u32", "u64", "usize")


class Names:
    """What all crates declare: functions, methods with a dot before the name, variants of enums, fields of records."""

    def __init__(self, sources):
        self.calls, self.returns, self.enums, self.records = {}, {}, {}, {}
        for source in sources:
            for function in source.signatures:
                types = [typed(source, p)[1] for p in function.params]
                name = function.name if all(types) else "." + function.name
                self.calls.setdefault(name, []).append([t for t in types if t])
                self.returns.setdefault(name, set()).add(function.returns)
            for name, parts in declared(source, "enum"):
                self.enums[name] = {source.tokens[a].text: source.words(a + 1, b) for a, b in parts}
            for name, parts in declared(source, "struct"):
                self.records[name] = dict(typed(source, p) for p in parts)

    def type_at(self, name, number):
        """The type of that argument of a function or variant, where all of the name agree on it."""
        types = {tuple(t[number : number + 1]) for t in self.calls.get(name) or self.held(name)}
        return "".join(types.pop()) if len(types) == 1 else ""

    def held(self, name):
        """What the variants of that name hold."""
        found = [holds[name] for holds in self.enums.values() if name in holds]
        return [holds[1:-1].split(", ") for holds in found if holds[:1] == "("]

    def given_by(self, name):
        """The type of what a function gives, where all of the name agree on it."""
        types = self.returns.get(name, ())
        return next(iter(types)) if len(types) == 1 else ""


def typed(source, part):
    """The name and the type of a parameter or field."""
    name, _, of_type = source.words(*part).partition(":")
    return name.split()[-1], of_type.strip()


def declared(source, keyword):
    """What is declared with that keyword: each name, and the ranges of its parts."""
    tokens = source.tokens
    for i, token in enumerate(tokens):
        if token.text == keyword and tokens[i + 1].kind == "word":
            opened = source.seek(i, len(tokens), "{", ";")
            yield tokens[i + 1].text, source.split(opened + 1, source.partner.get(opened, opened))


class Body:
    """The tokens from `first` up to `last`; `place` is the name of the function or constant."""

    def __init__(self, source, names, place, first, last, function=None):
        self.source, self.names, self.place, self.function = source, names, place, function
        self.first, self.last, self.tokens = first, last, source.tokens
        self.types = dict(typed(source, p) for p in function.params) if function else {}

    def indexes(self):
        return range(self.first, self.last)

    def text(self, i):
        return self.tokens[i].text

    def words(self, first, last):
        return self.source.words(first, last)

    def edit(self, first, last, new):
        """The tokens from `first` up to `last` become `new`."""
        return Edit(self.tokens[first].start, self.tokens[last - 1].end, new)

    def in_pattern(self, i):
        return i in self.source.patterns

    def opened_before(self, i):
        """The bracket that opens last around the token, or the one before the body."""
        i -= 1
        while i >= self.first and not self.tokens[i].opens():
            i = self.source.previous(i)
        return i

    def statement_start(self, end):
        """The first token of the statement or value that ends before the token."""
        i = end - 1
        while i >= self.first and self.text(i) not in (";", "{", "=>"):
            if self.text(i) == "}" and not names_fields(self.source, self.source.partner[i]):
                break
            i = self.source.previous(i)
        return i + 1

    def arm_end(self, arrow):
        """The comma or the brace that ends the arm."""
        block = arrow + 1
        if self.text(block) == "{":
            return self.source.partner[block] + (self.text(self.source.partner[block] + 1) == ",")
        return self.source.seek(block, self.last, ",", "}")


def can_stand(body, i, other):
    """Whether the other name can stand at the token, as far as the text tells."""
    if body.text(i + 1) in ("(", "::"):
        dot = "." if body.text(i - 1) == "." else ""
        return body.names.calls.get(dot + body.text(i)) == body.names.calls.get(dot + other, ())
    if body.text(i - 1) == ".":
        return is_part(body, i, other)
    if body.function is None or body.text(i - 1) == "::":
        return False
    if other[0].isupper():
        return other in body.source.text
    if body.text(i) in body.types and other in body.types:
        return body.types[body.text(i)] == body.types[other]
    return other in body.types or is_bound(body, i, other)


def is_part(body, i, other):
    """Whether what has this field has the other too, of the same type."""
    return any(body.text(i) in r and r.get(other) == r[body.text(i)] for r in holders(body, i))


def holders(body, i):
    """The records that may have the field at the token: the type of what stands before it tells, or its name."""
    before = body.text(i - 2)
    declared_type = re.sub(r"^&(?:mut )?|<.*", "", body.types.get(before, ""))
    owner = body.function.owner if body.function and before == "self" else ""
    record = body.names.records.get(declared_type or owner or before.capitalize())
    return [record] if record else body.names.records.values()


def type_of(body, first, last):
    """The type of a name, a path or a call, where the declarations tell it."""
    if body.text(last - 2) == "as":
        return body.text(last - 1)
    if any(body.tokens[k].kind == "mark" and body.text(k) not in (".", "::", "(", ")") for k in range(first, last)):
        return ""
    if last - first == 1:
        return "" if is_bound(body, first, body.text(first)) else body.types.get(body.text(first), "")
    if body.text(last - 1) == ")":
        return body.names.given_by(called(body, body.source.partner[last - 1]))
    types = {r[body.text(last - 1)] for r in holders(body, last - 1) if body.text(last - 1) in r}
    return types.pop() if len(types) == 1 and body.text(last - 2) == "." else ""


def plain_of(body, of_type):
    """The plainest value of a number, a truth or an enum."""
    if of_type in INTEGERS:
        return "0"
    first = next((name for name, holds in body.names.enums.get(of_type, {}).items() if not holds), "")
    known = f"::{of_type};" in body.source.text or f"enum {of_type} " in body.source.text
    return f"{of_type}::{first}" if first and known else "false" if of_type == "bool" else ""


def is_bound(body, i, other):
    """Whether the name is bound before the token, in a block or arm that the token is in."""
    for k in range(body.first, i):
        if body.text(k) != other or not body.in_pattern(k):
            continue
        begin, end = scope_of(body, k)
        if begin < i < end:
            return True
    return False


def scope_of(body, k):
    """From where up to where a name that a pattern binds at the token is known."""
    end = k
    while body.in_pattern(end):
        end += 1
    if body.text(end) == "=>":
        return end, body.arm_end(end)
    begin = body.source.seek(end, body.last, ";", "{")
    closed = k
    while closed < body.last and body.text(closed) != "}":
        closed = body.source.next(closed)
    return begin, closed


def is_field(body, i):
    """Whether a field of a record is named here, in a record literal."""
    opened = body.opened_before(i)
    return body.text(opened) == "{" and names_fields(body.source, opened) and body.text(i - 1) in ("{", ",")


def called(body, i):
    """The name of what is called with the arguments at the bracket, a dot before a method's; nothing for a tuple."""
    if body.text(i - 1) == ">":
        while body.text(i) != "<":
            i -= 1
        i -= 1
    name = body.tokens[i - 1]
    if name.kind != "word" or name.end != body.tokens[i].start:
        return ""
    return "." + name.text if body.text(i - 2) == "." else name.text
