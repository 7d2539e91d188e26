"""Planted bugs of the code that put one word for another: operators, numbers, names and arguments."""
import re

from body import called, can_stand, is_field, plain_of
from edits import Edit, changed_letter

COMPARISON = {"<": "<=", "<=": "<", ">": ">=", ">=": ">", "==": "!=", "!=": "=="}
LOGIC = {"&&": "||", "||": "&&", "&": "|"}
ARITHMETIC = {"+": "-", "-": "+", "*": "+", "/": "*", "+=": "-=", "-=": "+="}
METHODS = {
    "saturating_add": "saturating_sub",
    "saturating_sub": "saturating_add",
    "checked_add": "checked_sub",
    "wrapping_add": "wrapping_sub",
    "max": "min",
    "min": "max",
    "from_be_bytes": "from_le_bytes",
    "to_be_bytes": "to_le_bytes",
}
# What is easily taken for each other.
PAIRS = """first/second from/to n/m low/high out/into places/circuits bandwidth/cost feed/notice feeds/notices start/end
    a/b in_first/in_second done/held here/next size/other go_forth/go_back find_feed/find_notice
    strike_feed/strike_notice has_feed/has_notice feeds_full/notices_full MAX_PLACES/MAX_ARCS MOST_PLACES/MOST_CIRCUITS
    MOST_BANDWIDTH/MOST_COST first_length/second_length here/at count/total take/give_back write_routes/write_map
    number/circuit place/number rate/left number/places names/words line/word Total/Worst"""
MESSAGES = ("Part", "Fault", "Form")  # what a message for people speaks of
ROW = 8  # of a list of bytes, one to a line, each so many-th is changed


def comparisons(body):
    for i in body.indexes():
        other = COMPARISON.get(body.text(i))
        if other and body.source.spaced(i):
            yield body.edit(i, i + 1, other)


def logic(body):
    for i in body.indexes():
        text, before = body.text(i), body.tokens[i - 1]
        if text in LOGIC and body.source.spaced(i):
            yield body.edit(i, i + 1, LOGIC[text])
        elif text == "!" and (before.text == "(" or before.end < body.tokens[i].start):
            yield body.edit(i, i + 1, "")


def arithmetic(body):
    for i in body.indexes():
        text = body.text(i)
        if text in METHODS and body.text(i - 1) in (".", "::"):
            yield body.edit(i, i + 1, METHODS[text])
        if text in ARITHMETIC and body.source.spaced(i):
            yield body.edit(i, i + 1, ARITHMETIC[text])
            if text == "+" and body.tokens[i + 1].kind == "number":
                yield Edit(body.tokens[i - 1].end, body.tokens[i + 1].end, "")


def constants(body):
    for i in body.indexes():
        token = body.tokens[i]
        if token.kind == "number" and body.text(i - 1) != ".":
            yield from numbers(body, i)
        elif token.text in ("true", "false") and not body.in_pattern(i):
            yield body.edit(i, i + 1, "false" if token.text == "true" else "true")
        elif token.text == "MAX" and body.text(i - 1) == "::":
            yield body.edit(i, i + 1, "MAX - 1")
        elif token.kind == "bytes" or token.kind == "text" and decides(body, i):
            other = changed_letter(token.text)
            if other:
                yield body.edit(i, i + 1, other)


def decides(body, i):
    """Whether a text is more than a message: it is matched or compared, or a contract speaks of it."""
    told = body.function and body.function.contracted and body.text(i - 1) == "=>"
    return told or body.text(i + 1) == "=>" or "==" in (body.text(i - 1), body.text(i + 1))


def numbers(body, i):
    """The next number."""
    token = body.tokens[i]
    line = body.source.line_of(token.start)
    if body.source.text.splitlines()[line - 1].strip() == token.text + "," and line % ROW:
        return
    taken = {body.text(k) for k in body.indexes() if body.in_pattern(k)} if body.in_pattern(i) else ()
    step = next(k for k in range(1, 99) if number_plus(token.text, k) not in taken)
    yield body.edit(i, i + 1, number_plus(token.text, step))


def less(body):
    """A constant that is one less."""
    for i in body.indexes():
        alone = body.function is None and body.last - body.first == 1 and body.tokens[i].kind == "number"
        if alone and number_plus(body.text(i), -1)[0] != "-":
            yield body.edit(i, i + 1, number_plus(body.text(i), -1))


def number_plus(text, step):
    """The number so much further, written in the same way."""
    digits, suffix = re.fullmatch(r"(0x[0-9a-f_]+|[0-9_]+?)_?([iu]\w+)?", text).groups()
    value = int(digits.replace("_", ""), 0)
    if digits.startswith("0x"):
        return f"0x{value + step if value < 255 else value - step:02x}" + (suffix or "")
    return (f"{value + step:_}" if "_" in digits else str(value + step)) + (suffix or "")


def other_names():
    table = {}
    for pair in PAIRS.split():
        one, other = pair.split("/")
        table.setdefault(one, []).append(other)
        table.setdefault(other, []).append(one)
    return table


OTHER_NAMES = other_names()


def operands(body):
    """Another name, part, variant or index in the place of one; what only a message tells comes last."""
    told = [i for i in body.indexes() if body.text(i - 1) == "::" and body.text(i - 2) in MESSAGES]
    for i in [*(i for i in body.indexes() if i not in told), *told]:
        token = body.tokens[i]
        if body.in_pattern(i):
            continue
        if token.kind == "word":
            yield from other_variant(body, i)
            yield from other_name(body, i)
        elif token.text in ("0", "1") and body.text(i - 1) == ".":
            yield body.edit(i, i + 1, "10"[int(token.text)])
        elif token.text == "[" and is_index(body, i):
            yield body.edit(i, body.source.next(i), "[0]")


def is_index(body, i):
    before, inside = body.tokens[i - 1], body.tokens[i + 1 : body.source.partner[i]]
    after_value = before.end == body.tokens[i].start and (before.kind == "word" or before.text in ")]")
    return after_value and not any(t.text == ".." for t in inside) and [t.kind for t in inside] != ["number"]


def other_variant(body, i):
    """The next variant of the enum that holds the same, or one that holds nothing."""
    holds = body.names.enums.get(body.text(i - 2), {})
    if body.text(i - 1) != "::" or body.text(i) not in holds:
        return
    alike = [name for name in holds if holds[name] == holds[body.text(i)]]
    other = alike[(alike.index(body.text(i)) + 1) % len(alike)]
    empty = next((name for name in holds if not holds[name]), "")
    if other != body.text(i):
        yield body.edit(i, i + 1, other)
    elif holds[other] and empty and body.tokens[i + 1].opens():
        yield body.edit(i, body.source.next(i + 1), empty)


def other_name(body, i):
    text, after = body.text(i), body.text(i + 1)
    field = is_field(body, i)
    for other in OTHER_NAMES.get(text, ()):
        if not (field and after == ":") and can_stand(body, i, other):
            yield body.edit(i, i + 1, f"{text}: {other}" if field and after in ",}" else other)


def arguments(body):
    """Two neighbouring arguments of a call, or parts of a tuple, turned; and a plainer argument, as 0."""
    for i in body.indexes():
        if body.text(i) != "(" or body.text(i - 1) in ("!", ":", "<", "->"):
            continue
        name = called(body, i)
        parts = body.source.split(i + 1, body.source.partner[i])
        for k in range(len(parts) - 1):
            if same_type(body, name, k) if name else alike(body, parts, k):
                yield turned(body, parts[k], parts[k + 1])
        yield from plainer(body, name, parts)


def same_type(body, name, k):
    one = body.names.type_at(name, k)
    return one != "" and one == body.names.type_at(name, k + 1)


def alike(body, parts, k):
    """Whether nothing tells the types of two parts of a tuple apart."""
    one, other = body.words(*parts[k]), body.words(*parts[k + 1])
    if '"' in one + other or one[:1] == "&" or body.types.get(one) != body.types.get(other):
        return False
    types = tuple_types(body, parts[0][0])
    return len(types) != len(parts) or types[k] == types[k + 1]


def tuple_types(body, i):
    """The types of the parts of a tuple: by what is called where it is bound, and else by what the body returns."""
    end = body.source.seek(i, body.last, ";", "{") if body.in_pattern(i) else i
    words = [t.text for t in body.tokens[i:end]]
    if "enumerate" in words:
        return ["usize", "item"]
    given = [body.names.given_by(word) or body.names.given_by("." + word) for word in words]
    of_type = next(filter(None, given), "") or (body.function.returns if body.function else "")
    inner = re.search(r"\(([^()]+)\)", of_type)
    return inner[1].split(", ") if inner else []


def turned(body, one, other):
    (a, b), (c, d) = one, other
    between = body.source.text[body.tokens[b - 1].end : body.tokens[c].start]
    return body.edit(a, d, body.words(c, d) + between + body.words(a, b))


def plainer(body, name, parts):
    for k, (a, b) in enumerate(parts):
        plain = plain_of(body, body.names.type_at(name, k))
        if plain and body.tokens[a].kind != "number" and body.words(a, b) != plain and not body.in_pattern(a):
            yield body.edit(a, b, plain)


def named(body):
    """One less than a named constant, where it is an argument or an operand."""
    for i in body.indexes():
        token = body.tokens[i]
        is_name = token.kind == "word" and token.text.isupper() and len(token.text) > 1 and token.text != "MAX"
        if is_name and (body.text(i - 1) in "(,") and body.text(i + 1) in ("," , ")"):
            yield body.edit(i, i + 1, f"{token.text} - 1")
