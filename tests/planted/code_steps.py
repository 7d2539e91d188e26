"""Planted bugs of the code that change what is done: writes, conditions, bounds, values, and the order of checks."""
import re

from body import INTEGERS, is_field, plain_of, type_of
from source import block_after


def writes(body):
    """A write left out: an assignment or a call that stands alone, also as all of an arm; and a jump."""
    for i in body.indexes():
        if body.text(i) == ";" and body.text(body.opened_before(i)) not in "([":
            begin = body.statement_start(i)
            kept = ("break", "continue") if body.text(begin - 2) == "else" else ()
            if begin < i and body.text(begin) not in ("let", "return", *kept):
                yield body.edit(begin, i + 1, "")
        elif body.text(i) == "=>" and body.text(i + 1) != "{":
            end = body.arm_end(i)
            if "=" in [body.text(k) for k in range(i, end)]:
                yield body.edit(i + 1, end, "{}")


def cases(body):
    """A condition that never or always holds."""
    for i in body.indexes():
        if body.text(i) in ("if", "while") and body.text(i + 1) != "let":
            block = block_after(body.source, i)
            yield body.edit(i + 1, block, "false")
            if body.text(i) == "if":
                yield body.edit(i + 1, block, "true")


def bounds(body):
    """A range that ends one earlier or begins one later, or a loop over nothing; numbers are changed as constants."""
    for i in body.indexes():
        if body.text(i) == "in" and body.in_pattern(i - 1):
            yield from over_nothing(body, i + 1, block_after(body.source, i))
        if body.text(i) != ".." or body.in_pattern(i) or body.tokens[i + 1].closes():
            continue
        begin, end = range_ends(body, i)
        if body.tokens[end - 1].kind != "number":
            last = body.words(i + 1, end)
            yield body.edit(i + 1, end, f"({last}).saturating_sub(1)" if " " in last else f"{last}.saturating_sub(1)")
        if body.tokens[begin].kind != "number":
            yield body.edit(begin, i, body.words(begin, i) + " + 1")


def over_nothing(body, first, last):
    """The loop over a list, or over its elements, goes over none of them."""
    elements = body.source.seek(first, last, "iter")
    if elements < last:
        yield body.edit(first, elements - 1, body.words(first, elements - 1) + "[0..0]")
    elif last - first == 1 and body.types.get(body.text(first), "").startswith("&["):
        yield body.edit(first, last, f"&{body.text(first)}[0..0]")


def range_ends(body, dots):
    """The first token of the range and the one after its last."""
    begin = dots
    while body.text(begin - 1) not in ("in", "[", "("):
        begin = body.source.previous(begin - 1) + 1
    return begin, body.source.seek(dots, body.last, "]", ")", "{")


def values(body):
    """Another value than the one that is returned or bound: the plainest of its type."""
    if body.function is None:
        return
    for first, last in [*returned(body), *tails(body, body.first, body.last)]:
        other = other_value(body.words(first, last), body.function.returns)
        if other and body.tokens[first].kind != "number":
            yield body.edit(first, last, other)
    yield from bound_values(body)


def returned(body):
    for i in body.indexes():
        if body.text(i) == "return":
            yield i + 1, body.source.seek(i, body.last, ";", ",")


def tails(body, first, last):
    """The ranges of the last values of a block, in each branch and arm where it ends with such."""
    begin = tail_start(body, first, last)
    if begin == last or body.text(begin) in ("for", "while", "loop", "return"):
        return
    if body.text(begin) not in ("if", "match", "{"):
        yield begin, last
        return
    block = begin if body.text(begin) == "{" else block_after(body.source, begin)
    while block < last:
        end = body.source.partner[block]
        yield from arm_tails(body, block + 1, end) if body.text(begin) == "match" else tails(body, block + 1, end)
        block = body.source.seek(end + 1, last, "{")


def tail_start(body, first, last):
    """Where the value begins with which the block ends: after its last statement."""
    begin, i = first, first
    while i < last:
        if body.text(i) in ("if", "match", "for", "while", "loop") and i == begin:
            i = end_of_block(body, i, last)
            begin = begin if i == last else i
        else:
            begin = i + 1 if body.text(i) == ";" else begin
            i = body.source.next(i)
    return begin


def end_of_block(body, i, last):
    """The token after the `if` with its branches, the `match` or the loop that begins there."""
    end = body.source.partner[block_after(body.source, i)] + 1
    while end < last and body.text(end) == "else":
        end = body.source.partner[block_after(body.source, end)] + 1
    return end


def arm_tails(body, first, last):
    i = body.source.seek(first, last, "=>")
    while i < last:
        end = body.arm_end(i)
        if body.text(i + 1) == "{":
            yield from tails(body, i + 2, body.source.partner[i + 1])
        else:
            yield i + 1, end
        i = body.source.seek(end, last, "=>")


def other_value(value, of_type):
    """Another value of the type, or nothing where none is plain."""
    plain = plain_value(of_type)
    if plain and plain != value:
        return plain
    held = re.fullmatch(r"(Option|Result)<(.*?)(, Refusal)?>", of_type)
    if value == "None" and held and plain_value(held[2]):
        return f"Some({plain_value(held[2])})"
    can_refuse = held and held[3] and re.fullmatch(r"Ok\(\(\)\)|Err\(\w+\)", value)
    return "Err(Refusal::Unknown)" if can_refuse else ""


def plain_value(of_type):
    array = re.fullmatch(r"\[(\w+); (\w+)\]", of_type)
    if array and plain_value(array[1]):
        return f"[{plain_value(array[1])}; {array[2]}]"
    parts = re.fullmatch(r"\((\w+), (\w+)\)", of_type)
    if parts and plain_value(parts[1]) and plain_value(parts[2]):
        return f"({plain_value(parts[1])}, {plain_value(parts[2])})"
    if of_type.startswith("Option<"):
        return "None"
    if re.fullmatch(r"Result<\(\), \w+>|io::Result<\(\)>", of_type):
        return "Ok(())"
    held = re.fullmatch(r"Result<(\w+), \w+>", of_type)
    if held and held[1] in (*INTEGERS, "bool"):
        return f"Ok({plain_value(held[1])})"
    return "0" if of_type in INTEGERS else "false" if of_type == "bool" else ""


def bound_values(body):
    """A plainer value, as 0, for what is bound to a name or given to a field."""
    for i in body.indexes():
        bound = body.text(i) == "=" and body.in_pattern(i - 1)
        given = body.text(i) == ":" and is_field(body, i - 1) and not body.in_pattern(i)
        if bound or given:
            end = body.source.seek(i, body.last, ";", ",", "}", "else", "{")
            plain = plain_of(body, type_of(body, i + 1, end))
            if plain and body.tokens[i + 1].kind == "word" and body.text(end) in (";", ",", "}"):
                yield body.edit(i + 1, end, plain)
        elif is_field(body, i) and body.text(i + 1) in (",", "}") and not body.in_pattern(i):
            plain = plain_of(body, type_of(body, i, i + 1))
            if plain:
                yield body.edit(i, i + 1, f"{body.text(i)}: {plain}")


def checks(body):
    """Two neighbouring checks turned; two that ask the same function exclude each other, and stay."""
    for i in body.indexes():
        one = check_at(body, i)
        two = one and check_at(body, one[1])
        if not two or asked(body, i) == asked(body, one[1]) or one[2] == two[2]:
            continue
        between = body.source.text[body.tokens[one[1] - 1].end : body.tokens[two[0]].start]
        yield body.edit(i, two[1], body.words(two[0], two[1]) + between + body.words(one[0], one[1]))


def check_at(body, i):
    """The `if` that does nothing but return: its range of tokens, and what it returns."""
    if i + 2 >= body.last or body.text(i) != "if" or body.text(i + 1) == "let" or body.text(i - 1) == "else":
        return None
    block = block_after(body.source, i)
    end = body.source.partner[block] + 1
    if body.text(block + 1) != "return" or body.text(end) == "else":
        return None
    return i, end, body.words(block + 1, end - 1)


def asked(body, i):
    """The function that the condition asks; a condition that asks none is its own."""
    return body.text(i + 1) if body.text(i + 2) == "(" else i


def arms(body):
    """An arm that gives what the next gives, where both bind the same."""
    for one in body.indexes():
        if body.text(one) != "=>" or body.text(one + 1) == "{":
            continue
        end = body.arm_end(one)
        two = body.source.seek(end + 1, body.last, "=>", "}", ";")
        if two < body.last and body.text(two) == "=>" and bound_by(body, one) == bound_by(body, two):
            yield body.edit(one + 1, end, body.words(two + 1, body.arm_end(two)))


def bound_by(body, arrow):
    """The names that the arm's pattern binds."""
    i, names = arrow - 1, set()
    while body.in_pattern(i):
        if body.tokens[i].kind == "word" and body.text(i)[0].islower():
            names.add(body.text(i))
        i -= 1
    return names
