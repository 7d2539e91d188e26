"""Planted bugs of the code: all edits of a source, by kind, and which of them are kept."""
from body import Body
from code_steps import arms, bounds, cases, checks, values, writes
from code_words import arguments, arithmetic, comparisons, constants, less, logic, named, operands
from edits import Edit, grouped, spread
from source import read_source

# These come first, in this order; a line has each once, but for the first two.
LEADING = {
    "comparison": comparisons,
    "logic": logic,
    "constant": constants,
    "less": less,
    "arithmetic": arithmetic,
    "write": writes,
    "checks": checks,
}
REPEATED = ("comparison", "logic")
# Where a line has none of those, or is only left out, it has one of these.
FILLING = {
    "operand": operands,
    "case": cases,
    "arguments": arguments,
    "bounds": bounds,
    "value": values,
    "named": named,
    "arms": arms,
}


def bodies(source, names):
    for function in source.functions:
        place = f"{function.owner}.{function.name}" if function.owner else function.name
        yield Body(source, names, place, function.first + 1, function.last, function)
    for name, first, last in source.constants:
        yield Body(source, names, name, first, last)


def code_edits(text, names):
    """All edits of a source, in the order of its lines and of the kinds."""
    found = []
    for body in bodies(read_source(text), names):
        for kind, edits in {**LEADING, **FILLING}.items():
            found += [Edit(e.start, e.end, e.new, kind, body.place) for e in edits(body)]
    return sorted(found, key=lambda e: text.count("\n", 0, e.start))


def kept_code(entries, cap):
    """At most `cap` for each line."""
    kept = []
    for group in grouped(entries, lambda e: e[0]):
        leading = [e for e in group if e[2].kind in LEADING and (e[1] == 1 or e[2].kind in REPEATED)]
        chosen = spread(leading, cap, lambda e: e[2].kind)
        if all(e[2].kind == "write" for e in chosen):
            chosen = (chosen + filling([e for e in group if e[2].kind in FILLING]))[:cap]
        kept += chosen
    return sorted(kept, key=entries.index)


def filling(group):
    """One of the edits, if any. The text of the first decides the kind: so all come up, and no line moves another's."""
    kinds = list(dict.fromkeys(e[2].kind for e in group))
    kind = kinds[sum(map(ord, group[0][2].place + group[0][2].new)) % len(kinds)] if kinds else ""
    return [e for e in group if e[2].kind == kind][:1]
