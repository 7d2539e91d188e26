"""Reads a .rt source: its tokens, its functions and constants, and which tokens stand in patterns."""
import re
from dataclasses import dataclass, field

TOKEN = re.compile(
    r"""(?P<comment>//[^\n]*)
      | (?P<bytes>b"(?:\\.|[^"\\])*"|b'(?:\\.|[^'\\])')
      | (?P<text>"(?:\\.|[^"\\])*")
      | (?P<lifetime>'[a-z_]\w*(?!'))
      | (?P<number>\d\w*)
      | (?P<word>[A-Za-z_]\w*)
      | (?P<mark>\.\.|=>|->|::|&&|\|\||[-+*/]=|<=|>=|==|!=|\S)""",
    re.X | re.S,
)
TEST_MODULE = ["#", "[", "cfg", "(", "test", ")", "]", "mod"]


@dataclass(frozen=True)
class Token:
    kind: str
    text: str
    start: int
    end: int

    def opens(self):
        return self.kind == "mark" and self.text in "([{"

    def closes(self):
        return self.kind == "mark" and self.text in ")]}"


@dataclass
class Function:
    """A function. Its body is between the tokens `first` and `last`, its braces; `owner` is the type of `self`."""

    name: str
    owner: str
    params: list
    returns: str
    contracted: bool
    first: int
    last: int


@dataclass
class Source:
    text: str
    tokens: list
    partner: dict
    functions: list = field(default_factory=list)
    constants: list = field(default_factory=list)
    signatures: list = field(default_factory=list)
    patterns: set = field(default_factory=set)

    def words(self, first, last):
        """The text of the tokens from `first` up to `last`."""
        return self.text[self.tokens[first].start : self.tokens[last - 1].end] if first < last else ""

    def line_of(self, at):
        return self.text.count("\n", 0, at) + 1

    def spaced(self, i):
        """Whether blanks stand on both sides: so an operator of two operands is told from a sign or a bracket."""
        token = self.tokens[i]
        return self.text[token.start - 1].isspace() and self.text[token.end].isspace()

    def next(self, i):
        """The token after this one, or after the bracket that it opens."""
        return self.partner[i] + 1 if self.tokens[i].opens() else i + 1

    def previous(self, i):
        return self.partner[i] - 1 if self.tokens[i].closes() else i - 1

    def seek(self, i, end, *texts):
        """The first token with one of the texts from `i` on, outside of brackets that open there; else `end`."""
        while i < end and self.tokens[i].text not in texts:
            i = self.next(i)
        return min(i, end)

    def split(self, first, last):
        """The ranges of tokens between the commas from `first` up to `last`."""
        parts, i = [], first
        while i < last:
            comma = self.seek(i, last, ",")
            if comma > i:
                parts.append((i, comma))
            i = comma + 1
        return parts


def read_source(text):
    found = (Token(m.lastgroup, m.group(), m.start(), m.end()) for m in TOKEN.finditer(text))
    tokens = [t for t in found if t.kind != "comment"]
    source = Source(text, tokens, partners(tokens))
    i = 0
    while i < len(tokens):
        i = read_item(source, i)
    for function in source.functions:
        source.patterns |= patterns_in(source, function.first + 1, function.last)
    return source


def partners(tokens):
    """Each bracket's other half, both ways."""
    partner, opened = {}, []
    for i, token in enumerate(tokens):
        if token.opens():
            opened.append(i)
        elif token.closes():
            partner[i] = opened.pop()
            partner[partner[i]] = i
    return partner


def read_item(source, i):
    """Notes the function or constant that begins at the token, if one does; gives the token to go on from."""
    tokens = source.tokens
    texts = [t.text for t in tokens[i : i + 8]]
    if texts == TEST_MODULE:
        return source.partner[i + 9] + 1
    if texts[0] == "fn" and tokens[i + 1].kind == "word":
        return read_function(source, i)
    if texts[0] in ("const", "static") and texts[1] != "fn" and texts[2] == ":":
        end = source.seek(i, len(tokens), ";")
        source.constants.append((texts[1], source.seek(i, end, "=") + 1, end))
        return end
    return i + 1


def read_function(source, i):
    tokens = source.tokens
    opened = source.seek(i, len(tokens), "(")
    params = source.split(opened + 1, source.partner[opened])
    arrow = source.partner[opened] + 1
    after_type = source.seek(arrow, len(tokens), "requires", "ensures", "{", ";")
    body = after_clauses(source, after_type)
    returns = source.words(arrow + 1, after_type)
    name, owner = tokens[i + 1].text, owner_of(source, i)
    function = Function(name, owner, params, returns, body > after_type, body, source.partner.get(body, body))
    source.signatures.append(function)
    if function.last > body:
        source.functions.append(function)
    return function.last + 1


def after_clauses(source, i):
    """Where the contract ends that begins at the token."""
    while source.tokens[i].text in ("requires", "ensures"):
        i += 1 if source.tokens[i + 1].text == "{" else 2
        i = source.partner[i] + 1
    return i


def owner_of(source, i):
    """The type whose `impl` the token stands in, or nothing."""
    begin = i
    while begin >= 0 and source.tokens[begin].text != "{":
        begin = source.previous(begin)
    end = begin
    while begin >= 0 and source.tokens[begin].text not in ("impl", "trait", "}", ";"):
        begin -= 1
    head = re.sub(r"<[^{]*?>", " ", source.words(max(begin, 0), end)).split()
    if begin < 0 or head[:1] != ["impl"]:
        return ""
    return head[head.index("for") + 1] if "for" in head else head[1]


def patterns_in(source, first, last):
    """The tokens that bind or match: after `let` and `for`, and before `=>`."""
    found = set()
    for i in range(first, last):
        text = source.tokens[i].text
        if text == "let":
            found |= set(range(i + 1, source.seek(i, last, "=")))
        elif text == "for":
            found |= set(range(i + 1, source.seek(i, last, "in")))
        elif text == "=>":
            found |= set(range(arm_start(source, i), i))
    return found


def arm_start(source, arrow):
    """The first token of the arm whose `=>` this is."""
    i = arrow - 1
    while source.tokens[i].text not in (",", "{", ";"):
        opened = source.partner.get(i, i)
        if source.tokens[i].text == "}" and source.tokens[opened - 1].text == "=>":
            break
        i = source.previous(i)
    return i + 1


def names_fields(source, i):
    """Whether the brace opens the fields of a record and no block: a type's name stands before it."""
    before = source.tokens[i - 1]
    return before.kind == "word" and before.text[0].isupper() and not before.text.isupper()


def block_after(source, i):
    """The brace that opens the block of the `if`, `while` or `for` at the token."""
    while source.tokens[i].text != "{" or names_fields(source, i):
        i = source.next(i)
    return i
