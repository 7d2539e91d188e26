"""Reads a .antt file: its definitions, and the tokens of each of their parts."""
import re
from dataclasses import dataclass, field

HEAD = re.compile(r" *(?P<abbrev>abbrev )?(?:pub )?(?P<shape>record |data |module )?(?P<name>[^\s:]+)(?P<rest>.*)")
TOKEN = re.compile(r'"[^"]*"|[(){};,]|[^\s(){};,"]+')
COMMENT = re.compile(r"(?:^|(?<=\s))--.*", re.M)
NAME = r"[^\W\d]\w*′?"


@dataclass(frozen=True)
class Token:
    text: str
    start: int
    end: int


@dataclass
class Part:
    """An equation's right side, or what a field or constructor is: the text from `start` up to `end`."""

    label: str
    start: int
    end: int
    variables: dict = field(default_factory=dict)


@dataclass
class Definition:
    """An abbreviation, a record or a data type. `proposition`: it is one, or makes one of its arguments."""

    name: str
    shape: str
    line: int
    signature: str
    parts: list = field(default_factory=list)

    @property
    def proposition(self):
        return self.shape != "abbrev" or self.signature.split("→")[-1].strip() == "Type 0"


@dataclass
class Line:
    text: str
    start: int
    number: int
    indent: int


def without_comments(text):
    """The text with blanks in the place of comments."""
    return COMMENT.sub(lambda m: " " * len(m[0]), text)


def lines_of(text):
    """The lines of a file that are not empty, without comments."""
    found, at = [], 0
    for number, line in enumerate(without_comments(text).split("\n"), 1):
        if line.strip():
            found.append(Line(line, at, number, len(line) - len(line.lstrip())))
        at += len(line) + 1
    return found


def words_of(text):
    """The words of a text, but for those of imports."""
    return set(TOKEN.findall(re.sub(r"^use .*", "", without_comments(text), flags=re.M)))


def definitions(text):
    """The definitions of a file. What is declared without `abbrev` is a proof, and left out."""
    lines, found, i, outer = lines_of(text), [], 0, {}
    while i < len(lines):
        head = HEAD.match(lines[i].text)
        end = block_end(lines, i)
        if head["shape"] == "module ":
            outer = typed_names(head["rest"])
            i += 1
            continue
        outer = outer if lines[i].indent else {}
        if head["abbrev"]:
            found.append(abbreviation(text, lines, i, head["name"], outer))
        elif head["shape"]:
            found.append(shaped(lines, i, end, head, outer))
        i = end
    return found


def block_end(lines, i):
    """The next line that is not deeper than this one."""
    end = i + 1
    while end < len(lines) and lines[end].indent > lines[i].indent:
        end += 1
    return end


def span(lines, i):
    """Where the text of the line and of its continuation ends."""
    last = lines[block_end(lines, i) - 1]
    return last.start + len(last.text.rstrip())


def abbreviation(text, lines, i, name, outer):
    """The equations stand after the signature, at the same depth."""
    signature = text[lines[i].start : span(lines, i)].split(" : ", 1)[1]
    found = Definition(name, "abbrev", lines[i].number, " ".join(signature.split()))
    i = block_end(lines, i)
    while i < len(lines) and lines[i].text.split()[0] == name:
        left, equals, _ = lines[i].text.partition(" =")
        variables = {**outer, **bound_by(left.partition(name)[2], found.signature)}
        start = lines[i].start + len(left) + len(equals)
        found.parts.append(Part(" ".join(left.split()), start, span(lines, i), variables))
        i = block_end(lines, i)
    return found


def shaped(lines, i, end, head, outer):
    """A record with its fields, or a data type with its constructors."""
    found = Definition(head["name"], head["shape"].strip(), lines[i].number, "")
    variables = {**outer, **typed_names(head["rest"])}
    depth = lines[i + 1].indent if i + 1 < end else 0
    for k in range(i + 1, end):
        if lines[k].indent == depth:
            label, colon, _ = lines[k].text.partition(" : ")
            start = lines[k].start + len(label) + len(colon)
            found.parts.append(Part(label.split()[-1], start, span(lines, k), variables))
    return found


def typed_names(text):
    """The names that groups as (a b : T) declare, each with its type."""
    found = {}
    for names, of_type in re.findall(r"\(([^():]+) : ([^()]*(?:\([^()]*\)[^()]*)*)\)", text):
        found.update({name: of_type for name in names.split()})
    return found


def bound_by(patterns, signature):
    """The names that the left side of an equation binds, with the types that the signature gives the plain ones."""
    types = [t.strip() for t in split_arrows(signature)]
    explicit = zip([p for p in top_level(patterns) if p != "{"], [t for t in types if t[0] != "{"])
    plain = {p: t for p, t in explicit if re.fullmatch(NAME, p)}
    inner = re.findall(rf"(?<=\s){NAME}(?=[\s)])", patterns)
    return {**dict.fromkeys(inner, ""), **plain}


def top_level(text):
    """The words and bracketed groups of a text."""
    found, depth = [], 0
    for token in re.findall(r"[({]|[)}]|[^\s(){}]+", text):
        if depth == 0:
            found.append(token)
        depth += (token in "({") - (token in ")}")
    return found


def split_arrows(text):
    """The parts of a type between its outermost arrows."""
    found, depth, begin = [], 0, 0
    for i, letter in enumerate(text):
        depth += (letter in "({") - (letter in ")}")
        if letter == "→" and depth == 0:
            found.append(text[begin:i])
            begin = i + 1
    return [*found, text[begin:]]


class Tokens:
    """The tokens of a part, with the brackets' other halves and how deep each stands."""

    def __init__(self, text, part):
        self.text = text
        code = without_comments(text[part.start : part.end])
        self.all = [Token(m.group(), part.start + m.start(), part.start + m.end()) for m in TOKEN.finditer(code)]
        self.partner, self.depth, opened = {}, [], []
        for i, token in enumerate(self.all):
            if token.text in ")}":
                self.partner[i] = opened.pop()
                self.partner[self.partner[i]] = i
            self.depth.append(len(opened))
            if token.text in "({":
                opened.append(i)

    def words(self, first, last):
        return self.text[self.all[first].start : self.all[last - 1].end]

    def group(self, i):
        """The range of tokens of the innermost brackets around the token, or all."""
        first = i
        while first > 0 and not (self.all[first - 1].text in "({" and self.depth[first - 1] < self.depth[i]):
            first -= 1
        last = i
        while last < len(self.all) and self.depth[last] >= self.depth[i]:
            last += 1
        return first, last

    def binds(self, i):
        """Whether the bracket opens a group that declares names, as (x : T)."""
        end = self.partner.get(i, i)
        return any(self.all[k].text == ":" and self.depth[k] == self.depth[i] + 1 for k in range(i, end))

    def atom_end(self, i):
        """The token after the word or group that begins there, with the parts taken of it, as x .from."""
        end = self.partner.get(i, i) + 1
        while end < len(self.all) and self.all[end].text[0] == "." and len(self.all[end].text) > 1:
            end += 1
        return end
