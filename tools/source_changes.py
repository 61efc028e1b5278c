"""Small changes that make a Rattle source wrong in one place: a number, a comparison, a sum, a branch, a field, an operand."""
import re
from typing import NamedTuple

NUMBER = re.compile(r"(?<![\w.])(?:0x[0-9A-Fa-f]+|\d+)\b")
TRUTH = re.compile(r"\b(?:true|false)\b")
COMPARISON = re.compile(r"(?<= )(?:==|!=|<=|>=|<|>)(?= )")
ORDERED = re.compile(r"([\w.:]+) (<=|>=|<|>) ([\w.:]+)")
SUM = re.compile(r"(?<= )[-+*/%](?= )")
CONDITION = re.compile(r"\bif ([^{}]+?) \{")
RETURNED = re.compile(r"\breturn ([^;{}]+);|^ *([^;{}\n]+)\n *\}\Z", re.MULTILINE)
ARM = re.compile(r"^( *)(\S.*?) => ([^{}\n]+),$", re.MULTILINE)
FIELD = re.compile(r"(?<=\w\.)[a-z]\w*\b(?!\()")
PATH = re.compile(r"\b([A-Z]\w*)::([A-Z]\w*)")
NAME = re.compile(r"(?<![\w.:])[a-z]\w*\b(?!\s*(?:\(|::|:[^:]))")
CONSTANT = re.compile(r"(?<![\w.:])[A-Z][A-Z0-9_]+\b")

COMMENT = re.compile(r"//.*")
CONTRACT = re.compile(r"\b(?:requires|ensures)\b\*?(?: \w+)? (?=\{)")
FUNCTION = re.compile(r"\bfn (\w+)")
FIXED = re.compile(r"\bconst (\w+): ([^=]+) = ([^;]+);")
PARAMETER = re.compile(r"\b(\w+): ")
LOCAL = re.compile(r"\blet (?:mut )?(\w+)")
TYPE = re.compile(r"\b(struct|enum) (\w+) \{")
IMPL = re.compile(r"\bimpl (\w+) \{")

OTHER_COMPARISONS = {"==": ["!="], "!=": ["=="], "<": ["<="], "<=": ["<"], ">": [">="], ">=": [">"]}
OTHER_SUMS = {"+": ["-"], "-": ["+"], "*": ["+"], "/": ["%"], "%": ["/"]}


class Change(NamedTuple):
    """Bytes start..end of a file become 'new'; 'unit' is the function or the constant that this is in."""
    path: str
    unit: str
    kind: str
    start: int
    end: int
    new: str

    def place(self):
        return self.path, self.start, self.end

    def applied(self, text):
        return text[:self.start] + self.new + text[self.end:]


def closing(text, opening):
    """The place behind the brace that closes the one at 'opening'."""
    depth = 0
    for at in range(opening, len(text)):
        depth += {"{": 1, "}": -1}.get(text[at], 0)
        if depth == 0:
            return at + 1
    raise ValueError("a brace is not closed")


def masked(text):
    """The text with blanks in place of comments and contracts."""
    text = COMMENT.sub(lambda found: " " * len(found[0]), text)
    while found := CONTRACT.search(text):
        end = closing(text, found.end())
        text = text[:found.start()] + " " * (end - found.start()) + text[end:]
    return text


class Member(NamedTuple):
    """A constant or a variant: what it is worth tells whether another one is another value."""
    name: str
    of_type: str
    value: str


def others_of(name, members):
    here = [member for member in members if member.name == name]
    return [other.name for other in members if here and other.of_type == here[0].of_type and worth(other) != worth(here[0])]


def worth(member):
    return int(member.value, 0) if NUMBER.fullmatch(member.value) else member.value


class Names:
    """What the sources declare: for each field, constant or variant those that could stand in its place."""

    def __init__(self, texts):
        self.fields, self.members = {}, {}
        for text in map(masked, texts):
            for found in TYPE.finditer(text):
                self.declare(found[1], found[2], text[found.end():closing(text, found.end() - 1) - 1])
            for found in IMPL.finditer(text):
                for fixed in FIXED.finditer(text[found.end():closing(text, found.end() - 1)]):
                    self.members.setdefault(found[1], []).append(Member(fixed[1], fixed[2], fixed[3]))

    def declare(self, kind, owner, body):
        if kind == "enum":
            self.members.setdefault(owner, []).extend(
                Member(name, holds, name) for name, holds in re.findall(r"(\w+)(\([^)]*\))?,", body))
            return
        fields = re.findall(r"(\w+): ([^,]+),", body)
        for name, of_type in fields:
            others = [other for other, same in fields if same == of_type and other != name]
            self.fields.setdefault(name, []).extend(others)

    def other_fields(self, name):
        return self.fields.get(name, [])

    def other_members(self, owner, name):
        return others_of(name, self.members.get(owner, []))


def number_changes(found):
    value = int(found[0], 0)
    shown = hex if found[0].startswith("0x") else str
    return [shown(value + 1)] + ([shown(value - 1)] if value else [])


class Source:
    """One file of a crate."""

    def __init__(self, path, text, names):
        self.path, self.text, self.names = path, masked(text), names
        self.constants = [Member(found[1], found[2], found[3]) for found in FIXED.finditer(self.text)]

    def changes(self):
        for found in FIXED.finditer(self.text):
            yield from self.simple(found[1], found.start(3), found.end(3))
        for found in FUNCTION.finditer(self.text):
            start = self.text.index("{", found.end())
            end = closing(self.text, start)
            yield from self.simple(found[1], start, end)
            yield from self.operands(found[1], found.end(), start, end)
            yield from self.branches(found[1], start, end)

    def found(self, pattern, unit, kind, start, end, others):
        for found in pattern.finditer(self.text, start, end):
            for new in others(found):
                yield Change(self.path, unit, kind, found.start(), found.end(), new)

    def simple(self, unit, start, end):
        within = (start, end)
        yield from self.found(NUMBER, unit, "number", *within, number_changes)
        yield from self.found(TRUTH, unit, "number", *within, lambda found: ["false" if found[0] == "true" else "true"])
        yield from self.found(COMPARISON, unit, "comparison", *within, lambda found: OTHER_COMPARISONS[found[0]])
        yield from self.found(ORDERED, unit, "comparison", *within, lambda found: [f"{found[3]} {found[2]} {found[1]}"])
        yield from self.found(SUM, unit, "sum", *within, lambda found: OTHER_SUMS[found[0]])
        yield from self.found(FIELD, unit, "field", *within, lambda found: self.names.other_fields(found[0]))
        yield from self.found(PATH, unit, "operand", *within, lambda found: [
            f"{found[1]}::{other}" for other in self.names.other_members(found[1], found[2])])
        yield from self.found(CONSTANT, unit, "operand", *within, lambda found: others_of(found[0], self.constants))

    def operands(self, unit, signature, start, end):
        """A parameter or a local in place of another; whether the types fit is for the compiler to say."""
        declared = PARAMETER.findall(self.text, signature, start) + LOCAL.findall(self.text, start, end)
        if re.search(r"\bself\b", self.text[signature:start]):
            declared.append("self")
        names = sorted(set(declared))

        def others(found):
            before = self.text[:found.start()].split()[-1]
            return [name for name in names if name != found[0]] if found[0] in names and before not in ("let", "mut") else []
        yield from self.found(NAME, unit, "operand", start, end, others)

    def branches(self, unit, start, end):
        """A condition turned round, and a way through the function, or an arm of a match, that ends as another one does."""
        for found in CONDITION.finditer(self.text, start, end):
            yield Change(self.path, unit, "branch", found.start(1), found.end(1), f"!({found[1]})")
        ends = [found.span(found.lastindex) for found in RETURNED.finditer(self.text[:end], start)]
        yield from self.exchanged(unit, ends)
        arms = list(ARM.finditer(self.text, start, end))
        for depth in sorted({arm[1] for arm in arms}):
            yield from self.exchanged(unit, [arm.span(3) for arm in arms if arm[1] == depth])

    def exchanged(self, unit, spans):
        """Each of these texts in place of each other one."""
        texts = sorted({self.text[start:end] for start, end in spans})
        for start, end in spans:
            for new in texts:
                if new != self.text[start:end]:
                    yield Change(self.path, unit, "branch", start, end, new)
