"""The public functions of every library crate, as the checks of this folder want them; conversions by From are among them.

Left out: programs, and what other crates can't call (pub(crate), and modules that are not pub)."""
import collections
import pathlib
import re

CRATES = pathlib.Path(__file__).resolve().parent.parent / "crates"
ITEM = re.compile(
    r"^impl (?:From<(?P<source>\w+)> for )?(?P<holder>\w+)|^}"
    r'|^ *(?:pub (?:extern "C" )?|(?=fn from\())fn (?P<name>\w+)(?P<generics>[^(]*)\((?P<params>[^)]*)\)(?P<result>[^{]*?)(?=\s(?:requires|ensures|{))',
    re.M,
)
# the law of a conversion: what it gives is said of its own two names
GIVES = re.compile(r"ghost from_gives = \{ λ (\w+) (\w+)\. (.*?) \};", re.S)
CLAUSE = re.compile(r"\s*(?:requires|ensures)\b\*?(?: \w+)? (?={)")
STATIC = re.compile(r"^(\w+) +staticlib\b", re.M)

# path: modules, the type that holds it if any, and its name. generics, params and result: as in the source. promises: the
# text of each `ensures`, on one line.
Function = collections.namedtuple("Function", "crate path generics params result promises")


def closing(text, opening):
    """The place behind the brace that closes the one at 'opening'."""
    depth = 0
    for at in range(opening, len(text)):
        depth += {"{": 1, "}": -1}.get(text[at], 0)
        if depth == 0:
            return at + 1
    raise ValueError("a brace is not closed")


def promises(text, at):
    """What the clauses behind a signature ensure."""
    found = []
    while clause := CLAUSE.match(text, at):
        at = closing(text, clause.end())
        if "ensures" in clause[0]:
            found.append(" ".join(text[clause.end() + 1 : at - 1].split()))
    return found


def converted(text, at):
    """What a conversion gives, as a promise of the function behind the law."""
    _, given, law = GIVES.match(text, text.index("ghost ", at)).groups()
    return [re.sub(rf"\b{given}\b", "result", law)]


def below(crate, file, folder, path):
    text = file.read_text()
    holder, law = [], None
    for item in ITEM.finditer(text):
        if item["source"]:
            # as the check names it
            given, taken = (name[0].upper() + name[1:] for name in (item["holder"], item["source"]))
            holder = [f"{given}From{taken}"]
            law = converted(text, item.end())
        elif item["holder"]:
            holder = [item["holder"]]
        elif item["name"]:
            params = [param.strip() for param in item["params"].split(",") if param.strip()]
            name = path + holder + [item["name"]]
            yield Function(crate, name, item["generics"], params, item["result"].strip(), law or promises(text, item.end()))
        else:
            holder, law = [], None
    for module in re.findall(r"^pub mod (\w+);", text, re.M):
        yield from below(crate, folder / f"{module}.rt", folder / module, path + [module])


def all_functions(crates=CRATES):
    for library in sorted(crates.glob("*/src/lib.rt")):
        yield from below(library.parent.parent.name, library, library.parent, [])


def archives(crates=CRATES):
    """The crates that are built for hosts, on which no crate can stand: static libraries by crates.txt."""
    return STATIC.findall((crates.parent / "crates.txt").read_text())


# a record, and what holds one
RECORD = "Gear|Outcome"

# the public functions that take a record and are no calls, with the reason
NO_CALLS = {
    "borrowed::write": "is `apply_standard_write` on a record that is lent",
    "borrowed::power_cycle": "is `power_cycle` on a record that is lent",
    "gear::answer::done": "puts the answer Done beside the record that a call leaves",
    "gear::answer::refused": "puts a refusal beside the record that a call hands back",
    "gear::answer::unchanged": "puts an answer beside a record that stays as it was",
    "gear::record::Gear::fit": "is the test itself",
    "gear::serve::serve": "makes the test for a call that may change the record",
    "gear::serve::tell": "makes the test for a call that only answers",
    "query::told::Seen::of": "takes from a record what queries tell of",
    "slot::image::store": "puts a record into a slot",
}


# the public functions that no line of one outcome names, with the reason
NO_LINE = {
    "input::read_full": "how many bytes a read gives is the reader's: its promise says which they are, wherever it stops",
}


def full_name(function):
    return "::".join([function.crate] + function.path)


def takes(function, types):
    """As a parameter, or as the value that a method is of."""
    own = function.path[-2:-1] if re.search(r"\bself\b", " ".join(function.params)) else []
    return any(re.search(rf"\b({types})\b", text) for text in [*function.params, *own])


def takes_record(function):
    return takes(function, RECORD)


def is_call(function):
    return takes_record(function) and full_name(function) not in NO_CALLS
