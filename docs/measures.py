"""Measures of the sources, each with a limit that the tree meets. A limit may only fall: who lowers a count lowers its limit here.

`docs/check --measures` prints them as a table, `docs/check --measures NAME` the places that one of them counts, and `docs/check --static`
refuses a tree that is over a limit. Crates of tests do not count."""

import functools
import os
import re
import shutil
import subprocess
import tempfile
from dataclasses import dataclass
from typing import Callable, Iterator

from rules import TOP, closing, code_of, line_at, sources, text_of

# ---- what is read


def is_tests(name: str) -> bool:
    return re.match(r"crates/(?:\w+_tests|test_support)/|.*/src/(?:.*/)?tests(?:\.rt|/)", name) is not None


def files(*folders: str) -> list[str]:
    """The sources in these folders of the crates, tests aside."""
    return [name for name in sources(".rt", ".antt") if name.split("/")[2] in folders and not is_tests(name)]


def crate_of(name: str) -> str:
    return name.split("/")[1]


@functools.cache
def plain_code(name: str) -> str:
    """A source without its comments."""
    return code_of(text_of(name)) if name.endswith(".rt") else re.sub(r"(^|\s)--(?=\s)[^\n]*", r"\1", text_of(name), flags=re.M)


FUNCTION = re.compile(r"^( *)(?:pub(?:\([^)]*\))? )?(?:const )?(?:unsafe )?(?:extern \"[^\"]*\" )?fn (\w+)", re.M)
TYPE = re.compile(r"^(?:pub(?:\([^)]*\))? )?(?:unsafe )?(?:struct|enum|trait|type) ([A-Z]\w*)", re.M)
DEFINITION = re.compile(r"^(?:pub )?(?:unfoldable )?(?:record|data|abbrev) (?:pub )?(\w+)(.*?)(?=^\S|\Z)", re.M | re.S)
OF_TRAIT = re.compile(r"^(?:unsafe )?impl\b[^{;]*? for [^{;]*\{", re.M)


# ---- names


def names_of_several_crates() -> Iterator[str]:
    """Types, traits and relations of one name in several crates, each with these."""
    homes: dict[str, set[str]] = {}
    for file in files("src", "specs"):
        pattern = TYPE if file.endswith(".rt") else DEFINITION
        for name in (found[1] for found in pattern.finditer(plain_code(file)) if found[1][0].isupper()):
            homes.setdefault(name, set()).add(crate_of(file))
    for name, crates in sorted(homes.items(), key=lambda home: (-len(home[1]), home[0])):
        if len(crates) > 1:
            yield f"{name}: {', '.join(sorted(crates))}"


# Words that end as a participle does and are none, and participles and adjectives that do not.
NO_PARTICIPLES = set("bed deed feed heed need reed seed shed speed".split())
PARTICIPLES = set(
    "begun drawn fallen fed found given gone grown heard held kept known led left made meant met ran redone said seen sent shown spent "
    "taken told undone undrawn unread unrun unspent done written".split()
)
ADJECTIVES = set(
    "absent alone bare calm dead empty equal free fresh full further greater innermost least many more null onward other outer own plain "
    "private reachable ready silent simple smaller whole wide wider".split()
)


def is_bare(name: str) -> bool:
    """Whether a name is a participle or an adjective alone. `new`, `first`, `last` and `next` are Rust's."""
    return name in PARTICIPLES | ADJECTIVES or re.fullmatch("[a-z]+ed", name) is not None and name not in NO_PARTICIPLES


def bare_functions() -> Iterator[str]:
    for file in files("src"):
        for function in FUNCTION.finditer(plain_code(file)):
            if is_bare(function[2]):
                yield f"{file}:{line_at(text_of(file), function.start())}: {function[2]}"


def bare_definitions() -> Iterator[str]:
    for file in files("specs"):
        for definition in DEFINITION.finditer(plain_code(file)):
            if is_bare(definition[1]):
                yield f"{file}: {definition[1]}"


def gerunds() -> Iterator[str]:
    """Files that are named by what is done, with no type of that name in them."""
    for file in files("src", "specs"):
        stem = os.path.basename(file).rsplit(".", 1)[0]
        named = "".join(word.capitalize() for word in stem.split("_")) if file.endswith(".rt") else stem
        if stem.lower().endswith("ing") and not re.search(rf"\b(?:struct|enum|trait|record|data) (?:pub )?{named}\b", plain_code(file)):
            yield file


def uses_in_names(banned: str) -> Iterator[str]:
    """Each use of an identifier of which this word is a part."""
    for file in files("src", "specs", "proofs"):
        code = plain_code(file)
        for at in (found.start() for found in re.finditer(banned, code, re.I)):
            name = re.split(r"\W", code[:at][-60:])[-1] + re.split(r"\W", code[at : at + 60])[0]
            if banned in re.sub(r"([A-Z])", r"_\1", name).lower().split("_"):
                yield f"{file}:{line_at(code, at)}: {name}"


# ---- shapes

MOST_ARGUMENTS = 7


def arguments(signature: str) -> int:
    """How many arguments a signature has, those in braces aside."""
    parts, depth, at = [""], 0, 0
    while at < len(signature):
        depth += (signature[at] in "({[") - (signature[at] in ")}]")
        if depth == 0 and signature[at] == "→":
            parts.append("")
        else:
            parts[-1] += signature[at]
        at += 1
    return sum(arguments_of_part(part.strip()) for part in parts[:-1])


def arguments_of_part(part: str) -> int:
    named = re.fullmatch(r"\((.*?) : .*\)", part, re.S)
    return 0 if part.startswith("{") else len(named[1].split()) if named else 1


def long_relations() -> Iterator[str]:
    """Relations and records of eight or more arguments."""
    for file in files("src", "specs", "proofs"):
        if file.endswith(".antt"):
            for definition in DEFINITION.finditer(plain_code(file)):
                head, signature = head_and_signature(definition[2])
                many = sum(arguments_of_part(part) for part in re.findall(r"\([^()]*(?:\([^()]*\)[^()]*)*\)", head)) + arguments(signature)
                if definition[1][0].isupper() and signature.rstrip().endswith("Type 0") and many > MOST_ARGUMENTS:
                    yield f"{file}: {definition[1]} {many}"


def head_and_signature(text: str) -> tuple[str, str]:
    """What stands before and after the colon of a definition, up to its `where`."""
    text, depth = re.split(r"\bwhere\b", text)[0], 0
    for at, mark in enumerate(text):
        depth += (mark in "({[") - (mark in ")}]")
        if mark == ":" and depth == 0:
            return text[:at], text[at + 1 :]
    return text, ""


# ---- documentation


def is_documented(text: str, at: int) -> bool:
    """Whether a line of documentation is above this place, attributes and other comments left out."""
    for line in reversed(text[:at].rstrip("\n").split("\n")):
        if line.strip().startswith("///"):
            return True
        if not line.strip().startswith(("#[", "//")):
            return False
    return False


def undocumented_functions() -> Iterator[str]:
    """Functions without a line of documentation, but for the methods that a trait documents."""
    for file in files("src"):
        code = plain_code(file)
        of_traits = [(head.start(), closing(code, head.end() - 1)) for head in OF_TRAIT.finditer(code)]
        for function in FUNCTION.finditer(code):
            inside = any(start < function.start() < end for start, end in of_traits)
            if not inside and not is_documented(text_of(file), function.start()):
                yield f"{file}:{line_at(code, function.start())}: {function[2]}"


# ---- size


def lines() -> Iterator[str]:
    for file in files("src", "specs", "proofs"):
        yield from [file] * text_of(file).count("\n")


def pairs_alike() -> int | None:
    """How many pairs of runs of lines in src are alike by shape, as the command `duplicates` counts them where it is installed."""
    if not shutil.which("duplicates"):
        return None
    with tempfile.TemporaryDirectory() as folder:
        for file in files("src"):
            to = os.path.join(folder, file.removesuffix(".rt") + ".rs")
            os.makedirs(os.path.dirname(to), exist_ok=True)
            shutil.copyfile(os.path.join(TOP, file), to)
        ran = subprocess.run(["duplicates", "--repo", folder, "--seconds", "120"], capture_output=True, text=True, check=False)
    said = re.match(r"(\d+) pairs", ran.stdout)
    return int(said[1]) if said else None


# ---- the table


@dataclass
class Measure:
    """What is counted, how many are allowed, and what lists the places."""

    name: str
    counts: str
    most: int
    places: Callable[[], Iterator[str]]


MEASURES = [
    Measure("names", "types, traits and relations declared in several crates", 26, names_of_several_crates),
    Measure("relations", f"relations with more than {MOST_ARGUMENTS} arguments", 0, long_relations),
    Measure("undocumented", "functions without a line of documentation", 0, undocumented_functions),
    Measure("functions", "functions named by a participle or an adjective alone", 5, bare_functions),
    Measure("definitions", "definitions of specs named by one", 0, bare_definitions),
    Measure("files", "files of src and specs named by a gerund", 0, gerunds),
    Measure("behind", "uses of an identifier with `behind`", 0, lambda: uses_in_names("behind")),
    Measure("told", "uses of an identifier with `told`", 11, lambda: uses_in_names("told")),
    Measure("lines", "lines of src, specs and proofs", 215_469, lines),
]
MOST_PAIRS_ALIKE = 474


def findings() -> Iterator[str]:
    for measure in MEASURES:
        now = sum(1 for _ in measure.places())
        if now > measure.most:
            yield f"docs/measures.py: {now:,} {measure.counts}, {measure.most:,} at most: docs/check --measures {measure.name}"


def table() -> str:
    rows = ["| measure | what it counts | now | at most |", "|---|---|---|---|"]
    for measure in MEASURES:
        rows.append(f"| {measure.name} | {measure.counts} | {sum(1 for _ in measure.places()):,} | {measure.most:,} |")
    alike = pairs_alike()
    if alike is not None:
        rows.append(f"| | pairs of runs in src that are alike by shape (`duplicates`) | {alike:,} | {MOST_PAIRS_ALIKE:,} |")
    return "\n".join(rows)


def report(name: str) -> str:
    """The table, or the places of the measure with this name."""
    if name == "all":
        return table()
    found = [measure for measure in MEASURES if measure.name == name]
    return "\n".join(found[0].places()) if found else f"no such measure: {', '.join(measure.name for measure in MEASURES)}"
