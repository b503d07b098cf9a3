"""The README of each crate, made of its sources: what it is, its main items, what it stands on, and how it is tested.

The comment at the head of a crate's root file says what the crate is. Its last paragraph, `Main items: ..`, names at most three of them:
items or modules of the crate."""

import os
import re
from typing import Iterator

from rules import TOP, crates, repository_files, root_of, root_paragraphs, sources, text_of, used_by_crates

MAIN = re.compile(r"Main items?: (.*)\.$")
MOST_MAIN_ITEMS = 3
MOST_USERS = 6  # That are named.
ITEM = r"^((?: *///.*\n)*)(?: *(?:#\[|//).*\n)* *(?:pub(?:\(crate\))? )?(?:extern \"C\" )?(?:fn|struct|enum|trait|const|type) {}\b"


def first_sentence(text: str) -> str:
    return re.split(r"(?<=\.) (?=[A-Z`])", " ".join(text.split()))[0].rstrip(".")


def main_names(crate: str) -> list[str]:
    """The names of the last paragraph of a root's comment."""
    named = MAIN.match(root_paragraphs(crate)[-1])
    return re.findall(r"`(\w+)`", named[1]) if named else []


def meaning(crate: str, name: str) -> str:
    """The first sentence of what documents an item or a module of this crate."""
    files = sorted((file for file in sources(".rt") if file.startswith(f"crates/{crate}/src/")), key=lambda file: (file.count("/"), file))
    for file in files:
        if file.endswith(f"/{name}.rt") and file != root_of(crate):
            said = re.match(r"(?://!.*\n)+", text_of(file))
            return first_sentence(said[0].replace("//!", "")) if said else ""
    for file in files:
        documented = re.search(ITEM.format(name), text_of(file), re.M)
        if documented and documented[1]:
            return first_sentence(documented[1].replace("///", ""))
    return ""


def list_of(names: list[str]) -> str:
    words = [f"`{name}`" for name in names]
    return ", ".join(words[:-1]) + " and " + words[-1] if len(words) > 1 else "".join(words)


def uses(crate: str) -> str:
    used = used_by_crates()
    own = [name for name in used[crate] if name in used]
    kit = [name for name in used[crate] if name not in used]
    users = [name for name in used if crate in used[name]]
    said = f"It stands on {list_of(own) or 'no crate of this repository'}" + (f"; of the kit on {list_of(kit)}." if kit else ".")
    return said + (f" {list_of(users) if len(users) <= MOST_USERS else len(users)} stand{'s' * (len(users) == 1)} on it." if users else "")


def tests(crate: str) -> str:
    """What tests a crate: crates of tests that name it, its own tests and runs, the check of C, and wrong bodies."""
    files, said = repository_files(), []
    naming = [test for test in crates() if test.endswith("_tests") and test != crate and names_crate(test, crate)]
    if naming:
        said.append(f"Tests that name it are in {list_of(naming)}.")
    if any("#[test]" in text_of(file) for file in sources(".rt") if file.startswith(f"crates/{crate}/")):
        said.append("Its tests run by `rt test` here, and in the gate.")
    if f"crates/{crate}/stdout" in files:
        given = [name for name in ("args", "stdin") if f"crates/{crate}/{name}" in files]
        said.append(f"The gate runs it{' on ' + list_of(given) if given else ''}, and it has to print `stdout`.")
    if f"/lib{crate}.a" in text_of("c/check"):
        said.append("`c/check` runs it from C.")
    return " ".join(said + wrong_bodies(crate)) or "To compile is its test."


def names_crate(test: str, crate: str) -> bool:
    return any(re.search(rf"\b{crate}::", text_of(file)) for file in sources(".rt") if file.startswith(f"crates/{test}/src/"))


def wrong_bodies(crate: str) -> list[str]:
    """The functions of which the gate refuses wrong bodies, and where further ones are."""
    edits = [re.fullmatch(rf"crates/{crate}/must-fail/(\w+)-\w+\.edit", file) for file in repository_files()]
    functions = sorted({edit[1] for edit in edits if edit})
    further = f"[{crate}.txt](../../wrong-bodies/{crate}.txt)" if f"wrong-bodies/{crate}.txt" in repository_files() else ""
    if functions:
        return [f"The gate refuses wrong bodies of {list_of(functions)}." + (f" Further ones are in {further}." if further else "")]
    return [f"Wrong bodies are in {further}."] if further else []


def more(crate: str) -> Iterator[str]:
    """What else is made of this crate's sources."""
    for name, page in [("Its calls", "docs/dev/calls.md"), ("its laws", "docs/theory/laws.md")]:
        if f"\n## `{crate}`\n" in text_of(page):
            yield f"[{name}](../../{page}#{crate})"


def first_capital(text: str) -> str:
    return text.replace("its", "Its", 1) if text.startswith("[its") else text


def readme(crate: str) -> str:
    paragraphs = [text for text in root_paragraphs(crate) if not MAIN.match(text)]
    root = os.path.basename(root_of(crate))
    lines = [f"# `{crate}`", "", f"Made by `docs/from-sources`: the words are those of [{root}](src/{root})."]
    for text in paragraphs:
        lines += ["", text]
    names = main_names(crate)
    if names:
        lines += ["", "| main item | what it is |", "|---|---|"]
        lines += [f"| `{name}` | {meaning(crate, name)} |" for name in names]
    lines += ["", f"- {uses(crate)}", f"- {tests(crate)}"]
    found = list(more(crate))
    return "\n".join(lines + ([f"- {first_capital(' and '.join(found))}."] if found else [])) + "\n"


def pages() -> Iterator[tuple[str, str]]:
    for crate in crates():
        yield f"crates/{crate}/README.md", readme(crate)


def findings() -> Iterator[str]:
    """Crates of which the comment names no main item, or one that says nothing; and a README that is another."""
    for crate in crates():
        names = main_names(crate)
        if not 0 < len(names) <= MOST_MAIN_ITEMS:
            yield f"{root_of(crate)}:1: its comment has to end with a paragraph `Main items: ..` of 1 to {MOST_MAIN_ITEMS} names"
        for name in names:
            if not meaning(crate, name):
                yield f"{root_of(crate)}:1: nothing documents its main item {name}"
    for name, text in pages():
        if not os.path.exists(os.path.join(TOP, name)) or text_of(name) != text:
            yield f"{name}:1: is not what docs/from-sources makes"
