"""The parts of pages that are made of the sources: commands, the meanings of numbers and words, wrong bodies, and programs.

A part of a page stands between `<!-- made by docs/from-sources: NAME -->` and `<!-- end of what is made -->`."""

import os
import re
from typing import Iterator

from rules import MADE_PARTS, TOP, repository_files, root_paragraphs, text_of, used_by_crates

PARSER, ARGUMENT = "crates/cli/src/arguments/parser.rt", "crates/cli/src/arguments/argument.rt"
EXPLAIN = "crates/cli/src/explain"
STRING = r'"((?:\\.|[^"\\])*)"'
CONSTANT = re.compile(rf"const (\w+): &str =\s+{STRING};", re.S)
ROW = re.compile(r'Argument::(Required|)(\w+)\(((?:[^()"]|"(?:\\.|[^"\\])*")*)\)')
SHARED = re.compile(r"const (\w+): Argument<'static> =\s+(.*?);\n", re.S)
TABLE = re.compile(r"const (\w+): \[Argument<'static>; \d+\] =\s+\[(.*?)\];\n", re.S)
COMMAND = re.compile(rf'let about =\s*{STRING};\s+command\(alloc, "(\w+)", about, (\w+), &argument::(\w+)\)')
ENTRY = re.compile(rf"(?:(\w+)(?: \{{ \.\. \}}|\(_\))? => |\n        )\({STRING}, (\w+)\)")
BEGINS = re.compile(r"(<!-- made by docs/from-sources: ([\w ./-]+) -->\n).*?(<!-- end of what is made -->)", re.S)
FENCES = {".c": "c", ".rs": "rust", ".py": "python", ".rt": "rust"}
# The inner comment, the imports and the allowances of a file, which a page leaves out.
HEAD = re.compile(r"(//!.*\n|#!\[.*\n|use .*\n|\n)*")


def plain(text: str) -> str:
    """The value of a string of the sources."""
    return re.sub(r"\\\n\s*", "", text).replace("\\n", "\n").replace('\\"', '"')


def constants(file: str) -> dict[str, str]:
    return {name: plain(value) for name, value in CONSTANT.findall(text_of(file))}


def cell(text: str) -> str:
    return " ".join(text.split()).replace("|", "\\|")


# ---- the commands


def argument(row: str) -> tuple[str, str, str]:
    """Whether an argument is required, its spelling and its help."""
    found = ROW.search(row)
    assert found
    named = constants(ARGUMENT)
    words = [named[name] if name else plain(text) for text, name in re.findall(rf"{STRING}|(\w+)", found[3])]
    if found[2] in ("Word", "Words"):
        return found[1], words[0], words[1]
    value = {"Flag": "", "Optional": f" [{words[1]}]"}.get(found[2], f" {words[1]}")
    return found[1], f"--{words[0]}{value}", words[1 if found[2] == "Flag" else 2]


def command(name: str) -> str:
    """The synopsis of a command, what it reads and prints, and its options."""
    for about, found, help_name, table in COMMAND.findall(text_of(PARSER)):
        if found != name:
            continue
        shared, body = dict(SHARED.findall(text_of(ARGUMENT))), dict(TABLE.findall(text_of(ARGUMENT)))[table]
        rows, synopsis = [], [f"rmelab {name}"]
        for row in re.finditer(rf"{ROW.pattern}|[A-Z]+(?=,)", body):
            required, spelled, text = argument(shared.get(row[0], row[0]))
            rows.append(f"| `{spelled}` | {cell(text)} |")
            synopsis.append(spelled if required else f"[{spelled}]" + "..." * (row[2] == "Words"))
        said = [line for line in constants(PARSER)[help_name].split("\n") if re.match(r"(?:In|Out|Shown): ", line)]
        lines = ["```text", *wrapped(synopsis), "```", "", plain(about) + ".", ""]
        lines += [f"- *{head}*: {text}" for head, text in (line.split(": ", 1) for line in said)]
        return "\n".join(lines + ["", "| option | what it is |", "|---|---|", *rows]) + "\n"
    raise KeyError(name)


def wrapped(words: list[str]) -> list[str]:
    lines = [words[0]]
    for word in words[1:]:
        if len(lines[-1]) + len(word) > 110:
            lines.append(" " * 7)
        lines[-1] += " " + word
    return lines


def statuses() -> str:
    """The exit statuses, as the help has them."""
    text = constants(PARSER)["STATUSES"].removeprefix("Exit status: ")
    rows = re.findall(r"(\d) (.*?)(?=, \d |\.$)", text)
    return "\n".join(["| status | when |", "|---|---|", *[f"| {status} | {cell(when)} |" for status, when in rows]]) + "\n"


# ---- what explain explains


def explained(kind: str) -> Iterator[tuple[str, str, str]]:
    """The entries of a kind: the number or the words, the name in the sources, and the meaning."""
    for file in sorted(name for name in repository_files() if re.fullmatch(rf"{EXPLAIN}/\w+\.rt", name)):
        texts = constants(file)
        for name, spelled, text in ENTRY.findall(text_of(file)):
            if spelled.startswith(kind + " "):
                yield spelled.removeprefix(kind + " "), name, cell(texts[text])


def numbered(kind: str) -> str:
    rows = sorted(explained(kind), key=lambda row: int(row[0]))
    return "\n".join(["| number | name | meaning |", "|---|---|---|", *[f"| {' | '.join(row)} |" for row in rows]]) + "\n"


def answers() -> str:
    rows = [f"| `{words}` | {text} |" for words, _, text in explained("answer")]
    return "\n".join(["| answer | meaning |", "|---|---|", *rows]) + "\n"


VARIANT = re.compile(rf"((?:    ///.*\n)*)    #\[error\({STRING}\)\]\n    (\w+)")


def variants(words: str) -> str:
    """The variants of an error type, `TYPE FILE`, with their documentation, or else with the text that it prints."""
    name, file = words.split()
    declared = re.search(rf"pub enum {name} \{{\n(.*?)^\}}", text_of(file), re.M | re.S)
    assert declared
    rows = ["| number | name | meaning |", "|---|---|---|"]
    for number, (docs, printed, variant) in enumerate(VARIANT.findall(declared[1]), 1):
        rows.append(f"| {number} | {variant} | {cell(docs.replace('///', '')) or plain(printed).capitalize()} |")
    return "\n".join(rows) + "\n"


# ---- wrong bodies


def wrong_bodies() -> str:
    """The wrong bodies that the gate has, by crate and function, and how many are outside."""
    inside: dict[str, dict[str, list[str]]] = {}
    outside: dict[str, int] = {}
    for file in repository_files():
        edit = re.fullmatch(r"crates/(\w+)/must-fail/(\w+)-(\w+)\.edit", file)
        listed = re.fullmatch(r"wrong-bodies/(\w+)\.txt", file)
        if edit:
            inside.setdefault(edit[1], {}).setdefault(edit[2], []).append(edit[3].replace("_", " "))
        elif listed:
            outside[listed[1]] = len(re.findall(r"^== ", text_of(file), re.M))
    lines = ["| crate | in the gate: each function, and what is wrong | further |", "|---|---|---|"]
    for crate in sorted({*inside, *outside}):
        told = [f"`{function}`: {', '.join(sorted(wrong))}" for function, wrong in sorted(inside.get(crate, {}).items())]
        lines.append(f"| `{crate}` | {'; '.join(told) or 'none'} | {outside.get(crate, 0)} |")
    gate = sum(len(wrong) for functions in inside.values() for wrong in functions.values())
    return "\n".join(lines + [f"| all | {gate} | {sum(outside.values())} |"]) + "\n"


# ---- the crates


def first_sentence(crate: str) -> str:
    """What the inner comment of a crate's root says first."""
    return cell(re.split(r"(?<=\.) (?=[A-Z])", root_paragraphs(crate)[0])[0].rstrip("."))


def crates() -> str:
    """The crates, each after those that it uses."""
    waiting, rows = used_by_crates(), ["| crate | what it is |", "|---|---|"]
    while waiting:
        crate = next(name for name, used in waiting.items() if not set(used) & set(waiting))
        del waiting[crate]
        rows.append(f"| `{crate}` | {first_sentence(crate)} |")
    return "\n".join(rows) + "\n"


# ---- files


def algorithms() -> str:
    """The texts of algorithms: what each promises, and its first comment."""
    rows = ["| text | promises | what it is |", "|---|---|---|"]
    for file in sorted(name for name in repository_files() if re.fullmatch(r"examples/algorithms/[\w-]+\.lock", name)):
        comment, promises = re.search(r"^# (.*)", text_of(file)), re.search(r"^promises (.*)", text_of(file), re.M)
        assert comment and promises
        rows.append(f"| `{os.path.basename(file)}` | {promises[1]} | {cell(comment[1])} |")
    return "\n".join(rows) + "\n"


def shown(words: str) -> str:
    """A file as a block, or its lines A to B of `A B FILE`."""
    *between, name = words.split()
    text = text_of(name)
    if between:
        first, last = map(int, between)
        text = "".join(text.splitlines(keepends=True)[first - 1 : last])
    if name.endswith(".rt"):
        text = HEAD.sub("", text, count=1)
    return f"```{FENCES.get(os.path.splitext(name)[1], 'text')}\n{text}```\n"


# ---- the pages


def part(name: str) -> str:
    kind, _, rest = name.partition(" ")
    if kind == "command":
        return command(rest)
    if kind == "numbers":
        return numbered(rest)
    if kind == "variants":
        return variants(rest)
    if kind in ("file", "lines"):
        return shown(rest)
    return {"statuses": statuses, "answers": answers, "wrong bodies": wrong_bodies, "crates": crates, "algorithms": algorithms}[name]()


def pages() -> Iterator[tuple[str, str]]:
    """Each page with such parts, and its text with each part made anew."""
    for page, maker in MADE_PARTS.items():
        if maker == "docs/from-sources" and os.path.exists(os.path.join(TOP, page)):
            yield page, BEGINS.sub(lambda at: at[1] + part(at[2]) + at[3], text_of(page))
