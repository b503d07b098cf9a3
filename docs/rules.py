"""The rules that pages and sources keep to, each a function that yields its findings as `file:line: what is wrong`.

They read files alone: no program has to be built. docs/check runs them."""

import functools
import os
import re
import subprocess
from typing import Iterator

TOP = os.path.dirname(os.path.dirname(os.path.realpath(__file__)))
ARCHITECTURE = "docs/dev/architecture.md"
THEOREM = "docs/theory/theorem.md"

MOST_CRATES = 42
MOST_LINES_OF_A_FILE = 500
MOST_LINES_OF_A_BODY = 40
WIDEST_CLAUSE = 140  # Bytes.
MOST_NOUNS = 40
MOST_DOUBLE_NAMES = 4
MOST_WORDS = 37_300
MOST_HEADLINES = 2
HEADLINE = "nobody enters before the process that crashed there has entered again"

# What is made and not written: a file, a folder, or a page with such a part, and what makes it. docs/check compares each.
MADE = {
    "docs/theory/laws.md": "docs/from-sources",
    "docs/dev/calls.md": "docs/from-sources",
    "docs/use/locks.md": "docs/from-searches",
    "docs/use/rmelab.1": "docs/from-help",
    "completions/rmelab.bash": "docs/from-help",
    "completions/_rmelab": "docs/from-help",
    "completions/rmelab.fish": "docs/from-help",
    "c/man": "c/tools/man-pages",
    "examples/drawings": "rmelab draw",
    "examples/rows": "rmelab replay, rmelab judge",
}

# Pages with parts that are made, between `<!-- made by .. -->` and `<!-- end of what is made -->`, and what makes them.
MADE_PARTS = {
    "docs/use/command-line.md": "docs/from-sources",
    "docs/use/errors.md": "docs/from-sources",
    "docs/use/algorithms.md": "docs/from-sources",
    "docs/use/rust.md": "docs/from-sources",
    "docs/use/tour.md": "docs/from-sources",
    "docs/dev/architecture.md": "docs/from-sources",
    "docs/dev/testing.md": "docs/from-sources",
    "examples/algorithms/README.md": "docs/from-sources",
    "docs/use/c.md": "docs/from-sources",  # And its table of calls c/tools/man-pages.
}

# Facts that have one place: words that only this page may have, of those by hand.
ONE_PLACE = [
    ("the limits", r"4,611,686,018,427,387,904", "docs/theory/model.md"),
    ("the table of steps", r"\| `weigh` \| `wait\(W, j\)`", "docs/theory/model.md"),
    ("the restart table", r"\| 1,k,0 \| number taken", "docs/theory/model.md"),
    ("own steps of a lock", r"\| 0,0,0 \| 3n \+ 4 \+ b", "docs/theory/model.md"),
    ("own steps of an append", r"3n \+ 18 \+ 2W", "docs/theory/model.md"),
    ("the asking rule", r"askings = own steps \+ 1, and", "docs/theory/model.md"),
    ("the data words", r"10 \+ W \+ n \+ \(2 \+ W\)", "docs/theory/mailbox.md"),
    ("the record rule", r"count = rec_at \+ 1, the list rule holds", "docs/theory/mailbox.md"),
    ("the judge table", r"\| Enter p \| ready \(1\)", "docs/theory/judge.md"),
    ("the plain properties", r"Between an Enter p or Reenter p", "docs/theory/judge.md"),
    ("the premises", r"\| private loss only \|", THEOREM),
    ("the refusals", r"\| 13 \| BadIndex \|", "docs/use/errors.md"),
    ("the faults of a member", r"\| 7 \| NotInconsistent \|", "docs/use/errors.md"),
    ("what stands after a fault", r"\| `GatherFault` \|", "docs/dev/surface.md"),
    ("the variants", r"\| NoTies \|", "docs/dev/surface.md"),
    ("the hunt's drawing rule", r"w / 64 modulo 16", "docs/dev/surface.md"),
    ("the order of faults of a text", r"1 NoHeader, line 1", "docs/dev/texts.md"),
    ("the rules of an image", r"At most one process is \(0,k,1\)", "docs/dev/texts.md"),
    ("the lines of the Bakery", r"(?m)^    await c := choosing\[j\] until c = 0", "docs/use/tour.md"),
    ("what a stuck state is", r"bring each process to rest with all lock words 0", "docs/use/command-line.md"),
    ("the lines of a report", r"\| `begin P`, `ready P` \|", "docs/use/command-line.md"),
    ("the grammar of an algorithm", r'block    = \{ NAME ":" NL', "docs/use/algorithms.md"),
    ("what a seed finds", r"that of the first round, by number", "docs/use/command-line.md"),
    ("the crates", r"\| `redomail` \| The mailbox: a redo", ARCHITECTURE),
    ("the instructions of a lock", r"\| 64 \| 2,619 \|", "docs/dev/performance.md"),
    ("the shortest schedules of the variants", r"\| no-ties \| 2 \| lock, unlock", "bench/explore/README.md"),
    ("what the gate costs", r"47.6 minutes", "docs/dev/performance.md"),
    ("what an order of stores has to keep", r"`xchg`", "docs/theory/trust.md"),
    ("the signs of a drawing", r"`#` section, a space for dead", "docs/dev/texts.md"),
]

# ---- words

# Words that comments and pages don't use, and what to write.
WORDS = [
    (r"behind", "after"),
    (r"(?:stands?|stood|standing) for", "is, or means"),
    (r"told", "who answers, returns, writes or is notified"),
    (r"so many", "the number, or that many"),
    (r"(?:comes?|came|coming) on", "goes on, or progress"),
    (r"wants? of memory|memory (?:is|was) want(?:ed|ing)", "out of memory"),
    (r"clerks?", "reporter"),
    (r"hearings?", "running verdict"),
    (r"halts?", "the stop of a replay"),
    (r"errands?|chores?", "script state"),
    (r"happenings?", "event"),
    (r"story|stories", "execution"),
    (r"spots?", "process state"),
    (r"scenes?", "global state"),
    (r"walkers?", "port"),
    (r"runners?", "call driver"),
    (r"sights", "observer"),
    (r"routes?", "drawn moves"),
    (r"detours?", "variant state"),
    (r"topics?", "entry"),
    (r"calm", "that it never crashes"),
    (r"quiet(?:ly)?|unheard", "silent"),
    (r"sheets?|pens?", "layout, lifeline state"),
    (r"scarcity", "memory limit"),
    (r"(?:an?|its|the|each|every|whose|this|caller's|member's|seat's) pass(?:es)?", "view"),
]
# A blank of a phrase may be a line break.
GROUPS = "|".join(f"(?P<w{at}>{word})".replace(" ", r"\s+") for at, (word, _) in enumerate(WORDS))
REFUSED = re.compile(rf"\b(?:{GROUPS})\b", re.I)

# Where one of these words is right all the same: the file, the exact words, and why. One that nothing needs is a finding.
ALLOWED: list[tuple[str, str, str]] = []

# Names that were replaced, as types and modules. Found, Seat, Seen and Words have a second meaning that stays.
RETIRED_NAMES = (
    "Away Chore Clerk Court Detour Due Errand Far Ground Halt Happening Hearing Home Known LineFront Made Notes Owed Pass Pen "
    "Play Route Runner Scarce Scene Sheet Sights Spot Stand Story Topic Walker Why"
).split()
DECLARES = re.compile(rf"\b(?:struct|enum|trait|type|record|data|abbrev)\s+(?:pub\s+)?({'|'.join(RETIRED_NAMES)})\b")
RETIRED_CRATES = (
    "drawing fronts hunt_rows imaging laboratory lock_search lock_spaces meanings memory_rows order_rows orders plain_lab "
    "plain_rows plans process_words program_kit program_rows replay_rows row_kit scarcity schedule_commands search_rows "
    "shrinking table_calls table_walk text_rows trials world_rows"
).split()
NAMES_A_CRATE = re.compile(rf"`(?:crates/)?({'|'.join(RETIRED_CRATES)})(?:`|::|/)")

FENCE = re.compile(r"^```.*?^```$", re.M | re.S)
CODE = re.compile(r"`[^`\n]*`")
LINK = re.compile(r"\]\(([^)\s#]*)(?:#([^)\s]*))?\)")
MENTION = re.compile(r"\bdocs/[\w/-]+\.(?:md|1)\b|\bdocs/[\w/-]*\b(?:check|from-help)\b")


@functools.cache
def text_of(name):
    with open(os.path.join(TOP, name), encoding="utf-8") as file:
        return file.read()


@functools.cache
def repository_files():
    listed = subprocess.run(["git", "-C", TOP, "ls-files"], capture_output=True, text=True, check=True).stdout.split("\n")
    return [name for name in listed if name and os.path.isfile(os.path.join(TOP, name))]


def pages():
    return [name for name in repository_files() if name.endswith(".md")]


def sources(*ends):
    return [name for name in repository_files() if name.startswith("crates/") and name.endswith(ends)]


def crates():
    return re.findall(r"^(\w+)[ :]", text_of("crates.txt"), re.M)


def used_by_crates() -> dict[str, list[str]]:
    """Of each crate the crates that it uses, those of the kit too."""
    return {crate: used.split() for crate, used in re.findall(r"^(\w+)[^:\n]*:(.*)$", text_of("crates.txt"), re.M)}


def root_of(crate: str) -> str:
    """The root file of a crate."""
    library = f"crates/{crate}/src/lib.rt"
    return library if os.path.exists(os.path.join(TOP, library)) else f"crates/{crate}/src/main.rt"


def root_paragraphs(crate: str) -> list[str]:
    """The paragraphs of the comment at the head of a crate's root file."""
    said = re.match(r"(?://!.*\n)*", text_of(root_of(crate)))
    lines = [line[3:].strip() for line in said[0].splitlines()] if said else []
    return [" ".join(text.split()) for text in "\n".join(lines).split("\n\n")]


def is_made(name: str) -> bool:
    """Whether a script makes the whole of this page."""
    return name in MADE or re.fullmatch(r"crates/\w+/README\.md", name) is not None


def blanked(text, pattern):
    """The text with each match made blank, so that every line keeps its number."""
    return pattern.sub(lambda match: re.sub(r"[^\n]", " ", match[0]), text)


def line_at(text, at):
    return text.count("\n", 0, at) + 1


# A part of a page that a script makes.
MADE_PART = re.compile(r"<!-- made by .*?<!-- end of what is made -->", re.S)


def prose_of_page(text):
    """What a page says by hand: what is made is read where it is made from."""
    return blanked(blanked(blanked(text, MADE_PART), FENCE), CODE)


# A comment, a string, a raw string or a character of Rattle's sources.
RATTLE = re.compile(r"//[^\n]*|b?r(#*)\".*?\"\1|b?\"(?:\\.|[^\"\\])*\"|b?'(?:\\.[^']*|[^'\\])'", re.S)


# Strings are passed over, so that no mark in them begins a comment.
STRING = r"\"(?:\\.|[^\"\\\n])*\"|'(?:\\.|[^'\\\n])*'"
# What has prose, by the end of a file's name; a script of any name begins with `#!`.
COMMENTS = {
    ".rt": RATTLE,
    ".antt": re.compile(r"(?:^|(?<=\s))--(?=\s)[^\n]*"),
    ".c": re.compile(rf"{STRING}|/\*.*?\*/|//[^\n]*", re.S),
    ".py": re.compile(rf'""".*?"""|{STRING}|(?:^|(?<=\s))#[^\n]*', re.S | re.M),
}
KINDS = {".h": ".c", ".rs": ".c"}
BEGINS = ("//", "/*", "--", "#", '"""')
# The texts that programs print are strings. Those of the tests in Rattle are what is expected of them.
PRINTED = re.compile(r"c/|crates/(?!\w+_tests/|test_support/)\w+/src/(?!(?:.*/)?tests\b)")


def kind_of(name: str, text: str) -> str:
    end = os.path.splitext(name)[1]
    return KINDS.get(end, end) if end else ".py" if text.startswith("#!") else ""


def comments_of(name: str, text: str) -> str:
    """Only the comments, and the strings that programs print, everything else blank."""
    lines, at = [], 0
    for match in COMMENTS[kind_of(name, text)].finditer(text):
        if match[0].startswith(BEGINS) or (PRINTED.match(name) and '"' in match[0][:4]):
            lines.append(re.sub(r"[^\n]", " ", text[at : match.start()]))
            lines.append(re.sub(r"^(//[/!]?|--)", lambda mark: " " * len(mark[0]), match[0]))
            at = match.end()
    return "".join(lines + [re.sub(r"[^\n]", " ", text[at:])])


def refused_words() -> Iterator[str]:
    used = set()
    for name in repository_files():
        end = os.path.splitext(name)[1]
        if end not in ("", ".md", ".rt", ".antt", ".c", ".h", ".rs", ".py") or name == "docs/rules.py":
            continue
        text = text_of(name)
        if end != ".md" and kind_of(name, text) not in COMMENTS:
            continue
        prose = prose_of_page(text) if end == ".md" else blanked(comments_of(name, text), CODE)
        for file, words, _ in ALLOWED:
            if file == name and words in prose:
                used.add((file, words))
                prose = prose.replace(words, " " * len(words))
        for match in REFUSED.finditer(prose):
            said, instead = " ".join(match[0].split()), WORDS[int(match.lastgroup[1:])][1]
            yield f"{name}:{line_at(text, match.start())}: `{said}`: write {instead}"
    for file, words, _ in ALLOWED:
        if (file, words) not in used:
            yield f"docs/rules.py:{line_at(text_of('docs/rules.py'), text_of('docs/rules.py').index(words))}: nothing in {file} needs `{words}`"


def retired_names():
    for name in sources(".rt", ".antt"):
        stem = os.path.basename(name).rsplit(".", 1)[0].replace("_", "").lower()
        if stem in {retired.lower() for retired in RETIRED_NAMES}:
            yield f"{name}:1: the file has a retired name"
        text = text_of(name)
        for match in DECLARES.finditer(text):
            yield f"{name}:{line_at(text, match.start())}: {match[1]} is a retired name"
    for name in pages() + sources(".rt", ".antt"):
        text = text_of(name)
        for match in NAMES_A_CRATE.finditer(text):
            yield f"{name}:{line_at(text, match.start())}: {match[1]} is no crate any more"


# ---- sizes

# A clause: what a function or a closure requires or ensures. `ghost` members and `ghost use` lines are none: `rt fmt` lays
# each of them out on one line.
CLAUSE = re.compile(r"(?<![\w.])(requires|ensures)\b")
FUNCTION = re.compile(r"\bfn\s+(\w+)")


def closing(text, at):
    """The place after the brace that closes the one at this place."""
    depth = 0
    while at < len(text):
        depth += (text[at] == "{") - (text[at] == "}")
        at += 1
        if depth == 0:
            return at
    return at


def clause_end(code, at):
    """The place after the clause that begins here: after its braces, or after its semicolon."""
    brace = re.compile(r"[{;]").search(code, at)
    if not brace:
        return len(code)
    if brace[0] == ";":
        return brace.end()
    end = closing(code, brace.start())
    tail = re.compile(r"[ \t]*;").match(code, end)
    return tail.end() if tail else end


def body_of(code, at):
    """The place of the brace that opens the body of the function whose name ends here, or none."""
    depth = 0
    while at < len(code):
        clause = CLAUSE.match(code, at)
        if clause and depth == 0:
            at = clause_end(code, at)
            if code[at - 1] == ";":
                return None  # A method of a trait, without a body.
            continue
        depth += (code[at] in "([") - (code[at] in ")]")
        if depth == 0 and code[at] == ";":
            return None
        if depth == 0 and code[at] == "{":
            return at
        at += 1
    return None


@functools.cache
def code_of(text):
    """The text without comments, and with nothing in its strings and characters."""
    return blanked(text, RATTLE)


def lines_of_body(text, code, start):
    end = closing(code, start)
    body = code[start + 1 : end - 1]
    kept, at = [], 0
    while at < len(body):
        clause = CLAUSE.search(body, at)
        if not clause:
            break
        kept.append(body[at : clause.start()])
        past = clause_end(body, clause.start())
        kept.append(re.sub(r"[^\n]", " ", body[clause.start() : past]))
        at = past
    shown = "".join(kept) + body[at:]
    # A line that has only a string is a line of code; a comment is none.
    written = blanked(text, re.compile(r"//[^\n]*"))[start + 1 : end - 1].split("\n")
    return sum(1 for a, b in zip(shown.split("\n"), written) if a.strip() or re.fullmatch(r"\s*b?r?#*\".*", b))


def long_functions():
    for name in sources(".rt"):
        if "/src/" not in name:
            continue
        text = text_of(name)
        code = code_of(text)
        for function in FUNCTION.finditer(code):
            start = body_of(code, function.end())
            many = lines_of_body(text, code, start) if start is not None else 0
            if many > MOST_LINES_OF_A_BODY:
                yield f"{name}:{line_at(code, function.start())}: {function[1]} has {many} lines"


def wide_clauses():
    """Each line of a clause, in bytes: what `awk length` counts where it knows no UTF-8."""
    for name in sources(".rt"):
        text = text_of(name)
        code, wide = code_of(text), set()
        widths = [len(line.encode()) for line in text.split("\n")]
        for clause in CLAUSE.finditer(code):
            if code[code.rfind("\n", 0, clause.start()) + 1 : clause.start()].strip() in ("", "pub"):
                first, last = line_at(code, clause.start()), line_at(code, clause_end(code, clause.start()))
                wide |= {at for at in range(first, last + 1) if widths[at - 1] > WIDEST_CLAUSE}
        for at in sorted(wide):
            yield f"{name}:{at}: a clause of {widths[at - 1]} bytes"


SPEED = re.compile(r"\s*#\[(?:inline|cold)\b")
WHY_SPEED = re.compile(r"\s*// (?:Inline|Apart): \S")
# A value that is read for the proof alone.
NUDGE = re.compile(r"\s*let _\w* = (?:[&*]?[a-z_.]+|\([a-z_, ]+\)|[a-z_.]+\.(?:by|setup)\(\));$")
WHY_NUDGE = "// For the proof alone: its value is read."
# A default body that has no use for a parameter.
UNUSED = [("crates/rmeworld/src/machine.rt", "let _ = p;")]


def code_without_its_reason():
    """An `#[inline]` or `#[cold]` says what it saves, and a line that moves the prover alone says so."""
    for name in sources(".rt"):
        lines = text_of(name).split("\n")
        for at, line in enumerate(lines):
            above = at - 1
            if SPEED.match(line):
                while lines[above].strip().startswith("#["):
                    above -= 1
                if not WHY_SPEED.match(lines[above]):
                    yield f"{name}:{at + 1}: no comment `// Inline:` or `// Apart:` says what this saves"
            elif NUDGE.match(line) and (name, line.strip()) not in UNUSED:
                while NUDGE.match(lines[above]):
                    above -= 1
                if lines[above].strip() != WHY_NUDGE:
                    yield f"{name}:{at + 1}: no comment `{WHY_NUDGE}`"


def long_files():
    for name in sources(".rt", ".antt"):
        many = text_of(name).count("\n")
        if many > MOST_LINES_OF_A_FILE:
            yield f"{name}:{MOST_LINES_OF_A_FILE + 1}: the file has {many} lines"


# ---- pages


def table_after(text, heading):
    """The rows of the first table below this heading, each with its line."""
    at = re.search(rf"^#+ {heading}$", text, re.M)
    rows = []
    for number, line in enumerate(text.split("\n"), 1):
        if at and number > line_at(text, at.start()):
            if line.startswith("|"):
                rows.append((number, line))
            elif rows or line.startswith("#"):
                break
    return rows[2:]


def crates_listed():
    """At most so many crates; each in the one table of architecture.md; and no second list of them."""
    listed = crates()
    if len(listed) > MOST_CRATES:
        yield f"crates.txt:1: {len(listed)} crates, {MOST_CRATES} at most"
    rows = table_after(text_of(ARCHITECTURE), "The crates")
    known = [crate for _, row in rows for crate in re.findall(r"`(\w+)`", row.split("|")[1])]
    for crate in listed:
        if known.count(crate) != 1:
            yield f"{ARCHITECTURE}:1: `{crate}` is in {known.count(crate)} rows of the crates"
    for line, row in rows:
        for crate in re.findall(r"`(\w+)`", row.split("|")[1]):
            if crate not in listed:
                yield f"{ARCHITECTURE}:{line}: crates.txt has no `{crate}`"
    for page in pages():
        met = []
        for line, row in enumerate(blanked(text_of(page), MADE_PART).split("\n") + [""], 1):
            item = re.match(r"(?:\| |[-*] |\d+\. )`(\w+)`", row)
            if item and item[1] in set(listed) | set(known):
                met.append(line)
            elif not row.startswith(("|", "-", "*")):
                if len(met) > 5 and page != ARCHITECTURE:
                    yield f"{page}:{met[0]}: a second list of crates"
                met = []


def glossary_too_long():
    for heading, most in [("Glossary", MOST_NOUNS), ("Double names", MOST_DOUBLE_NAMES)]:
        rows = table_after(text_of(ARCHITECTURE), heading)
        if not rows or len(rows) > most:
            yield f"{ARCHITECTURE}:{rows[-1][0] if rows else 1}: {heading} has {len(rows)} rows, 1 to {most} are allowed"


def pages_by_hand() -> list[str]:
    return [page for page in pages() if not is_made(page)]


def too_many_words() -> Iterator[str]:
    """All pages by hand together, without the parts that a script makes."""
    words = {page: len(MADE_PART.sub("", text_of(page)).split()) for page in pages_by_hand()}
    if sum(words.values()) > MOST_WORDS:
        most = ", ".join(f"{page} {words[page]}" for page in sorted(words, key=lambda page: -words[page])[:5])
        yield f"docs/rules.py:1: the pages have {sum(words.values()):,} words by hand, {MOST_WORDS:,} at most; {most}"


def made_by_nothing() -> Iterator[str]:
    for name, maker in MADE.items():
        if not os.path.exists(os.path.join(TOP, name)):
            yield f"docs/rules.py:1: {maker} makes no {name}"


def named_and_not_here() -> Iterator[str]:
    """Pages speak of definitions, laws and pages by name: no specification is in the repository."""
    for page in pages():
        for at in re.finditer(r"\bthe specifications?\b", prose_of_page(text_of(page))):
            yield f"{page}:{line_at(text_of(page), at.start())}: `{at[0]}`: say what is meant"


def facts_in_another_place() -> Iterator[str]:
    for fact, words, home in ONE_PLACE:
        for page in pages_by_hand():
            at = re.search(words, text_of(page))
            if page == home and not at:
                yield f"{page}:1: {fact}: not here"
            elif page != home and at:
                yield f"{page}:{line_at(text_of(page), at.start())}: {fact}: its place is {home}"


def headline_repeated():
    found = [(page, line_at(text_of(page), at.start())) for page in pages_by_hand() for at in re.finditer(re.escape(HEADLINE), text_of(page))]
    for page, line in found[MOST_HEADLINES:]:
        yield f"{page}:{line}: the headline once more"
    if {page for page, _ in found} != {"README.md", THEOREM}:
        yield f"{THEOREM}:1: the headline belongs here and in README.md"


def unproved_said_elsewhere():
    """What is not proved has one page. Of the shim in C its own page says it, which no proof speaks of."""
    for page in pages():
        for heading in re.finditer(r"^#+ .*\b(?:not (?:claimed|proved)|only tested|trusted|neither a clause)\b.*$", text_of(page), re.M):
            if page not in (THEOREM, "docs/use/c.md"):
                yield f"{page}:{line_at(text_of(page), heading.start())}: what is not proved is said in {THEOREM}"


def anchors_of(text):
    found = set()
    for heading in re.findall(r"^#+ (.*)$", FENCE.sub("", text), re.M):
        shown = re.sub(r"\[([^]]*)\]\([^)]*\)", r"\1", heading)
        slug = re.sub(r"[^\w\- ]", "", shown.lower()).replace(" ", "-")
        found.add(slug)
    return found


def links_of(page: str) -> Iterator[tuple[str, str | None, int]]:
    """Of each link to a file or a folder: its path from the top, the part that it names, and its line."""
    text = text_of(page)
    for link in LINK.finditer(blanked(text, FENCE)):
        if "://" not in link[1]:
            target = os.path.normpath(os.path.join(os.path.dirname(page), link[1])) if link[1] else page
            yield target, link[2], line_at(text, link.start())


def links_that_lead_nowhere():
    for page in pages():
        for target, anchor, line in links_of(page):
            if not os.path.exists(os.path.join(TOP, target)):
                yield f"{page}:{line}: no file {target}"
            elif anchor and target.endswith(".md") and anchor not in anchors_of(text_of(target)):
                yield f"{page}:{line}: {target} has no part #{anchor}"


def released_files() -> list[str]:
    """What c/release packs: the library for C with its page, the examples, and whatever the pages among them lead to."""
    released: set[str] = set()
    new = {name for name in repository_files() if name.startswith(("c/", "examples/")) or name == "docs/use/c.md"}
    while new:
        released |= new
        led = {target for page in new if page.endswith(".md") for target, _, _ in links_of(page)}
        new = {name for name in repository_files() if name in led or any(name.startswith(f"{target}/") for target in led)} - released
    return sorted(released)


def mentions_of_no_page():
    """Paths of pages that sources, scripts and pages name."""
    for name in repository_files():
        if name.endswith((".svg", ".png", ".edit")) or name.startswith("wrong-bodies/"):
            continue
        text = text_of(name)
        for mention in MENTION.finditer(text):
            if not os.path.exists(os.path.join(TOP, mention[0])):
                yield f"{name}:{line_at(text, mention.start())}: no page {mention[0]}"


def algorithms_that_differ():
    """The texts of examples/algorithms are those that the tests read."""
    tests = "".join(text_of(name) for name in sources(".rt") if name.startswith("crates/algorithms_tests/src/texts/"))
    for name in repository_files():
        if name.startswith("examples/algorithms/") and name.endswith(".lock"):
            constant = os.path.basename(name).removesuffix(".lock").replace("-", "_").upper()
            written = re.search(rf'pub const {constant}: &\[u8\] =\s+br"([^"]*)";', tests)
            if not written or written[1] != text_of(name):
                yield f"{name}:1: not the text {constant} of crates/algorithms_tests"


RULES = [
    refused_words,
    retired_names,
    long_functions,
    wide_clauses,
    code_without_its_reason,
    long_files,
    crates_listed,
    glossary_too_long,
    headline_repeated,
    too_many_words,
    made_by_nothing,
    facts_in_another_place,
    named_and_not_here,
    unproved_said_elsewhere,
    links_that_lead_nowhere,
    mentions_of_no_page,
    algorithms_that_differ,
]


def findings():
    for rule in RULES:
        yield from rule()
