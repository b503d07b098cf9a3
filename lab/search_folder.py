"""What explore_sorted.py and rank_states.py share: their options, the folder of a search with its ledgers, and the certificate."""

import argparse
import dataclasses
import hashlib
import json
import os
import sys
from collections import deque
from collections.abc import Callable, Iterable, Iterator
from concurrent.futures import Future, ThreadPoolExecutor
from typing import TypeVar

from state_filter import DAMAGES, FAILED, Ended, StateFilter, check_answers, states_of, unpacked

Given = TypeVar("Given")
Answer = TypeVar("Answer")


@dataclasses.dataclass(frozen=True)
class Entry:
    """What a ledger has of a level, or of a rank: how many states, and the digest of its file."""

    states: int
    sha256: str


@dataclasses.dataclass(frozen=True)
class Options:
    """What the command line says."""

    states: StateFilter
    folder: str
    parallel: int
    parts: int
    salt: int


def read_options(arguments: list[str], description: str) -> Options:
    parser = argparse.ArgumentParser(description=description)
    parser.add_argument("--rmelab", default="rmelab", help="the program that knows the states")
    parser.add_argument("--folder", required=True, help="where the search keeps its states")
    parser.add_argument("--parallel", type=int, default=1, help="blocks that are tried, and parts that are checked, side by side")
    parser.add_argument("--parts", type=int, default=1, help="parts of the certificate: one keeps a part of the states in memory")
    parser.add_argument("--salt", type=int, default=0, help="a number by which fingerprints differ")
    parser.add_argument("words", nargs="*", help="the words of `rmelab states`, without its tool")
    given = parser.parse_args(arguments)
    if given.parallel < 1 or given.parts < 1 or given.salt < 0:
        parser.error("--parallel and --parts are at least 1, --salt at least 0")
    return Options(StateFilter.from_words(given.rmelab, given.words), given.folder, given.parallel, given.parts, given.salt)


class Folder:
    """The folder of a search. A file in it is whole, or not there."""

    def __init__(self, path: str) -> None:
        self.path = os.path.abspath(path)
        os.makedirs(self.path, exist_ok=True)

    def at(self, name: str) -> str:
        return os.path.join(self.path, name)

    def has(self, name: str) -> bool:
        return os.path.exists(self.at(name))

    def read(self, name: str) -> bytes:
        with open(self.at(name), "rb") as file:
            return file.read()

    def write(self, name: str, pieces: Iterable[bytes]) -> str:
        """Writes a file, and answers the digest of what was written. It has its name once the disk has all of it."""
        digest = hashlib.sha256()
        with open(self.at(name + ".part"), "wb") as file:
            for piece in pieces:
                digest.update(piece)
                file.write(piece)
            file.flush()
            os.fsync(file.fileno())
        os.rename(self.at(name + ".part"), self.at(name))
        folder = os.open(self.path, os.O_RDONLY)
        os.fsync(folder)
        os.close(folder)
        return digest.hexdigest()

    def demand(self, name: str, sha256: str) -> None:
        """Refuses a file that has not this digest."""
        with open(self.at(name), "rb") as file:
            if hashlib.file_digest(file, "sha256").hexdigest() != sha256:
                raise Ended(f"{name} is not the file that was written")

    def lines(self, name: str, size: int) -> Iterator[bytes]:
        """The text of a packed file, by that many bytes."""
        try:
            with open(self.at(name), "rb") as file, unpacked(file) as text:
                while piece := text.read(size):
                    yield piece
        except DAMAGES as damage:
            raise Ended(f"{name} is damaged: {damage}") from None


class Ledger:
    """The levels of a search, or the ranks of its states, that are done."""

    def __init__(self, folder: Folder, name: str) -> None:
        self.folder = folder
        self.name = name
        self.entries: list[Entry] = []

    def read(self) -> None:
        """Reads what is done. A last line that was cut off counts for nothing."""
        if self.folder.has(self.name):
            lines = self.folder.read(self.name).decode().splitlines(keepends=True)
            self.entries = [Entry(**json.loads(line)) for line in lines if line.endswith("\n")]

    def note(self, entry: Entry) -> None:
        """A level, or a rank, is done once the ledger has its line."""
        lines = [json.dumps(dataclasses.asdict(one)) + "\n" for one in (*self.entries, entry)]
        self.folder.write(self.name, ["".join(lines).encode()])
        self.entries.append(entry)

    def total(self) -> int:
        return sum(entry.states for entry in self.entries)


def in_turn(pool: ThreadPoolExecutor, task: Callable[[Given], Answer], given: Iterable[Given], ahead: int) -> Iterator[Answer]:
    """What a task answers to each that is given, in their order. That many more are under way, so that memory is bounded."""
    waiting: deque[Future[Answer]] = deque()
    for one in given:
        waiting.append(pool.submit(task, one))
        if len(waiting) > ahead:
            yield waiting.popleft().result()
    while waiting:
        yield waiting.popleft().result()


def gathered(several: Iterable[Given], size_of: Callable[[Given], int], least: int) -> Iterator[list[Given]]:
    """Neighbours together, of this size at least but for the last."""
    together: list[Given] = []
    size = 0
    for one in several:
        together.append(one)
        size += size_of(one)
        if size >= least:
            yield together
            together, size = [], 0
    if together:
        yield together


class Certificate:
    """The certificate that a set is closed: the program itself looks through all states. It trusts none of what was done before, but
    for what the program has said of a part of just this text."""

    def __init__(self, options: Options, folder: Folder, name: str, lines: Callable[[], Iterable[bytes]]) -> None:
        self.options = options
        self.folder = folder
        self.name = name
        self.lines = lines

    def check(self, total: int) -> str:
        """Checks that all parts are of one set, which has this many states. Answers the digest of its text. The last part is checked
        anew, so that the text is known."""
        parts = self.options.parts
        kept = [part for part in range(parts - 1) if self.folder.has(self.kept_as(part))]
        answers = {part: states_of(self.folder.read(self.kept_as(part)).decode(), part, parts) for part in kept}
        with ThreadPoolExecutor(self.options.parallel) as pool:
            anew = [part for part in range(parts) if part not in answers]
            answers.update(zip(anew, pool.map(self.check_part, anew)))
            other = [part for part in kept if answers[part] != answers[parts - 1]]
            answers.update(zip(other, pool.map(self.check_part, other)))
        check_answers(list(answers.values()), total)
        return answers[parts - 1][1]

    def kept_as(self, part: int) -> str:
        return f"{self.name}.{part}.{self.options.parts}"

    def check_part(self, part: int) -> tuple[int, str]:
        """Checks one part of the states. Answers the number of all, and the digest of their text. What is said is kept."""
        said = self.options.states.check(part, self.options.parts, self.lines())
        answer = states_of(said, part, self.options.parts)
        self.folder.write(self.kept_as(part), [said.encode()])
        print(said, end="", file=sys.stderr, flush=True)
        return answer


def status_of(run: Callable[[], int]) -> int:
    """The exit status of a driver. What ends it without an answer goes to standard error."""
    try:
        return run()
    except Ended as ended:
        print(ended, file=sys.stderr)
        return ended.status
    except MemoryError:
        print("out of memory", file=sys.stderr)
        return FAILED
    except OSError as error:
        print(f"a device failed: {error}", file=sys.stderr)
        return FAILED
