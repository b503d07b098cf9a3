"""The states of a search as lines of texts, by `rmelab states`: its commands, and what it says of a closed set. Texts are kept small by
zstd where python3-zstandard is there, else by gzip."""

import dataclasses
import gzip
import io
import os
import re
import subprocess
import zlib
from collections.abc import Iterable
from concurrent.futures import ThreadPoolExecutor
from typing import IO

try:
    import zstandard
except ImportError:
    zstandard = None  # type: ignore[assignment]

FOUND, REFUSED, FAILED = 1, 2, 3
CLOSED = re.compile(r"closed: (\d+) states, part (\d+) of (\d+), sha256 ([0-9a-f]{64})\n")
SUFFIX = ".zst" if zstandard else ".gz"
# What a damaged packed text raises.
DAMAGES: tuple[type[Exception], ...] = (EOFError, zlib.error, gzip.BadGzipFile, *([zstandard.ZstdError] if zstandard else []))
# This many bytes of a text are read at a time.
PIECE = 1 << 20


class Ended(Exception):
    """A search that ends without an answer: why, and with which exit status."""

    def __init__(self, reason: str, status: int = FAILED) -> None:
        super().__init__(reason, status)
        self.status = status

    def __str__(self) -> str:
        return str(self.args[0])


def pack(text: bytes | memoryview, level: int = 1) -> bytes:
    """A text made small, by zstd at this level. One after the other these are a file that zstd, or gzip, knows."""
    if not text:
        return b""
    if zstandard:
        return zstandard.ZstdCompressor(level=level, write_checksum=True).compress(text)
    return gzip.compress(text, 1)


def unpacked(file: IO[bytes]) -> io.BufferedIOBase:
    """The text of a file of packed ones."""
    if zstandard:
        reader = zstandard.ZstdDecompressor().stream_reader(file, read_across_frames=True)
        return io.BufferedReader(reader, PIECE)  # type: ignore[arg-type]
    return gzip.GzipFile(fileobj=file)


def unpack(packed: bytes) -> bytes:
    return unpacked(io.BytesIO(packed)).read()


def in_order(lines: bytes) -> bytes:
    """These lines in the order of their text, by which `rmelab states lead` finds one soon."""
    return b"".join(sorted(lines.splitlines(keepends=True)))


def with_whole_paths(words: list[str]) -> tuple[str, ...]:
    """The words of a search, with the whole path of an algorithm's file."""
    whole = list(words)
    for at, word in enumerate(words[:-1]):
        if word == "--algorithm":
            whole[at + 1] = os.path.abspath(words[at + 1])
    return tuple(whole)


def feed(pipe: IO[bytes], pieces: Iterable[bytes]) -> None:
    try:
        with pipe:
            for piece in pieces:
                pipe.write(piece)
    except BrokenPipeError:
        pass  # The program ended before: its status says why.


@dataclasses.dataclass(frozen=True)
class StateFilter:
    """The program, and the words of the search whose states it knows."""

    program: str
    words: tuple[str, ...]

    @staticmethod
    def from_words(program: str, words: list[str]) -> "StateFilter":
        """The same in any folder: a program that is named by a path, and the file of an algorithm, are named by their whole paths."""
        return StateFilter(os.path.abspath(program) if os.sep in program else program, with_whole_paths(words))

    def run(self, tool: str, pieces: Iterable[bytes], *more: str, allowed: tuple[int, ...] = (0,)) -> bytes:
        """Runs a tool over a text that comes in pieces, and answers what it prints."""
        command = [self.program, "states", tool, *self.words, *more]
        pipe = subprocess.PIPE
        with ThreadPoolExecutor(2) as pool, subprocess.Popen(command, stdin=pipe, stdout=pipe, stderr=pipe) as process:
            assert process.stdin and process.stdout and process.stderr
            fed = pool.submit(feed, process.stdin, pieces)
            said = pool.submit(process.stderr.read)
            printed = process.stdout.read()
            fed.result()
            reason = said.result().decode().strip()
        if process.returncode not in allowed:
            raise Ended(f"status {process.returncode} of {tool}: {reason}")
        return printed

    def first(self) -> tuple[bytes, bytes]:
        """The header and the line of the first state."""
        done = subprocess.run([self.program, "states", "first", *self.words], capture_output=True)
        if done.returncode:
            raise Ended(done.stderr.decode().strip(), REFUSED)
        header, line = done.stdout.splitlines(keepends=True)
        return header, line

    def check(self, part: int, parts: int, pieces: Iterable[bytes]) -> str:
        """What the program says of one part of all states."""
        return self.run("check", pieces, "--part", str(part), "--parts", str(parts), allowed=(0, 1)).decode()

    def expand(self, header: bytes, lines: bytes) -> tuple[bytes | memoryview, set[bytes]]:
        """The successors of some states, and those states with a move that goes wrong."""
        printed = self.run("expand", [header, lines])
        if not printed.startswith(header):
            raise Ended("the successors are of another search")
        if printed.find(b"#", len(header)) < 0:
            return memoryview(printed)[len(header) :], set()
        successors = printed[len(header) :].splitlines(keepends=True)
        wrong = {line[1:] for line in successors if line.startswith(b"#")}
        return b"".join(line for line in successors if not line.startswith(b"#")), wrong


def states_of(said: str, part: int, parts: int) -> tuple[int, str]:
    """The number of states of a set that is closed as far as this part goes, and the digest of its text."""
    found = CLOSED.fullmatch(said)
    if found is None or (int(found[2]), int(found[3])) != (part, parts):
        raise Ended(f"the certificate is refused: {said.strip()}")
    return int(found[1]), found[4]


def check_answers(answers: list[tuple[int, str]], total: int) -> None:
    """The parts of a certificate are of one set, which has this many states."""
    if len(set(answers)) != 1:
        raise Ended("the parts of the certificate are of different sets")
    if answers[0][0] != total:
        raise Ended(f"the certificate is of {answers[0][0]} states, not {total}")
