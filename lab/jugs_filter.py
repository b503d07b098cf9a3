#!/usr/bin/python3 -IS
"""A small program for the tests of the drivers, with the tools of `rmelab states`: a jug of 3 litres and one of 5. What goes wrong is
to have WANTED litres in the big one. At home both are empty; a big jug that falls over, and is empty then, is a crash. With --heavy
nobody lifts the big jug while it is full.

jugs_filter.py states TOOL --wanted WANTED [--heavy] [--part I] [--parts P]
"""

import argparse
import hashlib
import sys
from typing import Iterator

WIDTH = 2  # Characters of a state: one for each jug.
State = tuple[int, int]


def refuse(line: int, fault: int) -> None:
    print(f"rmelab: states line {line}: fault {fault}", file=sys.stderr)
    sys.exit(2)


def to_line(state: State) -> str:
    return chr(48 + state[0]) + chr(48 + state[1])


def from_line(line: str, number: int) -> State:
    small, big = (ord(character) - 48 for character in line) if len(line) == WIDTH else (64, 64)
    if not (0 <= small <= 3 and 0 <= big <= 5):
        refuse(number, 2)
    return small, big


def moves_of(state: State) -> Iterator[tuple[str, State]]:
    """The moves of a state in their order, with the state after each."""
    small, big = state
    into_big, into_small = min(small, 5 - big), min(big, 3 - small)
    yield "fill small", (3, big)
    yield "fill big", (small, 5)
    yield "empty small", (0, big)
    yield "empty big", (small, 0)
    yield "small to big", (small - into_big, big + into_big)
    yield "big to small", (small + into_small, big - into_small)


class Jugs:
    """The jugs that are not to have that many litres, and what is read and written of their states."""

    def __init__(self, given: argparse.Namespace) -> None:
        self.given = given
        self.header = f"!states 1 words 1 digits 1 of jugs wanted {given.wanted}{' heavy' if given.heavy else ''}"

    def sets(self) -> list[list[State]]:
        """The sets that are read, each after a header."""
        sets: list[list[State]] = []
        for number, line in enumerate(sys.stdin.read().splitlines(), 1):
            if line.startswith("!") or not sets:
                if line != self.header:
                    refuse(number, 1)
                sets.append([])
            else:
                sets[-1].append(from_line(line, number))
        return sets

    def is_wrong(self, state: State) -> bool:
        return state[1] == self.given.wanted

    def first(self) -> int:
        print(self.header, to_line((0, 0)), sep="\n")
        return 0

    def expand(self) -> int:
        (states,) = self.sets()
        print(self.header)
        for state in states:
            for _, after in moves_of(state):
                print("#" + to_line(state) if self.is_wrong(after) else to_line(after))
        return 0

    def lead(self) -> int:
        targets, states = self.sets()
        print(self.header)
        for state in states:
            if any(after in targets and not self.is_wrong(after) for _, after in moves_of(state)):
                print(to_line(state))
        return 0

    def homeward(self, state: State) -> Iterator[State]:
        """Where the moves lead that a way home may make."""
        for name, after in moves_of(state):
            is_lifted = self.given.heavy and name == "big to small" and state[1] == 5
            if name != "empty big" and not is_lifted and not self.is_wrong(after):
                yield after

    def home(self) -> int:
        targets, states = self.sets()
        print(self.header)
        for state in states:
            if state == (0, 0) or any(after in targets for after in self.homeward(state)):
                print(to_line(state))
        return 0

    def is_of_part(self, state: State) -> bool:
        return state[0] % self.given.parts == self.given.part

    def verdict(self, states: list[State]) -> str | None:
        """Why a set of states is not closed, as far as the part goes. None where it is."""
        known = set(states)
        for number, state in enumerate(states, 1):
            if any(self.is_wrong(after) for _, after in moves_of(state)):
                return f"state {number} goes wrong"
        if self.is_of_part((0, 0)) and (0, 0) not in known:
            return "the first state is not in the set"
        for number, state in enumerate(states, 1):
            if any(self.is_of_part(after) and after not in known for _, after in moves_of(state)):
                return f"state {number} leads out of it"
        return None

    def check(self) -> int:
        text = sys.stdin.read()
        header, *lines = text.splitlines() or [""]
        if header != self.header:
            refuse(1, 1)
        states = [from_line(line, number) for number, line in enumerate(lines, 2)]
        open_at = self.verdict(states)
        if open_at is not None:
            print(f"open: {open_at}")
            return 1
        digest = hashlib.sha256(text.encode()).hexdigest()
        print(f"closed: {len(states)} states, part {self.given.part} of {self.given.parts}, sha256 {digest}")
        return 0

    def walk(self) -> int:
        state = (0, 0)
        for targets in self.sets():
            name, state = next((name, after) for name, after in moves_of(state) if after in targets and not self.is_wrong(after))
            print(name)
        print(next(name for name, after in moves_of(state) if self.is_wrong(after)))
        return 1


def main(words: list[str]) -> int:
    parser = argparse.ArgumentParser()
    parser.add_argument("states", choices=["states"])
    parser.add_argument("tool", choices=["first", "expand", "lead", "home", "check", "walk"])
    parser.add_argument("--wanted", type=int, required=True)
    parser.add_argument("--heavy", action="store_true")
    parser.add_argument("--part", type=int, default=0)
    parser.add_argument("--parts", type=int, default=1)
    given = parser.parse_intermixed_args(words)
    return int(getattr(Jugs(given), given.tool)())


if __name__ == "__main__":
    sys.exit(main(sys.argv[1:]))
