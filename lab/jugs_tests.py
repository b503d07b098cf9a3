"""What tests of the drivers share: states of two jugs, and searches of them in a folder of the test's own."""

import contextlib
import io
import os
import shutil
import signal
import subprocess
import tempfile
import unittest
from collections.abc import Callable, Iterable, Iterator
from typing import Any
from unittest import mock

import state_filter
from search_folder import Entry, Folder, Ledger
from state_filter import Ended, pack, unpack

HERE = os.path.dirname(os.path.abspath(__file__))
FILTER = os.path.join(HERE, "jugs_filter.py")
STATES = 16  # Of two jugs of 3 and 5 litres one is empty or full: 2 * 4 + 2 * 6 - 4.
ALL = (0, f"nothing found: all {STATES} states\n")
FOUR_LITRES = "fill big\nbig to small\nempty small\nbig to small\nfill big\nbig to small\n"
Main = Callable[[list[str]], int]


class JugsTest(unittest.TestCase):
    # The driver that is tested: its main function, and what has its certificate.
    main: Main
    kind: type

    def setUp(self) -> None:
        self.folder = tempfile.mkdtemp()
        self.addCleanup(shutil.rmtree, self.folder)

    def at(self, name: str) -> str:
        return os.path.join(self.folder, name)

    def text(self, name: str) -> bytes:
        return unpack(Folder(self.folder).read(name))

    def change(self, name: str, old: bytes, new: bytes) -> None:
        """Changes a line of a file."""
        text = self.text(name)
        self.assertIn(old, text)
        Folder(self.folder).write(name, [pack(text.replace(old, new, 1))])

    def printed(self, main: Main, *options: str, words: Iterable[str] = ("9",), folder: str | None = None) -> tuple[int, str, str]:
        """The exit status, and what is printed."""
        out, err = io.StringIO(), io.StringIO()
        with contextlib.redirect_stdout(out), contextlib.redirect_stderr(err):
            status = main(["--rmelab", FILTER, "--folder", folder or self.folder, *options, "--", "--wanted", *words])
        return status, out.getvalue(), err.getvalue()

    def fails(self, reason: str, *options: str, status: int = 3) -> None:
        found, out, err = self.printed(type(self).main, *options)
        self.assertEqual((found, out), (status, ""))
        self.assertIn(reason, err)

    def stop_at(self, entries: int, folder: str | None = None) -> None:
        """The driver is stopped before its ledger has more entries than that."""
        note = Ledger.note

        def stopped(ledger: Ledger, entry: Entry) -> None:
            if len(ledger.entries) == entries:
                raise Ended("stopped")
            note(ledger, entry)

        with mock.patch.object(Ledger, "note", stopped):
            self.assertEqual(self.printed(type(self).main, folder=folder)[:2], (3, ""))

    def refuses(self, spoil: Callable[[Any], object], reason: str, *options: str) -> None:
        """Something in the folder that is spoiled before the certificate is found out by it."""
        certify = self.kind.certify

        def certifies(driver: object) -> None:
            spoil(driver)
            certify(driver)

        with mock.patch.object(self.kind, "certify", certifies):
            self.fails(reason, *options)
        self.renew()

    def renew(self) -> None:
        shutil.rmtree(self.folder)
        os.makedirs(self.folder)

    @contextlib.contextmanager
    def killed(self, tool: str, which: int) -> Iterator[None]:
        """One of the filter's runs by this tool is killed."""
        run, runs = subprocess.Popen, 0

        def dies(command: list[str], **named: object) -> subprocess.Popen[bytes]:
            nonlocal runs
            process = run(command, **named)  # type: ignore[call-overload]
            runs += command[2] == tool
            if command[2] == tool and runs == which:
                process.send_signal(signal.SIGKILL)
            return process

        with mock.patch.object(state_filter.subprocess, "Popen", dies):
            yield

    def check_damage(self, *names: str) -> None:
        """Each of these files is found out where it is not the one that was written."""
        folder = Folder(self.folder)
        for name in names:
            packed = folder.read(name)
            for spoiled in (packed[:-5], packed[:-1] + bytes([packed[-1] ^ 1]), b""):
                folder.write(name, [spoiled])
                self.fails(f"{name} is not the file that was written")
            os.remove(self.at(name))
            self.fails("No such file")
            folder.write(name, [packed])
