#!/usr/bin/env python3
"""Tests of the module rme_log: senders that are killed, readers that are overtaken, generators that sleep."""

import errno
import os
import select
import signal
import subprocess
import sys
import tempfile
import time
import unittest

import rme_log

SENDER = """
import os, signal, sys, time, rme_log
folder, index, count, pause = sys.argv[1], int(sys.argv[2]), int(sys.argv[3]), float(sys.argv[4])
with rme_log.Log(folder, index) as log:
    for number in range(log.next(), count + 1):
        time.sleep(pause)
        log.append(number, 10 * number, index)
"""


def start(folder, index, count, pause=0.0):
    return subprocess.Popen([sys.executable, "-c", SENDER, folder, str(index), str(count), str(pause)])


class LogTest(unittest.TestCase):
    def setUp(self):
        self.room = tempfile.TemporaryDirectory()
        self.folder = os.path.join(self.room.name, "log")
        rme_log.create(self.folder, procs=2, cap=3, width=2)

    def tearDown(self):
        self.room.cleanup()

    def refused(self, number, call, *arguments):
        with self.assertRaises(OSError) as caught:
            call(*arguments)
        self.assertEqual(caught.exception.errno, number)

    def send(self, count):
        with rme_log.Log(self.folder, 0) as log:
            for number in range(log.next(), count + 1):
                self.assertTrue(log.append(number, 10 * number, 0))

    def test_a_message_is_stored_once(self):
        with rme_log.Log(self.folder, 0) as log:
            self.assertEqual(log.next(), 1)
            for number in range(1, 9):
                self.assertTrue(log.append(number, number, number))
                self.assertFalse(log.append(number, number, number))
            self.refused(errno.EINVAL, log.append, 10, 1, 1)
            self.assertRaises(ValueError, log.append, 9, 1)
            self.refused(errno.EBUSY, rme_log.Log, self.folder, 0)
        self.assertEqual(rme_log.status(self.folder).numbers, (8, 0))
        self.refused(errno.EEXIST, rme_log.create, self.folder, 2, 3)

    def test_a_killed_sender_goes_on(self):
        sender = start(self.folder, 1, 1000, 0.002)
        with rme_log.Reader(self.folder) as reader:
            for message in reader.follow(10):
                if message.number == 20:
                    break
            sender.kill()
            sender.wait()
            self.assertEqual(start(self.folder, 1, 40).wait(), 0)
            reader.seek()
            self.assertEqual([m.number for m in reader], list(range(1, rme_log.status(self.folder).messages + 1)))

    def test_a_named_reader_begins_where_it_was(self):
        self.send(8)
        with rme_log.Reader(self.folder, "audit") as reader:
            self.refused(errno.EBUSY, rme_log.Reader, self.folder, "audit")
            for message in reader:
                if message.number == 5:
                    reader.keep()
            self.assertEqual(message[:4], (3, 1, 0, 8))
            self.assertEqual(message.value, (80, 0))
        with rme_log.Reader(self.folder, "audit") as reader:
            self.assertEqual([m.number for m in reader], [6, 7, 8])
        self.assertEqual([(r.name, r.unread, r.alive) for r in rme_log.readers(self.folder)], [("audit", 3, False)])
        self.assertEqual(rme_log.drop(self.folder), 2)
        rme_log.forget(self.folder, "audit")
        self.assertEqual(rme_log.drop(self.folder), 3)
        self.assertEqual(rme_log.readers(self.folder), [])

    def test_one_that_was_overtaken_is_told(self):
        self.send(8)
        with rme_log.Reader(self.folder) as reader:
            self.assertEqual(rme_log.drop(self.folder, 3), 3)
            self.refused(errno.ENODATA, reader.read)
            reader.seek()
            self.assertEqual([m.number for m in reader], [7, 8])
            self.refused(errno.EINVAL, reader.keep)

    def test_a_generator_sleeps(self):
        with rme_log.Reader(self.folder) as reader:
            began = time.monotonic()
            self.assertEqual(list(reader.follow(0.05)), [])
            self.assertGreaterEqual(time.monotonic() - began, 0.05)
            sender = start(self.folder, 0, 10, 0.02)
            self.assertEqual([m.number for m in reader.follow(3)], list(range(1, 11)))
            self.assertEqual(sender.wait(), 0)

    def test_ctrl_c_ends_a_wait(self):
        signal.signal(signal.SIGALRM, signal.default_int_handler)
        signal.setitimer(signal.ITIMER_REAL, 0.05)
        with rme_log.Reader(self.folder) as reader, self.assertRaises(KeyboardInterrupt):
            next(reader.follow())

    def test_events(self):
        with rme_log.Reader(self.folder) as reader:
            event = reader.event()
            self.assertEqual(select.select([event], [], [], 0.2)[0], [])
            self.send(4)
            self.assertEqual(select.select([event], [], [], 5)[0], [event])
            os.read(event, 8)
            self.assertEqual(len(list(reader)), 4)


if __name__ == "__main__":
    unittest.main()
