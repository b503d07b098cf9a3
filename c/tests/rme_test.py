"""Tests of rme.py, with processes that are killed: python3 c/tests/rme_test.py, where PYTHONPATH names the folder of rme.py."""

import os
import signal
import tempfile
import threading
import time
import unittest

import rme

KILLED_EACH = 10


def forked(run):
    """Answers the number of a child that does this, and then ends."""
    child = os.fork()
    if child == 0:
        try:
            run()
        finally:
            os._exit(1)
    return child


def killed():
    os.kill(os.getpid(), signal.SIGKILL)


class Box(unittest.TestCase):
    """Each test has a file for three processes, four messages of two words, and 16 bytes of data."""

    def setUp(self):
        self.folder = tempfile.TemporaryDirectory()
        self.addCleanup(self.folder.cleanup)
        self.path = os.path.join(self.folder.name, "box")
        rme.create(self.path, procs=3, cap=4, width=2, data_bytes=16)

    def die_inside(self, index, work=lambda inside: None):
        def run():
            seat = rme.Seat(self.path, index)
            work(seat.lock())
            killed()

        _, status = os.waitpid(forked(run), 0)
        self.assertEqual(os.WTERMSIG(status), signal.SIGKILL)

    def refused(self, number, call, *arguments):
        with self.assertRaises(OSError) as caught:
            call(*arguments)
        self.assertEqual(os.strerror(caught.exception.errno), os.strerror(number))

    def test_refusals(self):
        with self.assertRaises(FileExistsError):
            rme.create(self.path, 3, 4)
        self.refused(22, rme.create, self.path + "65", 65, 4)
        self.refused(22, rme.Seat, self.path, 3)
        with rme.Seat(self.path, 0) as seat:
            self.refused(16, rme.Seat, self.path, 0)
            self.refused(22, seat.withdraw)
            with seat.lock() as inside:
                self.assertFalse(inside.owner_died)
                self.refused(35, seat.lock)
                self.refused(22, inside.append, 2, 1, 1)
                self.refused(22, inside.get, 4)
                self.refused(22, inside.mended)
                with self.assertRaises(ValueError):
                    inside.append(1, 7)
                with self.assertRaises(IndexError):
                    inside.write(15, b"ab")
        self.refused(22, seat.lock)
        self.assertEqual(seat.messages(), [])

    def test_messages(self):
        with rme.Seat(self.path, 1) as seat:
            with seat.lock() as inside:
                self.assertTrue(inside.append(1, 5, 6))
                self.assertFalse(inside.append(1, 7, 8))
                self.assertTrue(inside.append(2, 7, 8))
                inside.put(3, 9)
                self.assertEqual(inside.get(3), 9)
                self.assertTrue(inside.close_mailbox())
                self.assertFalse(inside.close_mailbox())
                self.refused(32, inside.append, 3, 1, 1)
            self.assertEqual(seat.messages(), [rme.Message(0, 1, 1, (5, 6)), rme.Message(1, 1, 2, (7, 8))])
            self.assertEqual(seat.messages(1), [rme.Message(1, 1, 2, (7, 8))])
        status = rme.inspect(self.path).file_status()
        self.assertEqual((status.procs, status.cap, status.width, status.data_bytes), (3, 4, 2, 16))
        self.assertEqual((status.count, status.closed, status.ruined), (2, True, False))

    def test_more_messages_than_are_read_at_once(self):
        path = self.path + "-long"
        rme.create(path, 1, 600)
        with rme.Seat(path, 0) as seat, seat.lock() as inside:
            for number in range(1, 601):
                inside.append(number, 3 * number)
            self.assertEqual([m.value for m in seat.messages()], [(3 * n,) for n in range(1, 601)])

    def test_time_out(self):
        with rme.Seat(self.path, 0) as first, rme.Seat(self.path, 1) as second:
            with first.lock():
                with self.assertRaises(TimeoutError):
                    second.lock(3)
                self.assertEqual(second.blocker(), (0, True))
                self.refused(16, second.recover)
                second.withdraw()
            second.lock(3).unlock()

    def test_started_again(self):
        self.die_inside(0)
        look = rme.inspect(self.path)
        status = look.index_status(0)
        self.assertEqual((status.life, status.found), (rme.Life.DEAD, rme.Found.INSIDE))
        with rme.Seat(self.path, 0) as seat:
            self.assertTrue(seat.crashed)
            with seat.lock() as inside:
                self.assertTrue(inside.owner_died)
                self.refused(130, inside.append, 1, 1, 1)
                inside.mended()
                self.assertTrue(inside.append(1, 1, 1))
        self.assertEqual(look.index_status(0).life, rme.Life.ABSENT)

    def test_recover(self):
        with rme.Seat(self.path, 0) as seat:
            self.assertEqual(seat.recover(), (rme.Found.IDLE, None))
        self.die_inside(0)
        with rme.Seat(self.path, 0) as seat:
            found, inside = seat.recover()
            self.assertEqual(found, rme.Found.INSIDE)
            with inside:
                inside.mended()

    def test_not_mended(self):
        self.die_inside(0)
        with rme.Seat(self.path, 0) as seat:
            seat.lock().unlock()
        with rme.Seat(self.path, 1) as seat:
            self.refused(131, seat.lock)

    def test_reaped(self):
        self.die_inside(0, lambda inside: inside.write(3, b"half"))
        seen = []

        def repair(index, data):
            seen.append((index, bytes(data[:8])))
            data[:8] = b"repaired"
            seen.append(data)

        with rme.Seat(self.path, 1) as seat, seat.lock_reaping(3, repair) as inside:
            self.assertFalse(inside.owner_died)
            self.assertEqual((seen[0], seat.data(0, 8)), ((0, b"\0\0\0half\0"), b"repaired"))
            with self.assertRaises(ValueError):
                seen[1][0] = 1
        with rme.Seat(self.path, 0) as seat:
            self.assertEqual((seat.crashed, seat.reaped), (False, rme.Found.INSIDE))

    def test_reaped_by_name(self):
        with self.assertRaises(ProcessLookupError):
            rme.reap(self.path, 0)
        self.die_inside(0)
        self.assertEqual(rme.reap_all(self.path), 1)
        self.die_inside(1)
        with self.assertRaises(ZeroDivisionError):
            rme.reap(self.path, 1, lambda index, data: 1 / 0)
        self.assertTrue(rme.inspect(self.path).file_status().ruined)

    def interrupted(self, run, after=0.5):
        """What `run` raises, or its answer, in a child that gets a Ctrl-C meanwhile: its name and its last words."""
        ends = os.pipe()

        def child():
            signal.signal(signal.SIGINT, signal.default_int_handler)
            try:
                said = repr(run())
            except BaseException as raised:
                said = " ".join([type(raised).__name__, *map(str, raised.args)])
            os.write(ends[1], said.encode())
            os._exit(0)

        number = forked(child)
        for wait in after if isinstance(after, tuple) else (after,):
            time.sleep(wait)
            os.kill(number, signal.SIGINT)
        os.close(ends[1])
        said = os.read(ends[0], 1000).decode()
        os.close(ends[0])
        os.waitpid(number, 0)
        return said

    def test_interrupted_lock(self):
        def wait(how):
            seat = rme.Seat(self.path, 1)
            try:
                how(seat)
            finally:
                seat.close()  # it is neither inside nor in line

        with rme.Seat(self.path, 0) as first, first.lock():
            for how in (lambda s: s.lock(), lambda s: s.lock(until=time.monotonic() + 60), lambda s: s.lock_reaping(3)):
                said = self.interrupted(lambda how=how: wait(how))
                self.assertEqual(said, "KeyboardInterrupt not inside: the place in line is given up")
        with rme.Seat(self.path, 2) as seat:
            seat.lock(0).unlock()

    def test_interrupt_that_a_handler_takes(self):
        def run():
            caught = []
            signal.signal(signal.SIGINT, lambda number, frame: caught.append(number))
            with rme.Seat(self.path, 1) as seat, seat.lock(until=time.monotonic() + 1.5) as inside:
                return caught, inside.owner_died

        with rme.Seat(self.path, 0) as first:
            held, said = first.lock(), []
            thread = threading.Thread(target=lambda: said.append(self.interrupted(run, 0.3)))
            thread.start()
            time.sleep(0.8)
            held.unlock()
            thread.join()
        self.assertEqual(said, ["([2], False)"])

    def test_interrupted_repair(self):
        for after, reaped, word in ((0.5, True, "the reaping has ended"), ((0.5, 0.3), False, "")):
            self.die_inside(0)

            def repair(index, data):
                time.sleep(1.2)
                data[0] = 7

            said = self.interrupted(lambda: rme.reap(self.path, 0, repair), after)
            self.assertEqual(said, " ".join(filter(None, ["KeyboardInterrupt", word])))
            self.assertFalse(rme.inspect(self.path).file_status().ruined)
            status = rme.inspect(self.path).index_status(0)
            self.assertEqual(status.life, rme.Life.ABSENT if reaped else rme.Life.DEAD)
        with rme.Seat(self.path, 1) as seat:
            with self.assertRaises(SystemExit) as ended, seat.lock_reaping(3, lambda index, data: os.sys.exit(3)):
                pass
            self.assertEqual(ended.exception.code, 3)
            self.assertIn("the place in line is given up", ended.exception.args[-1])
            self.assertFalse(seat.file_status().ruined)
            seat.lock_reaping(3, lambda index, data: None).unlock()

    def test_waits_that_end(self):
        with rme.Seat(self.path, 0) as first, rme.Seat(self.path, 1) as second:
            with first.lock():
                self.assertIs(first.inside.owner_died, False)
                self.assertIsNone(second.try_lock())
                begin = time.monotonic()
                for how in (second.lock, lambda until: second.lock_reaping(3, until=until)):
                    with self.assertRaises(TimeoutError):
                        how(until=time.monotonic() + 0.2)
                self.assertGreaterEqual(time.monotonic() - begin, 0.4)
                self.assertEqual((second.pid(0), second.pid(2)), (os.getpid(), 0))
                second.withdraw()
            self.assertIsNone(first.inside)
            with second.try_lock() as inside:
                self.assertIs(second.inside, inside)
            status = first.index_status(1)
            self.assertEqual((status.pid, status.entries, status.waits), (os.getpid(), 1, 1))

    def test_mode_and_descriptor(self):
        path = self.path + "-shared"
        rme.create(path, 2, 4, mode=0o660, group=os.getgid())
        self.assertEqual(os.stat(path).st_mode & 0o777, 0o660)
        with open(path, "rb+") as file:
            os.unlink(path)
            with rme.Seat(file.fileno(), 0) as seat, rme.Seat(file.fileno(), 1):
                self.refused(16, rme.Seat, file.fileno(), 0)
                seat.lock().unlock()

    def test_notice_is_told_until_it_is_acknowledged(self):
        self.die_inside(0)
        rme.reap(self.path, 0)
        for acknowledged in (False, True):

            def run(acknowledged=acknowledged):
                seat = rme.Seat(self.path, 0)
                self.assertEqual(seat.reaped, rme.Found.INSIDE)
                if acknowledged:
                    seat.acknowledge()
                killed()

            os.waitpid(forked(run), 0)
            with rme.Seat(self.path, 1) as seat:
                self.assertEqual(seat.index_status(0).reaped, rme.Found.NOTHING if acknowledged else rme.Found.INSIDE)

    def test_many_that_are_killed(self):
        """Two that count inside, and are killed and started again; a third that reaps where nobody is started again."""

        def count(index):
            seat = rme.Seat(self.path, index, milliseconds=5000)
            while True:
                with seat.lock_reaping(3, lambda dead, data: None) as inside:
                    if inside.owner_died:
                        inside.mended()
                    inside.put(index, inside.get(index) + 1)

        children = {index: forked(lambda index=index: count(index)) for index in (0, 1)}
        with rme.Seat(self.path, 2) as seat:
            for kill in range(2 * KILLED_EACH):
                with seat.lock_reaping(3, lambda dead, data: None) as inside:
                    before = inside.get(kill % 2)
                end, counted = time.monotonic() + 30, before
                while counted == before:
                    self.assertLess(time.monotonic(), end, f"process {kill % 2} does not come in")
                    with seat.lock_reaping(3, lambda dead, data: None) as inside:
                        counted = inside.get(kill % 2)
                os.kill(children[kill % 2], signal.SIGKILL)
                os.waitpid(children[kill % 2], 0)
                children[kill % 2] = forked(lambda index=kill % 2: count(index))
            for child in children.values():
                os.kill(child, signal.SIGKILL)
                os.waitpid(child, 0)
            seat.lock_reaping(3).unlock()
        self.assertFalse(rme.inspect(self.path).file_status().ruined)


if __name__ == "__main__":
    unittest.main()
