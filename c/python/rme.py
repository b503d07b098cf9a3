"""A recoverable first-come first-served lock with a mailbox, between processes that may die: librme from Python.

    import rme

    rme.create("box", procs=2, cap=1024, width=1)
    with rme.Seat("box", 0) as seat:
        with seat.lock() as inside:
            if inside.owner_died:        # an earlier process with this index died inside
                ...                      # repair what the lock guards
                inside.mended()
            inside.append(1, 77)
        print(seat.messages())

The shared library is the one that RME_LIBRARY names, else the one beside or above this file, else the system's. Each refusal is
an OSError with its error number. A block `with seat.lock()` leaves the lock at its end, by an exception too; where the owner had
died and `mended` was not called, this ruins the lock for all. A seat is used by one thread at a time, and not by a child of
fork.

Ctrl-C ends a wait: what it raises says in its last argument where the seat stands then, which is out of the line. A repair goes on
to its end, and it is raised after that; a second one ends the repair, which leaves the place to the next reaper."""

import ctypes
import ctypes.util
import enum
import errno
import os
import signal
import threading
import time
from collections import namedtuple

__all__ = ["Found", "Inside", "Life", "Message", "Seat", "create", "inspect", "reap", "reap_all", "version"]

_WORD = ctypes.c_uint64
_SEAT = ctypes.c_void_p
_INT = ctypes.c_int

Message = namedtuple("Message", "place sender number value")
FileStatus = namedtuple("FileStatus", "procs cap width limit words data_bytes count closed ruined")
IndexStatus = namedtuple("IndexStatus", "choosing number inside found life reaped pid entries waits")


class Found(enum.IntEnum):
    """Where an earlier process of an index stood."""

    NOTHING = 0
    IDLE = 23
    LEFT = 24
    DOORWAY = 25
    WAITING = 26
    INSIDE = 27


class Life(enum.IntEnum):
    """Whether a process has an index."""

    ABSENT = 0
    ALIVE = 1
    DEAD = 2
    IN_REAPING = 3


class _Message(ctypes.Structure):
    _fields_ = [("sender", _WORD), ("number", _WORD), ("value", _WORD * 8)]


class _File(ctypes.Structure):
    _fields_ = [(name, _WORD) for name in FileStatus._fields]


class _Index(ctypes.Structure):
    _fields_ = [("choosing", _WORD), ("number", _WORD), ("inside", _WORD), ("found", _INT), ("life", _INT), ("reaped", _INT)]
    _fields_ += [("pid", ctypes.c_int64), ("entries", _WORD), ("waits", _WORD)]


class _Time(ctypes.Structure):
    _fields_ = [("seconds", ctypes.c_long), ("nanoseconds", ctypes.c_long)]


_REPAIR = ctypes.CFUNCTYPE(_INT, _SEAT, _WORD, ctypes.c_void_p, ctypes.c_size_t, ctypes.c_void_p)

_CALLS = {
    "rme_create_as": (_INT, [ctypes.c_char_p, _WORD, _WORD, _WORD, _WORD, ctypes.c_uint, ctypes.c_uint]),
    "rme_attach_within": (_INT, [_SEAT, ctypes.c_char_p, _WORD, _WORD]),
    "rme_attach_file": (_INT, [_SEAT, _INT, _WORD, _WORD]),
    "rme_inspect": (_INT, [_SEAT, ctypes.c_char_p]),
    "rme_detach": (_INT, [_SEAT]),
    "rme_lock_within": (_INT, [_SEAT, _WORD]),
    "rme_lock_until": (_INT, [_SEAT, ctypes.POINTER(_Time)]),
    "rme_trylock": (_INT, [_SEAT]),
    "rme_lock_reaping_until": (_INT, [_SEAT, _WORD, ctypes.POINTER(_Time), _REPAIR, ctypes.c_void_p]),
    "rme_blocker": (_INT, [_SEAT, ctypes.POINTER(_WORD), ctypes.POINTER(ctypes.c_bool)]),
    "rme_withdraw": (_INT, [_SEAT]),
    "rme_unlock": (_INT, [_SEAT]),
    "rme_consistent": (_INT, [_SEAT]),
    "rme_recover": (_INT, [_SEAT, ctypes.POINTER(_INT)]),
    "rme_append": (_INT, [_SEAT, _WORD, ctypes.POINTER(_WORD)]),
    "rme_close": (_INT, [_SEAT]),
    "rme_get": (_INT, [_SEAT, _WORD, ctypes.POINTER(_WORD)]),
    "rme_put": (_INT, [_SEAT, _WORD, _WORD]),
    "rme_read_from": (_WORD, [_SEAT, _WORD, ctypes.POINTER(_Message), _WORD]),
    "rme_data": (ctypes.c_void_p, [_SEAT, ctypes.POINTER(ctypes.c_size_t)]),
    "rme_reap": (_INT, [ctypes.c_char_p, _WORD, _REPAIR, ctypes.c_void_p]),
    "rme_reap_all": (_INT, [ctypes.c_char_p, _REPAIR, ctypes.c_void_p, ctypes.POINTER(_WORD)]),
    "rme_crashed": (ctypes.c_bool, [_SEAT]),
    "rme_reaped": (_INT, [_SEAT]),
    "rme_acknowledge": (_INT, [_SEAT]),
    "rme_pid": (ctypes.c_int64, [_SEAT, _WORD]),
    "rme_file_status": (_INT, [_SEAT, ctypes.POINTER(_File)]),
    "rme_index_status": (_INT, [_SEAT, _WORD, ctypes.POINTER(_Index)]),
    "rme_seat_size": (ctypes.c_size_t, []),
    "rme_version": (ctypes.c_char_p, []),
    "rme_strerror": (ctypes.c_char_p, [_INT]),
}


def _library():
    here = os.path.dirname(os.path.realpath(__file__))
    beside = [os.path.join(here, *above, "librme.so.2") for above in [(), ("..", "out"), ("..", ".."), ("..", "..", "..")]]
    named = os.environ.get("RME_LIBRARY") or next((path for path in beside if os.path.exists(path)), None)
    library = ctypes.CDLL(named or ctypes.util.find_library("rme") or "librme.so.2")
    for name, (answer, arguments) in _CALLS.items():
        call = getattr(library, name)
        call.restype, call.argtypes = answer, arguments
    return library


_rme = _library()


def _check(error, path=None):
    if error:
        raise OSError(error, _rme.rme_strerror(error).decode(), path)


def version():
    """The library's version."""
    return _rme.rme_version().decode()


def create(path, procs, cap, width=1, data_bytes=0, mode=0o600, group=-1):
    """Makes the file; FileExistsError where there is one of this name. A group of -1 is the one that the system gives."""
    _check(_rme.rme_create_as(os.fsencode(path), procs, cap, width, data_bytes, mode, group % 2**32), path)


class _Held:
    """While this is under way Ctrl-C is noted, and what the program does on it comes later: what that raises says how it `stands`. In
    a repair the second one is raised there."""

    def __init__(self, stands):
        self.stands, self.noted, self.repairs, self._handler = stands, False, False, None

    def __enter__(self):
        if threading.current_thread() is threading.main_thread() and callable(signal.getsignal(signal.SIGINT)):
            self._handler = signal.signal(signal.SIGINT, self._note)
        return self

    def _note(self, _number, _frame):
        raises, self.noted, self.repairs = self.noted and self.repairs, True, False if self.noted else self.repairs
        if raises:
            raise KeyboardInterrupt

    def let_through(self):
        """The program's own handler, where there was a Ctrl-C."""
        if self.noted:
            self.noted = False
            self._handler(int(signal.SIGINT), None)

    def __exit__(self, _kind, raised, _trace):
        if self._handler:
            signal.signal(signal.SIGINT, self._handler)
        try:
            if raised is None:
                self.let_through()
        except BaseException as ends:
            ends.args += (self.stands(),)
            raise


def _repairing(repair, held, raised):
    """`repair` for C: what it raises is kept in `raised`. An error says that the data are lost; what ends a program, as Ctrl-C
    and SystemExit do, that they are not repaired now."""

    def call(_dead, index, data, length, _context):
        try:
            held.repairs = True
            shared = (ctypes.c_char * length).from_address(data) if data else bytearray()
            with memoryview(shared).cast("B") as memory:
                answer = 1 if repair(index, memory) is False else 0
            held.repairs = False
        except Exception as error:  # goes on in the caller: nothing may pass through C
            held.repairs, answer = False, 1
            raised.append(error)
        except BaseException as error:
            held.repairs, answer = False, errno.EINTR
            raised.append(error)
        return answer

    return _REPAIR(call) if repair else _REPAIR()


def _reap(path, repair, reap):
    raised = []
    with _Held(lambda: "the reaping has ended") as held:
        error = reap(_repairing(repair, held, raised))
        if raised:
            raise raised[0]
        _check(error, path)


def reap(path, index, repair=None):
    """Releases the place of the dead process with this index. Where it died inside, `repair(index, data)` is called first; where
    that answers False or raises an Exception, the lock is ruined. ProcessLookupError: there is no dead one."""
    _reap(path, repair, lambda call: _rme.rme_reap(os.fsencode(path), index, call, None))


def reap_all(path, repair=None):
    """The same for each index; answers how many places were released."""
    reaped = _WORD()
    _reap(path, repair, lambda call: _rme.rme_reap_all(os.fsencode(path), call, None, ctypes.byref(reaped)))
    return reaped.value


_SLICE = 0.05  # seconds after which a wait looks whether there was a Ctrl-C


def _until(seconds):
    """A time of CLOCK_MONOTONIC, as time.monotonic has it."""
    return ctypes.byref(_Time(int(seconds // 1), int(seconds % 1 * 1e9)))


class _Open:
    """A file that is open, as a process at its index or to be read."""

    def __init__(self, opening):
        self._seat = ctypes.create_string_buffer(_rme.rme_seat_size() + 64)
        self._at = (ctypes.addressof(self._seat) + 63) // 64 * 64
        self._open = True  # a seat that is all zeros is not attached, and to detach it does nothing
        opening(self._at)
        self._width = self.file_status().width

    def close(self):
        """Closes the file. OSError with EBUSY: it was inside or in line, which counts as a crash."""
        if self._open:
            self._open = False
            _check(_rme.rme_detach(self._at))

    def __enter__(self):
        return self

    def __exit__(self, *_raised):
        self.close()

    def __del__(self):
        if self._open:
            self._open = False
            _rme.rme_detach(self._at)

    def messages(self, place=0):
        """The messages from this place on. It needs no lock."""
        room, found = (_Message * 256)(), []
        while count := _rme.rme_read_from(self._at, place, room, len(room)):
            found += [Message(place + k, m.sender, m.number, tuple(m.value[: self._width])) for k, m in enumerate(room[:count])]
            place += count
        return found

    def data(self, start=0, length=None):
        """Bytes of the caller's own data, as they stand. Who writes them is inside, so read them inside."""
        at, whole = self._data()
        end = whole if length is None else start + length
        if not 0 <= start <= end <= whole:
            raise IndexError(f"the data of this file have {whole} bytes")
        return ctypes.string_at(at + start, end - start) if end > start else b""

    def _data(self):
        length = ctypes.c_size_t()
        return _rme.rme_data(self._at, ctypes.byref(length)), length.value

    def file_status(self):
        """The state of the file."""
        status = _File()
        _check(_rme.rme_file_status(self._at, status))
        *sizes, closed, ruined = (getattr(status, name) for name in FileStatus._fields)
        return FileStatus(*sizes, closed != 0, ruined != 0)

    def index_status(self, index):
        """The state of an index: its lock words, what they say of it, and whether a process has it."""
        s = _Index()
        _check(_rme.rme_index_status(self._at, index, s))
        return IndexStatus(
            s.choosing, s.number, s.inside, Found(s.found), Life(s.life), Found(s.reaped), s.pid, s.entries, s.waits
        )

    def pid(self, index):
        """The pid of the living process that has this index, as that process sees itself; 0 where there is none."""
        return _rme.rme_pid(self._at, index)


def inspect(path):
    """Opens the file to read it: `messages`, `file_status`, `index_status`. Nothing in it is changed."""
    return _Open(lambda at: _check(_rme.rme_inspect(at, os.fsencode(path)), path))


class Seat(_Open):
    """One living process at its index of the file. OSError with EBUSY: another living process has it."""

    def __init__(self, path, index, milliseconds=0):
        """Waits for a reaper that acts for the index, at most `milliseconds`. The path may be a descriptor of the file."""
        self.inside = None  # the lock that is held, if any

        def attach(at):
            end = time.monotonic() + milliseconds / 1000
            while True:
                most = int(1000 * min(_SLICE, max(0, end - time.monotonic())) + 0.999)
                if isinstance(path, int):
                    error = _rme.rme_attach_file(at, path, index, most)
                else:
                    error = _rme.rme_attach_within(at, os.fsencode(path), index, most)
                if error != errno.ETIMEDOUT or time.monotonic() >= end:
                    return _check(error, path)

        super().__init__(attach)

    @property
    def crashed(self):
        """Whether an earlier process of this index died, and nobody has released its place."""
        return _rme.rme_crashed(self._at)

    @property
    def reaped(self):
        """Where a reaper found an earlier process of this index that had died."""
        return Found(_rme.rme_reaped(self._at))

    def acknowledge(self):
        """Acknowledges what `reaped` answers: from now on, and after the next attach, that is NOTHING."""
        _check(_rme.rme_acknowledge(self._at))

    def _entered(self, error):
        if error != errno.EOWNERDEAD:
            _check(error)
        self.inside = Inside(self, error == errno.EOWNERDEAD)
        return self.inside

    def _enter(self, call, end, raised=()):
        """Locks by `call(held, time)` up to the end. Between two calls it looks whether there was a Ctrl-C, or a repair has raised."""
        with _Held(lambda: "the seat's `inside` says whether it is inside") as held:
            while True:
                now = time.monotonic()
                error = call(held, _until(min(end, now + _SLICE)))
                try:
                    held.let_through()
                    if raised:
                        raise raised[0]
                except Exception:
                    self._step_back(error)
                    raise
                except BaseException as ends:
                    ends.args += (self._step_back(error),)
                    raise
                if error != errno.ETIMEDOUT or now + _SLICE >= end:
                    return self._entered(error)

    def _step_back(self, error):
        """After a lock that has answered this: not inside and not in line, unless that would ruin the lock. Answers how it stands."""
        if _rme.rme_withdraw(self._at) == 0:
            return "not inside: the place in line is given up"
        if error == errno.EOWNERDEAD:
            self._entered(error)
            return "inside, where the owner had died: the seat's `inside` has the lock"
        return "not inside: the lock is left" if error == 0 and _rme.rme_unlock(self._at) == 0 else "not inside"

    def lock(self, turns=None, until=None):
        """Waits for its turn and enters. With `turns`, TimeoutError after that number of blocked readings, and with `until` at this
        time.monotonic(): it keeps its place."""
        if turns is not None:
            return self._entered(_rme.rme_lock_within(self._at, turns))
        return self._enter(lambda _held, time: _rme.rme_lock_until(self._at, time), float("inf") if until is None else until)

    def try_lock(self):
        """Enters where nobody is in the way; else None."""
        error = _rme.rme_trylock(self._at)
        return None if error == errno.EAGAIN else self._entered(error)

    def lock_reaping(self, turns, repair=None, until=None):
        """`lock` that releases the places of the dead who block it, as `reap` does."""
        raised = []

        def call(held, time):
            return _rme.rme_lock_reaping_until(self._at, turns, time, _repairing(repair, held, raised), None)

        return self._enter(call, float("inf") if until is None else until, raised)

    def blocker(self):
        """After TimeoutError: the index that it last waited for, and whether its process lives."""
        index, alive = _WORD(), ctypes.c_bool()
        _check(_rme.rme_blocker(self._at, ctypes.byref(index), ctypes.byref(alive)))
        return index.value, alive.value

    def withdraw(self):
        """Gives up the place in line after TimeoutError."""
        _check(_rme.rme_withdraw(self._at))

    def recover(self):
        """Answers where an earlier process of this index stood, and after Found.INSIDE the lock that is held again, else None."""
        found = _INT()
        _check(_rme.rme_recover(self._at, ctypes.byref(found)))
        return Found(found.value), self._entered(errno.EOWNERDEAD) if found.value == Found.INSIDE else None


class Inside:
    """A lock that is held; a `with` block leaves it at its end."""

    def __init__(self, seat, owner_died):
        self._seat, self._at = seat, seat._at
        self.owner_died = owner_died

    def __enter__(self):
        return self

    def __exit__(self, *_raised):
        self.unlock()

    def mended(self):
        """After owner_died: finishes what the dead process left half done in the mailbox, and marks the lock as repaired."""
        _check(_rme.rme_consistent(self._at))

    def append(self, number, *value):
        """Stores a message as this process's next: True. False: the message with this number is there already."""
        if len(value) != self._seat._width:
            raise ValueError(f"a message of this file has {self._seat._width} words")
        error = _rme.rme_append(self._at, number, (_WORD * 8)(*value))
        if error == errno.EALREADY:
            return False
        _check(error)
        return True

    def write(self, start, data):
        """Writes the caller's own data from this byte on."""
        at, whole = self._seat._data()
        if not 0 <= start <= start + len(data) <= whole:
            raise IndexError(f"the data of this file have {whole} bytes")
        if data:
            ctypes.memmove(at + start, bytes(data), len(data))

    def close_mailbox(self):
        """Nothing is appended any more. False: it was closed already."""
        error = _rme.rme_close(self._at)
        if error == errno.EALREADY:
            return False
        _check(error)
        return True

    def get(self, i):
        """Word i of the board, 0 to 3."""
        word = _WORD()
        _check(_rme.rme_get(self._at, i, ctypes.byref(word)))
        return word.value

    def put(self, i, word):
        """Writes word i of the board, 0 to 3."""
        _check(_rme.rme_put(self._at, i, word))

    def unlock(self):
        """Leaves. Where the owner had died and `mended` was not called, the lock is ruined for all."""
        self._seat.inside = None
        _check(_rme.rme_unlock(self._at))
