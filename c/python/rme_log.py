"""A log of messages that does not fill, over files of librme, from Python.

    import rme_log

    rme_log.create("log", procs=2, cap=10000)
    with rme_log.Log("log", 0) as log:
        log.append(log.next(), 77)
    with rme_log.Reader("log", "audit") as reader:
        for message in reader.follow():      # sleeps until more come
            ...                              # deal with it
            reader.keep()                    # and never meet it again

The library is the one of the module rme. Each refusal is an OSError with its error number: ENODATA where a reader was overtaken."""

import ctypes
import errno
import os
import time
from collections import namedtuple

import rme

__all__ = ["Cursor", "Log", "LogStatus", "Message", "Reader", "ReaderStatus", "create", "drop", "forget", "readers", "status"]

_WORD, _INT, _AT = ctypes.c_uint64, ctypes.c_int, ctypes.c_void_p
_NAME = 64

Cursor = namedtuple("Cursor", "segment place")
Message = namedtuple("Message", "segment place sender number value")
LogStatus = namedtuple("LogStatus", "procs cap width first last messages dropped numbers")
ReaderStatus = namedtuple("ReaderStatus", "name cursor unread alive overtaken")


class _Cursor(ctypes.Structure):
    _fields_ = [("segment", _WORD), ("place", _WORD)]


class _Message(ctypes.Structure):
    _fields_ = [("sender", _WORD), ("number", _WORD), ("value", _WORD * 8)]


class _State(ctypes.Structure):
    _fields_ = [(name, _WORD) for name in LogStatus._fields[:-1]] + [("numbers", _WORD * 64)]


class _ReaderState(ctypes.Structure):
    _fields_ = [("name", ctypes.c_char * _NAME), ("cursor", _Cursor), ("unread", _WORD), ("alive", ctypes.c_bool), ("overtaken", ctypes.c_bool)]


_VISIT = ctypes.CFUNCTYPE(_INT, ctypes.POINTER(_ReaderState), _AT)

_CALLS = {
    "rme_log_create": [ctypes.c_char_p, _WORD, _WORD, _WORD],
    "rme_log_open": [_AT, ctypes.c_char_p, _WORD, _WORD],
    "rme_log_append": [_AT, _WORD, ctypes.POINTER(_WORD)],
    "rme_log_next": [_AT, ctypes.POINTER(_WORD)],
    "rme_log_close": [_AT],
    "rme_log_reader_open": [_AT, ctypes.c_char_p, ctypes.c_char_p],
    "rme_log_read": [_AT, ctypes.POINTER(_Message), _WORD, ctypes.POINTER(_WORD)],
    "rme_log_seek": [_AT, _Cursor],
    "rme_log_seek_end": [_AT],
    "rme_log_keep": [_AT],
    "rme_log_wait": [_AT, _WORD],
    "rme_log_event": [_AT, ctypes.POINTER(_INT)],
    "rme_log_reader_close": [_AT],
    "rme_log_drop": [ctypes.c_char_p, _WORD, ctypes.POINTER(_WORD)],
    "rme_log_forget": [ctypes.c_char_p, ctypes.c_char_p],
    "rme_log_status": [ctypes.c_char_p, ctypes.POINTER(_State)],
    "rme_log_readers": [ctypes.c_char_p, _VISIT, _AT],
}

_rme = rme._rme
for _name, _arguments in _CALLS.items():
    getattr(_rme, _name).argtypes, getattr(_rme, _name).restype = _arguments, _INT
_rme.rme_log_strerror.argtypes, _rme.rme_log_strerror.restype = [_INT], ctypes.c_char_p
_rme.rme_log_size.restype = _rme.rme_log_reader_size.restype = ctypes.c_size_t


def _check(error, path=None):
    if error:
        raise OSError(error, _rme.rme_log_strerror(error).decode(), path)


def create(folder, procs, cap, width=1):
    """Makes the log; FileExistsError where there is one."""
    _check(_rme.rme_log_create(os.fsencode(folder), procs, cap, width), folder)


def drop(folder, before=None):
    """Removes the segments before this one that all named readers have passed; answers the first that is left."""
    first = _WORD()
    _check(_rme.rme_log_drop(os.fsencode(folder), 2**64 - 1 if before is None else before, ctypes.byref(first)), folder)
    return first.value


def forget(folder, name):
    """Removes a named reader."""
    _check(_rme.rme_log_forget(os.fsencode(folder), name.encode()), folder)


def status(folder):
    """The state of the log."""
    state = _State()
    _check(_rme.rme_log_status(os.fsencode(folder), state), folder)
    return LogStatus(*(getattr(state, name) for name in LogStatus._fields[:-1]), tuple(state.numbers[: state.procs]))


def readers(folder):
    """The named readers."""
    found = []

    def visit(state, _context):
        s = state.contents
        found.append(ReaderStatus(s.name.decode(), Cursor(s.cursor.segment, s.cursor.place), s.unread, s.alive, s.overtaken))
        return 0

    _check(_rme.rme_log_readers(os.fsencode(folder), _VISIT(visit), None), folder)
    return found


class _Open:
    """Room for a struct of C, which is open."""

    def __init__(self, size, opening, closing):
        self._room = ctypes.create_string_buffer(size + 64)
        self._at = (ctypes.addressof(self._room) + 63) // 64 * 64
        self._open, self._closing = False, closing
        opening(self._at)
        self._open = True

    def close(self):
        """Closes it."""
        if self._open:
            self._open = False
            _check(self._closing(self._at))

    def __enter__(self):
        return self

    def __exit__(self, *_raised):
        self.close()

    def __del__(self):
        if getattr(self, "_open", False):
            self._open = False
            self._closing(self._at)


class Log(_Open):
    """One living sender."""

    def __init__(self, folder, index, milliseconds=0):
        self._width = status(folder).width
        name = os.fsencode(folder)
        super().__init__(
            _rme.rme_log_size(), lambda at: _check(_rme.rme_log_open(at, name, index, milliseconds), folder), _rme.rme_log_close
        )

    def next(self):
        """The number of its next message."""
        number = _WORD()
        _check(_rme.rme_log_next(self._at, ctypes.byref(number)))
        return number.value

    def append(self, number, *value):
        """Stores a message as this sender's next: True. False: the message with this number is there already."""
        if len(value) != self._width:
            raise ValueError(f"a message of this log has {self._width} words")
        error = _rme.rme_log_append(self._at, number, (_WORD * 8)(*value))
        if error == errno.EALREADY:
            return False
        _check(error)
        return True


class Reader(_Open):
    """One reader. With a name it begins where the reader of this name was at its last `keep`."""

    def __init__(self, folder, name=None):
        self._width = status(folder).width
        whole, named = os.fsencode(folder), None if name is None else name.encode()
        super().__init__(
            _rme.rme_log_reader_size(),
            lambda at: _check(_rme.rme_log_reader_open(at, whole, named), folder),
            _rme.rme_log_reader_close,
        )

    @property
    def cursor(self):
        """Where it stands: right past the message that was read last."""
        found = _Cursor.from_address(self._at)
        return Cursor(found.segment, found.place)

    def seek(self, cursor=Cursor(0, 0)):
        """Goes to a cursor that it had before; or to the first message that is not dropped."""
        _check(_rme.rme_log_seek(self._at, _Cursor(*cursor)))

    def seek_end(self):
        """Goes past all messages that there are."""
        _check(_rme.rme_log_seek_end(self._at))

    def keep(self):
        """Keeps the cursor of a named reader: what it has read so far has been processed."""
        _check(_rme.rme_log_keep(self._at))

    def read(self):
        """The next message; None where there is none yet."""
        room, count = _Message(), _WORD()
        _check(_rme.rme_log_read(self._at, ctypes.byref(room), 1, ctypes.byref(count)))
        if count.value == 0:
            return None
        segment, place = self.cursor
        return Message(segment, place - 1, room.sender, room.number, tuple(room.value[: self._width]))

    def wait(self, seconds):
        """Sleeps until there is a message, at most this long: False where there is none yet. Ctrl-C ends it."""
        end = time.monotonic() + seconds
        while True:
            left = end - time.monotonic()
            error = _rme.rme_log_wait(self._at, max(0, min(100, int(1000 * left))))
            if error not in (errno.ETIMEDOUT, errno.EINTR):
                _check(error)
                return True
            if left <= 0:
                return False

    def __iter__(self):
        """The messages that there are."""
        while (message := self.read()) is not None:
            yield message

    def follow(self, seconds=None):
        """The messages as they come: it sleeps until more do, or ends where none has come for this long."""
        while True:
            yield from self
            if not self.wait(3600 if seconds is None else seconds) and seconds is not None:
                return

    def event(self):
        """A descriptor for select and poll that can be read whenever messages have come; it ends with the reader."""
        file = _INT()
        _check(_rme.rme_log_event(self._at, ctypes.byref(file)))
        return file.value
