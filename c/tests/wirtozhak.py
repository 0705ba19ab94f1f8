"""Wirtozhak's transaction manager for Python, over the shared library that wirtozhak.h describes.

WZ_LIBRARY names the library; else it is the one that build.sh makes. A manager is used by the
thread that made it.
"""
import ctypes
import fcntl
import os

_FOLDER = os.path.dirname(os.path.abspath(__file__))
_LIBRARY = os.environ.get("WZ_LIBRARY", os.path.join(_FOLDER, "..", "out", "libwirtozhak.so"))

OK, NOTHING, DISK = 0, 1, 2
CLOSED, MEMORY, NO_LOG, MANY, NO_SUCH, UNASKED, LIVE, LOG_FULL, UNKNOWN, OPEN, LOG_STOPPED = range(
    -1, -12, -1)
REFUSED = -20
INIT, PREPARE, PROMOTE, HAND, SINGLE, TOLD = range(1, 7)
COMMITTED, ABORTED, IN_DOUBT = range(1, 4)
(YES, NO, DONE, ACK, OWN_COMMITTED, OWN_ABORTED, OWN_IN_DOUBT, PROMOTED,
 NOT_PROMOTED) = range(1, 10)
WRITE, ZEROS, SYNC = range(1, 4)

_WORDS = {
    CLOSED: "the manager is closed", MEMORY: "out of memory", NO_LOG: "these bytes are no log",
    MANY: "no number is left", NO_SUCH: "nobody has this number", UNASKED: "no such reply is due",
    LIVE: "the transaction goes on", LOG_FULL: "the log is full", UNKNOWN: "no such word",
    OPEN: "open already", LOG_STOPPED: "the log's disk failed",
}


class Handle(ctypes.Structure):
    """The memory of a manager. Only the library writes it."""
    _fields_ = [("open", ctypes.c_bool), ("at", ctypes.c_void_p)]


class Event(ctypes.Structure):
    """Something for an enlistment to do or to hear."""
    _fields_ = [("kind", ctypes.c_uint32), ("enlistment", ctypes.c_uint32),
                ("outcome", ctypes.c_uint32)]


class Work(ctypes.Structure):
    """A request to the log's file."""
    _fields_ = [("kind", ctypes.c_uint32), ("at", ctypes.c_uint64), ("length", ctypes.c_uint64)]


# No call waits, so the interpreter's lock is kept while one runs: no two run at once.
lib = ctypes.PyDLL(_LIBRARY)


def _declare():
    word, number, size = ctypes.c_uint32, ctypes.c_uint64, ctypes.c_size_t
    to_word, to_number = ctypes.POINTER(word), ctypes.POINTER(number)
    arguments = {
        "wz_open": (ctypes.c_char_p, size),
        "wz_outcome": (number, word, to_word),
        "wz_recovered": (word,),
        "wz_start": (),
        "wz_begin": (word, to_number),
        "wz_enlist_volatile": (number, word, to_word),
        "wz_enlist_durable": (number, word, word, to_word),
        "wz_enlist_promotable": (number, word, to_word),
        "wz_clone": (number, word, to_word),
        "wz_complete": (number, word),
        "wz_identifier": (number, ctypes.c_char_p),
        "wz_commit": (number,),
        "wz_rollback": (number,),
        "wz_tick": (number, word),
        "wz_lost": (number, word),
        "wz_next": (number, ctypes.POINTER(Event)),
        "wz_reply": (number, word, word),
        "wz_told": (number, to_word),
        "wz_end": (number,),
        "wz_disk": (ctypes.POINTER(Work),),
        "wz_bytes": (ctypes.c_char_p, size),
        "wz_close": (),
    }
    for name, rest in arguments.items():
        function = getattr(lib, name)
        function.argtypes = (ctypes.POINTER(Handle), *rest)
        function.restype = ctypes.c_int32


_declare()


class Error(Exception):
    """What the library answered, where it didn't do what it was asked for."""

    def __init__(self, code):
        if code < REFUSED:
            super().__init__(f"the transaction refused ({code})")
        else:
            super().__init__(_WORDS.get(code, f"answer {code}"))
        self.code = code


def _check(code):
    if code < 0:
        raise Error(code)
    return code


def _not_null(value):
    """The library takes no null pointer, and ctypes makes one of None."""
    if value is None:
        raise TypeError("None stands for a null pointer")
    return value


def _fits(value, bits):
    """ctypes would cut a number that is too long, and so name another one."""
    if not 0 <= value < 1 << bits:
        raise OverflowError(f"{value} has no place in {bits} bits")
    return value


def open_handle(log):
    """A handle over the bytes of an earlier life's log, or b"", and what the library answered."""
    handle = Handle()
    return handle, lib.wz_open(handle, _not_null(log), len(log))


def take_bytes(handle, work):
    """The bytes of a request that writes."""
    if work.kind == ZEROS:
        return bytes(work.length)
    piece = ctypes.create_string_buffer(work.length)
    _check(lib.wz_bytes(handle, piece, work.length))
    return piece.raw


def _write_all(file, data, at):
    while data:
        written = os.pwrite(file, data, at)
        data, at = data[written:], at + written


def _sync_folder(path):
    """A file that was made lasts only once its folder does."""
    folder = os.open(os.path.dirname(os.path.abspath(path)), os.O_RDONLY)
    try:
        os.fsync(folder)
    finally:
        os.close(folder)


class Manager:
    """A transaction manager over a log file, which is locked until it is closed.

    `anew`: no resource manager has prepared work. Only then may an empty log be begun where the
    file has none, be it that it is new or that a crash came while its log was made.
    """

    def __init__(self, path, anew=False):
        self._file = os.open(_not_null(path), os.O_RDWR | os.O_CREAT, 0o600)
        try:
            fcntl.flock(self._file, fcntl.LOCK_EX | fcntl.LOCK_NB)
            _sync_folder(path)
            self.handle = self._take_up(anew)
        except BaseException:
            os.close(self._file)
            raise
        self.word, self.event = ctypes.c_uint32(), Event()  # what calls give; read at once
        self.do_disk()

    def __enter__(self):
        return self

    def __exit__(self, *_):
        self.close()

    def _take_up(self, anew):
        with open(self._file, "rb", closefd=False) as reader:
            log = reader.read()
        if not log and not anew:
            raise Error(NO_LOG)
        handle, code = open_handle(log)
        if code == NO_LOG and anew:
            handle, code = open_handle(b"")
        _check(code)
        return handle

    def do_disk(self):
        """Does in the file, in order, what the log asks of its disk."""
        work = Work()
        try:
            while _check(lib.wz_disk(self.handle, work)) == OK:
                if work.kind == SYNC:
                    os.fsync(self._file)
                else:
                    _write_all(self._file, take_bytes(self.handle, work), work.at)
        except OSError:
            self.close()  # to ask for the next request would say that this one is done
            raise

    def outcome(self, number, enlistment):
        """What the log says of an enlistment of an earlier life: COMMITTED or ABORTED."""
        _check(lib.wz_outcome(self.handle, _fits(number, 64), _fits(enlistment, 32), self.word))
        return self.word.value

    def recovered(self, rm):
        """The resource manager knows all that it had prepared, and its work lasts."""
        _check(lib.wz_recovered(self.handle, _fits(rm, 32)))
        self.do_disk()

    def start(self):
        """Begins an epoch, ahead of the first transaction."""
        _check(lib.wz_start(self.handle))
        self.do_disk()

    def begin(self, milliseconds=0):
        """Begins a transaction; 0 milliseconds are ten minutes."""
        number = ctypes.c_uint64()
        while _check(lib.wz_begin(self.handle, _fits(milliseconds, 32), number)) == DISK:
            self.do_disk()
        return Transaction(self, number.value)

    def close(self):
        """Frees its memory, and unlocks the file. A second time it does nothing."""
        if lib.wz_close(self.handle) == OK:
            os.close(self._file)


class Transaction:
    """A transaction. Each enlistment has an object with two methods:

    asked(transaction, enlistment, kind) gives the reply, or None: `reply` gives it later.
    told(transaction, enlistment, outcome) hears the outcome. A durable one whose work committed has
    made it last when this returns.
    """

    def __init__(self, manager, number):
        self.manager, self.number, self.outcome = manager, number, None
        self._objects, self._durable, self._prepared = {}, set(), set()

    def enlist_volatile(self, one, during_prepare=False):
        manager = self.manager
        _check(lib.wz_enlist_volatile(manager.handle, self.number, bool(during_prepare),
                                      manager.word))
        enlistment = manager.word.value
        self._objects[enlistment] = one
        return enlistment

    def enlist_durable(self, rm, one, single=False):
        manager = self.manager
        _check(lib.wz_enlist_durable(manager.handle, self.number, _fits(rm, 32), bool(single),
                                     manager.word))
        enlistment = manager.word.value
        self._objects[enlistment] = one
        self._durable.add(enlistment)
        self.drive()
        return enlistment

    def enlist_promotable(self, rm, one):
        """None where it wasn't taken, since another resource is enlisted."""
        manager = self.manager
        _check(lib.wz_enlist_promotable(manager.handle, self.number, _fits(rm, 32), manager.word))
        enlistment = manager.word.value
        if enlistment == 0:
            return None
        self._objects[enlistment] = one
        self.drive()
        return enlistment

    def clone(self, rollback=False):
        manager = self.manager
        _check(lib.wz_clone(manager.handle, self.number, bool(rollback), manager.word))
        return manager.word.value

    def complete(self, clone):
        _check(lib.wz_complete(self.manager.handle, self.number, _fits(clone, 32)))
        return self.drive()

    def identifier(self):
        """The sixteen bytes for other processes, or None while the promotion waits for a reply."""
        handle, sixteen = self.manager.handle, ctypes.create_string_buffer(16)
        code = _check(lib.wz_identifier(handle, self.number, sixteen))
        if code == NOTHING:
            self.drive()
            code = _check(lib.wz_identifier(handle, self.number, sixteen))
        return sixteen.raw if code == OK else None

    def commit(self):
        """The outcome, or None where somebody hasn't replied."""
        _check(lib.wz_commit(self.manager.handle, self.number))
        return self.drive()

    def rollback(self):
        _check(lib.wz_rollback(self.manager.handle, self.number))
        return self.drive()

    def tick(self, milliseconds):
        _check(lib.wz_tick(self.manager.handle, self.number, _fits(milliseconds, 32)))
        return self.drive()

    def lost(self, enlistment):
        _check(lib.wz_lost(self.manager.handle, self.number, _fits(enlistment, 32)))
        return self.drive()

    def reply(self, enlistment, reply):
        """The reply of one that gave none when it was asked."""
        self._send(_fits(enlistment, 32), _fits(reply, 32))
        return self.drive()

    def end(self):
        """Forgets the transaction, which is over."""
        _check(lib.wz_end(self.manager.handle, self.number))

    def drive(self):
        """Does all that is pending. The outcome that the client was told, or None."""
        manager, event = self.manager, self.manager.event
        while True:
            code = lib.wz_next(manager.handle, self.number, event)
            if code == NOTHING:
                return self.outcome
            if code == DISK:
                manager.do_disk()
            elif code != OK:
                raise Error(code)
            elif event.kind == TOLD:
                self._hear(event.enlistment, event.outcome)
            else:
                self._ask(event.enlistment, event.kind)

    def _hear(self, enlistment, outcome):
        if enlistment == 0:
            self.outcome = outcome
            return
        self._objects[enlistment].told(self, enlistment, outcome)
        if outcome == COMMITTED and enlistment in self._prepared:
            self._send(enlistment, ACK)

    def _ask(self, enlistment, kind):
        reply = self._objects[enlistment].asked(self, enlistment, kind)
        if kind != INIT and reply is not None:
            self._send(enlistment, reply)

    def _send(self, enlistment, reply):
        _check(lib.wz_reply(self.manager.handle, self.number, enlistment, reply))
        if reply == YES and enlistment in self._durable:
            self._prepared.add(enlistment)
