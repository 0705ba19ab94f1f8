"""What a later life finds: after a life that broke off anywhere, and in spoilt logs.

The log is in memory here. Also calls at random, which must never crash.
"""
import collections
import ctypes
import itertools
import random

import wirtozhak as w

LOG_BYTES = 524800
ANSWERS = {w.OK, w.NOTHING, w.DISK, *range(w.LOG_STOPPED, 0), *range(w.REFUSED - 25, w.REFUSED + 1)}


class Life:
    """A life of a host. `requests` are those that it did: (at, bytes), or None for a sync."""

    def __init__(self, image=b""):
        self.handle, code = w.open_handle(bytes(image))
        assert code == w.OK, code
        self.image, self.requests = bytearray(image), []
        self.do_disk()

    def next_request(self):
        """Takes the next request, and does it; False where there is none."""
        work = w.Work()
        if w.lib.wz_disk(self.handle, work) == w.NOTHING:
            return False
        if work.kind == w.SYNC:
            self.requests.append(None)
            return True
        data = w.take_bytes(self.handle, work)
        self.image[work.at:work.at + work.length] = data
        self.requests.append((work.at, data))
        return True

    def do_disk(self):
        while self.next_request():
            pass

    def call(self, function, *arguments):
        """A call that has to be done, which gives a word or a number."""
        kind = function.argtypes[-1]._type_
        value = kind()
        while (code := function(self.handle, *arguments, value)) == w.DISK:
            self.do_disk()
        assert code == w.OK, code
        return value.value

    def begin(self):
        return self.call(w.lib.wz_begin, 0)

    def durable(self, tx, rm):
        return self.call(w.lib.wz_enlist_durable, tx, rm, 0)

    def outcome(self, tx, enlistment):
        return self.call(w.lib.wz_outcome, tx, enlistment)

    def recovered(self, rm):
        assert w.lib.wz_recovered(self.handle, rm) == w.OK
        self.do_disk()

    def reply(self, tx, enlistment, reply):
        assert w.lib.wz_reply(self.handle, tx, enlistment, reply) == w.OK

    def commit(self, tx):
        assert w.lib.wz_commit(self.handle, tx) == w.OK

    def next(self, tx):
        """The answer of wz_next, and the event."""
        event = w.Event()
        code = w.lib.wz_next(self.handle, tx, event)
        return code, event

    def vote(self, tx, *replies):
        """Each enlistment that is asked to prepare gives the next of the replies."""
        for reply in replies:
            code, event = self.next(tx)
            assert (code, event.kind) == (w.OK, w.PREPARE), (code, event.kind)
            self.reply(tx, event.enlistment, reply)

    def close(self):
        assert w.lib.wz_close(self.handle) == w.OK


def two_durables(life):
    tx = life.begin()
    return tx, life.durable(tx, 1), life.durable(tx, 2)


def breaks_off_before_the_record():
    life = Life()
    tx, one, two = two_durables(life)
    life.commit(tx)
    life.vote(tx, w.YES, w.YES)
    image = bytes(life.image)
    assert life.next(tx)[0] == w.DISK
    life.close()  # the record is asked for, and isn't in the file
    life = Life(image)
    assert life.outcome(tx, one) == life.outcome(tx, two) == w.ABORTED
    life.close()


def breaks_off_after_the_record():
    life = Life()
    tx, one, two = two_durables(life)
    life.commit(tx)
    life.vote(tx, w.YES, w.YES)
    assert life.next(tx)[0] == w.DISK
    life.do_disk()
    life.close()  # nobody was told

    second = Life(life.image)
    assert second.outcome(tx, one) == second.outcome(tx, two) == w.COMMITTED
    assert second.outcome(tx, two + 1) == w.ABORTED, "an enlistment that the record doesn't name"
    assert second.outcome(tx + 1, one) == w.ABORTED, "a transaction that has no record"
    second.recovered(1)
    assert second.outcome(tx, two) == w.COMMITTED, "the other manager hasn't recovered"
    assert second.begin() > tx
    second.close()

    third = Life(second.image)  # who had recovered was forgotten: they recover anew
    assert third.outcome(tx, one) == third.outcome(tx, two) == w.COMMITTED
    third.recovered(2)
    assert third.outcome(tx, one) == w.COMMITTED
    third.recovered(1)
    third.close()

    fourth = Life(third.image)  # the record was freed, since all that it names have recovered
    assert fourth.outcome(tx, one) == fourth.outcome(tx, two) == w.ABORTED
    fourth.close()


def drive(life, tx, notes):
    """Takes what comes until nothing is pending. Notes who was told what, and after how many
    requests."""
    while True:
        code, event = life.next(tx)
        if code == w.NOTHING:
            return
        if code == w.DISK:
            life.do_disk()
            continue
        assert (code, event.kind) == (w.OK, w.TOLD), (code, event.kind)
        notes.append((len(life.requests), tx, event.enlistment, event.outcome))


def one_life(life, notes):
    """Three transactions: one commits and isn't acknowledged, one commits and is, one aborts."""
    kept, *_ = two_durables(life)
    life.commit(kept)
    life.vote(kept, w.YES, w.YES)
    drive(life, kept, notes)
    aborted, *_ = two_durables(life)
    life.commit(aborted)
    life.vote(aborted, w.YES, w.NO)
    drive(life, aborted, notes)
    acknowledged, one, two = two_durables(life)
    life.commit(acknowledged)
    life.vote(acknowledged, w.YES, w.YES)
    drive(life, acknowledged, notes)
    acks = len(life.requests)
    for enlistment in (one, two):
        life.reply(acknowledged, enlistment, w.ACK)
    drive(life, acknowledged, notes)
    life.do_disk()
    return acknowledged, acks


def images(requests, done, before=b""):
    """The files that a crash can leave after so many requests: each write since the last sync that
    was done is in the file, or isn't."""
    last = max((n + 1 for n in range(done) if requests[n] is None), default=0)
    since = [request for request in requests[last:done] if request]
    for kept in itertools.product((False, True), repeat=len(since)):
        image = bytearray(before)
        written = [request for request in requests[:last] if request]
        for at, data in written + [x for x, keep in zip(since, kept) if keep]:
            if len(image) < at:
                image.extend(bytes(at - len(image)))
            image[at:at + len(data)] = data
        yield bytes(image)


def look(image, numbers, notes, done, forgotten):
    """Both enlistments have one outcome, and it is what anybody was told before the crash."""
    life = Life(image)
    for tx in numbers:
        found = {life.outcome(tx, enlistment) for enlistment in (1, 2)}
        assert len(found) == 1, (tx, found)
        for when, told_tx, _, outcome in notes:
            if told_tx == tx and when <= done and tx != forgotten:
                assert found == {outcome}, (tx, found, outcome)
    assert life.begin() > max((tx for when, tx, _, _ in notes if when <= done), default=0)
    life.close()


def breaks_off_anywhere():
    life, notes = Life(), []
    formatted = len(life.requests)
    acknowledged, acks = one_life(life, notes)
    numbers = {tx for _, tx, _, _ in notes}
    assert len(numbers) == 3
    life.close()
    count = 0
    for done in range(len(life.requests) + 1):
        for image in images(life.requests, done):
            handle, code = w.open_handle(image)
            if code == w.OK:
                w.lib.wz_close(handle)
                look(image, numbers, notes, done, acknowledged if done > acks else None)
            else:
                # Where the log is empty the host takes length 0 for none; else it was formatted.
                assert code == w.NO_LOG and done < formatted, (code, done, formatted)
            count += 1
    return f"{count} files after {len(life.requests)} requests"


def spoil(chance, good):
    """A log with some bytes changed: in its head, at the head of a slot, or anywhere."""
    data = bytearray(good)
    for _ in range(chance.randint(1, 3)):
        place = chance.choice((chance.randrange(512), 512 * chance.randrange(LOG_BYTES // 512),
                               chance.randrange(LOG_BYTES)))
        data[place] = chance.randrange(256)
    return bytes(data)


def spoilt_logs():
    life = Life()
    tx, one, two = two_durables(life)
    life.commit(tx)
    life.vote(tx, w.YES, w.YES)
    drive(life, tx, [])
    good = bytes(life.image)
    life.close()
    assert len(good) == LOG_BYTES, len(good)
    for bad in (bytes(LOG_BYTES), good[:-1], good + b"x", good[:512], random.randbytes(LOG_BYTES)):
        assert w.open_handle(bad)[1] == w.NO_LOG
    chance, seen = random.Random(2), collections.Counter()
    for _ in range(300):
        handle, code = w.open_handle(spoil(chance, good))
        assert code in (w.OK, w.NO_LOG), code
        seen[code] += 1
        if code == w.OK:
            outcome = ctypes.c_uint32()
            while w.lib.wz_disk(handle, w.Work()) == w.OK:
                pass
            for enlistment in (one, two):
                code = w.lib.wz_outcome(handle, tx, enlistment, outcome)
                assert code == w.OK and outcome.value in (w.COMMITTED, w.ABORTED)
            w.lib.wz_close(handle)
    return f"{seen[w.OK]} spoilt logs opened, {seen[w.NO_LOG]} didn't"


class Chance:
    """Calls at random on one handle, with numbers that somebody has and numbers that nobody has."""

    def __init__(self, seed):
        self.random, self.handle, self.known = random.Random(seed), w.Handle(), [65537]
        self.buffer = ctypes.create_string_buffer(1024)
        self.value, self.word = ctypes.c_uint64(), ctypes.c_uint32()

    def number(self):
        known = self.random.choice(self.known[-4:])
        return self.random.choice((known, known, known, known, known + 1, 0, 1, 65536,
                                   known ^ 1 << self.random.randrange(64), 2**32 - 1, 2**64 - 1))

    def short(self):
        return self.random.choice((0, 1, 1, 1, 2, 2, 3, 4, 5, 6, 7, 8, 9, 10, 255, 65536,
                                   2**32 - 1))

    def begin(self):
        code = w.lib.wz_begin(self.handle, self.short(), self.value)
        if code == w.OK:
            self.known.append(self.value.value)
        return code

    def some_bytes(self):
        return w.lib.wz_bytes(self.handle, self.buffer, self.random.choice((0, 1, 512, 1024)))

    def disk(self):
        return w.lib.wz_disk(self.handle, w.Work())

    def reopen(self):
        w.lib.wz_close(self.handle)
        return w.lib.wz_open(self.handle, b"", 0)

    def of_number(self, name, *rest):
        return getattr(w.lib, name)(self.handle, self.number(), *rest)

    def step(self):
        word, lib, short = self.word, w.lib, self.short
        calls = (
            self.begin, self.begin, self.disk, self.disk, self.disk, self.some_bytes,
            lambda: lib.wz_start(self.handle),
            lambda: lib.wz_recovered(self.handle, short()),
            lambda: self.of_number("wz_outcome", short(), word),
            lambda: self.of_number("wz_enlist_volatile", short(), word),
            lambda: self.of_number("wz_enlist_durable", short(), short(), word),
            lambda: self.of_number("wz_enlist_promotable", short(), word),
            lambda: self.of_number("wz_clone", short(), word),
            lambda: self.of_number("wz_complete", short()),
            lambda: self.of_number("wz_identifier", self.buffer),
            lambda: self.of_number("wz_commit"),
            lambda: self.of_number("wz_rollback"),
            lambda: self.of_number("wz_tick", short()),
            lambda: self.of_number("wz_lost", short()),
            lambda: self.of_number("wz_next", w.Event()),
            lambda: self.of_number("wz_next", w.Event()),
            lambda: self.of_number("wz_reply", short(), short()),
            lambda: self.of_number("wz_reply", short(), short()),
            lambda: self.of_number("wz_told", word),
            lambda: self.of_number("wz_end"),
        )
        return self.random.choice(calls)()


def calls_at_random():
    one, seen = Chance(3), collections.Counter()
    for n in range(20000):
        if n % 1000 == 0:
            seen[one.reopen()] += 1
        seen[one.step()] += 1
    w.lib.wz_close(one.handle)
    assert set(seen) <= ANSWERS, seen
    return f"answers {dict(sorted(seen.items(), reverse=True))}"


def null_pointers():
    """The wrapper tests null, which the library doesn't."""
    for call in (lambda: w.open_handle(None), lambda: w.Manager(None)):
        try:
            call()
        except TypeError:
            continue
        raise AssertionError("None was taken")


def main():
    for test in (breaks_off_before_the_record, breaks_off_after_the_record, breaks_off_anywhere,
                 spoilt_logs, calls_at_random, null_pointers):
        print(test.__name__, test() or "", flush=True)


if __name__ == "__main__":
    main()
