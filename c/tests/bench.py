"""How long commits take from Python: bench.py FILE. Nothing fails by the time."""
import sys
import time

import wirtozhak as w


class Yes:
    """Says yes to all that is asked."""

    def asked(self, transaction, enlistment, kind):
        return w.YES

    def told(self, transaction, enlistment, outcome):
        pass


class Forgetful(w.Manager):
    """Its log is nowhere, so that the disk costs nothing."""

    def do_disk(self):
        while w.lib.wz_disk(self.handle, w.Work()) == w.OK:
            pass


def local(manager, one):
    transaction = manager.begin()
    transaction.enlist_volatile(one)
    transaction.enlist_volatile(one)
    assert transaction.commit() == w.COMMITTED
    transaction.end()


def distributed(manager, one):
    transaction = manager.begin()
    transaction.enlist_durable(1, one)
    transaction.enlist_durable(2, one)
    assert transaction.commit() == w.COMMITTED
    transaction.end()


def measure(name, work, times, *rest):
    """Prints the least of some rounds: the machine has other work too."""
    took = []
    for _ in range(5):
        before = time.perf_counter()
        for _ in range(times):
            work(*rest)
        took.append((time.perf_counter() - before) / times)
    print(f"{name}: {min(took) * 1e6:.1f} us")


def main(path):
    with Forgetful(path, anew=True) as manager:
        manager.start()
        measure("a local commit of two volatiles", local, 5000, manager, Yes())
    with w.Manager(path, anew=True) as manager:
        manager.start()
        measure("a commit of two durables, with its syncs", distributed, 20, manager, Yes())


if __name__ == "__main__":
    main(sys.argv[1])
