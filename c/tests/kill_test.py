"""Kills bank.py at random moments, and looks what holds: kill_test.py FOLDER KILLS.

Status 4: the books are wrong, which a wrong recovery has to end in. Any other failure: status 1.
"""
import collections
import os
import random
import signal
import sqlite3
import subprocess
import sys
import time

BANK = os.path.join(os.path.dirname(os.path.abspath(__file__)), "bank.py")
WHOLE = 6000


class Client:
    """What the lives of the bank told."""

    def __init__(self):
        self.told = {"committed": set(), "aborted": set()}
        self.counts = collections.Counter()

    def hear(self, line):
        """One line of a life; one that the kill cut off counts as not heard."""
        words = line.split()
        if not line.endswith("\n") or not words:
            return
        if words[0] in ("recovered", "checked"):
            self.counts[" ".join(words[:2])] += 1
        elif words[0] in self.told:
            self.told[words[0]].add(words[1])
        else:
            sys.exit(f"an odd line: {line}")


def wrong(why):
    print(why)
    sys.exit(4)


def begin_life(folder, name, *count):
    return subprocess.Popen([sys.executable, BANK, folder, name, *count], stdout=subprocess.PIPE,
                            bufsize=0)


def end_of(life, client):
    """Takes the rest of what a life told, and its status."""
    for line in life.stdout.read().decode().splitlines(keepends=True):
        client.hear(line)
    life.stdout.close()
    status = life.wait()
    if status == 3:
        wrong("the books are wrong after a recovery")
    return status


def kill_once(folder, name, client, chance):
    """One life, killed: at any moment from its start on, or while it moves money."""
    life = begin_life(folder, name)
    if chance.random() < 0.5:
        time.sleep(chance.uniform(0, 0.3))
    else:
        line = " "
        while line and not line.startswith("checked"):
            line = life.stdout.readline().decode()
            client.hear(line)
        time.sleep(chance.uniform(0, 0.1))
    os.kill(life.pid, signal.SIGKILL)
    status = end_of(life, client)
    if status == -signal.SIGKILL:
        client.counts["kills"] += 1
    elif status != 0:
        sys.exit(f"life {name}: status {status}")


def books(path):
    db = sqlite3.connect(path)
    (balance,) = db.execute("select sum(balance) from account").fetchone()
    (left,) = db.execute("select count(*) from prepared").fetchone()
    applied = {name for (name,) in db.execute("select transfer from applied")}
    db.close()
    return balance, applied, left


def check_end(folder, client):
    """The sum holds, and both files have the same transfers and all that was told."""
    one, applied, left = books(os.path.join(folder, "one.db"))
    other, applied_there, left_there = books(os.path.join(folder, "other.db"))
    if one + other != WHOLE:
        wrong(f"the sum is {one + other}")
    if applied != applied_there:
        wrong(f"{len(applied ^ applied_there)} transfers are in one file alone")
    if left or left_there:
        wrong("something is still prepared")
    lacking = client.told["committed"] - applied
    if lacking:
        wrong(f"{len(lacking)} transfers were told committed, and aren't there")
    undone = client.told["aborted"] & applied
    if undone:
        wrong(f"{len(undone)} transfers were told aborted, and are there")
    return len(applied)


def main(folder, kills):
    client, chance, lives = Client(), random.Random(), 0
    while client.counts["kills"] < kills:
        kill_once(folder, f"life{lives}", client, chance)
        lives += 1
    last = begin_life(folder, "last", "3")
    status = end_of(last, client)
    if status != 0:
        sys.exit(f"the last life: status {status}")
    applied = check_end(folder, client)
    print(dict(client.counts), f"{len(client.told['committed'])} told committed,",
          f"{applied} applied")
    # Without these the kills would have tried nothing.
    for word in ("committed", "aborted"):
        if kills >= 100 and not client.counts[f"recovered {word}"]:
            sys.exit(f"no kill left anything that had {word}")


if __name__ == "__main__":
    main(sys.argv[1], int(sys.argv[2]))
