"""Moves money between two SQLite files, each transfer one transaction: bank.py FOLDER NAME [COUNT].

Each file is a durable resource manager. It prepares in its file before it says yes, and in a later
life asks what came of all that it had prepared. Status 3: the books are wrong.
"""
import os
import random
import sqlite3
import sys

import wirtozhak as w

ACCOUNTS, BALANCE = 3, 1000
WHOLE = 2 * ACCOUNTS * BALANCE

# run.sh alone sets this, to see that kill_test.py finds a recovery that is wrong.
WRONG_RECOVERY = os.environ.get("WZ_BANK_RECOVERY")

TABLES = (
    "create table if not exists account(id integer primary key, balance integer)",
    "create table if not exists applied(transfer text primary key)",
    "create table if not exists prepared(tx integer, enlistment integer, account integer,"
    " amount integer, transfer text, primary key(tx, enlistment))",
)


class Bank:
    """The resource manager of one file; `rm` is its number in each life."""

    def __init__(self, path, rm):
        self.rm, self.work = rm, {}
        self.db = sqlite3.connect(path, isolation_level=None)
        self.db.execute("pragma synchronous=full")
        self.db.execute("begin immediate")
        for table in TABLES:
            self.db.execute(table)
        for account in range(1, ACCOUNTS + 1):
            self.db.execute("insert or ignore into account values(?, ?)", (account, BALANCE))
        self.db.execute("commit")

    def change(self, transaction, account, amount, transfer):
        """Takes part in a transaction with a change of an account."""
        enlistment = transaction.enlist_durable(self.rm, self)
        self.work[transaction.number, enlistment] = (account, amount, transfer)

    def asked(self, transaction, enlistment, kind):
        assert kind == w.PREPARE, kind
        return w.YES if self.prepare(transaction.number, enlistment) else w.NO

    def told(self, transaction, enlistment, outcome):
        assert outcome in (w.COMMITTED, w.ABORTED), outcome
        self.finish(transaction.number, enlistment, outcome)

    def prepare(self, tx, enlistment):
        """Keeps the change in the file, so that it can be done or dropped also after a crash."""
        account, amount, transfer = self.work.pop((tx, enlistment))
        self.db.execute("begin immediate")
        # Only one transfer goes on at a time, so nothing else is prepared on this account.
        (balance,) = self.db.execute("select balance from account where id=?",
                                     (account,)).fetchone()
        if balance + amount < 0:
            self.db.execute("rollback")
            return False
        self.db.execute("insert into prepared values(?, ?, ?, ?, ?)",
                        (tx, enlistment, account, amount, transfer))
        self.db.execute("commit")
        return True

    def finish(self, tx, enlistment, outcome):
        """Does what was prepared, or drops it. Where nothing is prepared there is nothing to do."""
        self.work.pop((tx, enlistment), None)
        self.db.execute("begin immediate")
        row = self.db.execute(
            "select account, amount, transfer from prepared where tx=? and enlistment=?",
            (tx, enlistment)).fetchone()
        if row and outcome == w.COMMITTED:
            account, amount, transfer = row
            self.db.execute("update account set balance=balance+? where id=?", (amount, account))
            self.db.execute("insert into applied values(?)", (transfer,))
        self.db.execute("delete from prepared where tx=? and enlistment=?", (tx, enlistment))
        self.db.execute("commit")

    def prepared(self):
        """What an earlier life had prepared, and not heard of."""
        return self.db.execute("select tx, enlistment from prepared").fetchall()

    def recover(self, manager):
        for tx, enlistment in self.prepared():
            outcome = manager.outcome(tx, enlistment)
            if WRONG_RECOVERY:
                outcome = {"abort": w.ABORTED, "commit": w.COMMITTED}[WRONG_RECOVERY]
            self.finish(tx, enlistment, outcome)
            say("recovered", name_of(outcome), self.rm, tx, enlistment)
        manager.recovered(self.rm)

    def sum(self):
        return self.db.execute("select sum(balance) from account").fetchone()[0]

    def applied(self):
        return {transfer for (transfer,) in self.db.execute("select transfer from applied")}


def name_of(outcome):
    return {w.COMMITTED: "committed", w.ABORTED: "aborted", w.IN_DOUBT: "in_doubt"}[outcome]


def say(*words):
    """One line to the client, at once: a kill takes back nothing that was said."""
    sys.stdout.write(" ".join(map(str, words)) + "\n")
    sys.stdout.flush()


def check_books(one, other):
    """Nothing is lost or made, and each transfer is in both files or in none."""
    whole, same = one.sum() + other.sum() == WHOLE, one.applied() == other.applied()
    say("checked", "well" if whole and same else "wrong", len(one.applied()))
    if not (whole and same):
        sys.exit(3)


def transfer(manager, banks, chance, name):
    source, target = chance.sample(banks, 2)
    amount = chance.randint(1, BALANCE * 2 // 3)
    transaction = manager.begin()
    source.change(transaction, chance.randint(1, ACCOUNTS), -amount, name)
    target.change(transaction, chance.randint(1, ACCOUNTS), amount, name)
    outcome = transaction.commit()
    say(name_of(outcome), name)
    transaction.end()


def main(folder, name, count):
    banks = [Bank(os.path.join(folder, "one.db"), 1), Bank(os.path.join(folder, "other.db"), 2)]
    # A log that a kill broke off while it was made may be begun anew, if nobody prepared anything.
    anew = not any(bank.prepared() for bank in banks)
    with w.Manager(os.path.join(folder, "coordinator.log"), anew) as manager:
        for bank in banks:
            bank.recover(manager)
        check_books(*banks)
        manager.start()
        chance = random.Random(name)
        for n in range(count):
            transfer(manager, banks, chance, f"{name}-{n}")
        check_books(*banks)


if __name__ == "__main__":
    main(sys.argv[1], sys.argv[2], int(sys.argv[3]) if len(sys.argv) > 3 else 1000)
