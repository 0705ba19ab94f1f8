//! A walk through the safe wrapper, over two lives of one log file: demo FILE.

#[allow(dead_code)] // a walk needs only a part of it
mod wirtozhak;

use std::fs::{File, OpenOptions};
use wirtozhak::Transaction;
use wirtozhak::{Error, Manager, NO_LOG, NO_SUCH, Objects, Outcome, Question, Reply, Result};

/// Says yes to all that it is asked, but for one enlistment, and keeps what it hears.
#[derive(Default)]
struct Witness {
    veto: u32,
    heard: Vec<String>,
}

impl Objects for Witness {
    fn asked(&mut self, _tx: Transaction, enlistment: u32, question: Question) -> Option<Reply> {
        self.heard.push(format!("{enlistment} {question:?}"));
        Some(match question {
            Question::Prepare if enlistment == self.veto => Reply::No,
            Question::Prepare => Reply::Yes,
            Question::Promote => Reply::Promoted,
            Question::Hand | Question::Single => Reply::OwnCommitted,
        })
    }

    fn told(&mut self, _tx: Transaction, enlistment: u32, outcome: Outcome) {
        self.heard.push(format!("{enlistment} {outcome:?}"));
    }
}

fn log_file(path: &str) -> Result<File> {
    let mut options = OpenOptions::new();
    Ok(options
        .read(true)
        .write(true)
        .create(true)
        .truncate(false)
        .open(path)?)
}

fn two_durables(manager: &mut Manager, witness: &mut Witness) -> Result<Transaction> {
    let tx = manager.begin(0)?;
    assert_eq!(manager.enlist_durable(tx, 1, false)?, 1);
    assert_eq!(manager.enlist_durable(tx, 2, false)?, 2);
    assert_eq!(manager.drive(tx, witness)?, None);
    Ok(tx)
}

fn all_commit(manager: &mut Manager) -> Result<Transaction> {
    let mut witness = Witness::default();
    let tx = two_durables(manager, &mut witness)?;
    assert_eq!(manager.commit(tx, &mut witness)?, Some(Outcome::Committed));
    let heard = ["1 Prepare", "2 Prepare", "1 Committed", "2 Committed"];
    assert_eq!(witness.heard, heard);
    manager.end(tx)?;
    assert!(matches!(manager.end(tx), Err(Error::Answer(NO_SUCH))));
    Ok(tx)
}

fn one_refuses(manager: &mut Manager) -> Result<()> {
    let mut witness = Witness {
        veto: 2,
        ..Witness::default()
    };
    let tx = two_durables(manager, &mut witness)?;
    assert_eq!(manager.commit(tx, &mut witness)?, Some(Outcome::Aborted));
    assert_eq!(witness.heard, ["1 Prepare", "2 Prepare", "1 Aborted"]);
    manager.end(tx)
}

fn rolls_back(manager: &mut Manager) -> Result<()> {
    let mut witness = Witness::default();
    let tx = manager.begin(1000)?;
    assert_eq!(manager.enlist_volatile(tx, false)?, 1);
    assert_eq!(manager.rollback(tx, &mut witness)?, Some(Outcome::Aborted));
    assert_eq!(witness.heard, ["1 Aborted"]);
    manager.end(tx)
}

/// One life: all transactions have numbers above those of the life before.
fn life(path: &str, last: Transaction) -> Result<Transaction> {
    let mut manager = Manager::open(log_file(path)?, true)?;
    assert!(
        Manager::open(log_file(path)?, true).is_err(),
        "the file is locked"
    );
    for rm in [1, 2] {
        manager.recovered(rm)?;
    }
    manager.start()?;
    let tx = all_commit(&mut manager)?;
    assert!(tx > last);
    one_refuses(&mut manager)?;
    rolls_back(&mut manager)?;
    let mut moved = Box::new(manager); // its handle has another place now
    all_commit(&mut moved)
}

fn main() -> Result<()> {
    let path = std::env::args().nth(1).expect("demo FILE");
    assert!(matches!(
        Manager::open(log_file(&path)?, false),
        Err(Error::Answer(NO_LOG))
    ));
    let last = life(&path, Transaction(0))?;
    let last_of_second = life(&path, last)?;
    println!(
        "the last numbers of two lives: {}, {}",
        last.0, last_of_second.0
    );
    Ok(())
}
