//! Wirtozhak's transaction manager for Rust: a safe wrapper of what wirtozhak.h describes.

use std::collections::HashSet;
use std::ffi::c_void;
use std::fmt;
use std::fs::File;
use std::io::{self, Read, Seek};
use std::os::unix::fs::FileExt;

/// Only the library writes it. The pointer makes it neither `Send` nor `Sync`.
#[repr(C)]
struct Handle {
    open: bool,
    at: *mut c_void,
}

#[repr(C)]
#[derive(Default)]
struct Event {
    kind: u32,
    enlistment: u32,
    outcome: u32,
}

#[repr(C)]
#[derive(Default)]
struct Work {
    kind: u32,
    at: u64,
    length: u64,
}

unsafe extern "C" {
    fn wz_open(handle: &mut Handle, log: *const u8, length: usize) -> i32;
    fn wz_outcome(handle: &mut Handle, tx: u64, enlistment: u32, outcome: &mut u32) -> i32;
    fn wz_recovered(handle: &mut Handle, rm: u32) -> i32;
    fn wz_start(handle: &mut Handle) -> i32;
    fn wz_begin(handle: &mut Handle, milliseconds: u32, tx: &mut u64) -> i32;
    fn wz_enlist_volatile(handle: &mut Handle, tx: u64, during: u32, enlistment: &mut u32) -> i32;
    fn wz_enlist_durable(
        handle: &mut Handle,
        tx: u64,
        rm: u32,
        single: u32,
        enlistment: &mut u32,
    ) -> i32;
    fn wz_enlist_promotable(handle: &mut Handle, tx: u64, rm: u32, enlistment: &mut u32) -> i32;
    fn wz_clone(handle: &mut Handle, tx: u64, rollback: u32, clone: &mut u32) -> i32;
    fn wz_complete(handle: &mut Handle, tx: u64, clone: u32) -> i32;
    fn wz_identifier(handle: &mut Handle, tx: u64, sixteen: &mut [u8; 16]) -> i32;
    fn wz_commit(handle: &mut Handle, tx: u64) -> i32;
    fn wz_rollback(handle: &mut Handle, tx: u64) -> i32;
    fn wz_tick(handle: &mut Handle, tx: u64, milliseconds: u32) -> i32;
    fn wz_lost(handle: &mut Handle, tx: u64, enlistment: u32) -> i32;
    fn wz_next(handle: &mut Handle, tx: u64, event: &mut Event) -> i32;
    fn wz_reply(handle: &mut Handle, tx: u64, enlistment: u32, reply: u32) -> i32;
    fn wz_told(handle: &mut Handle, tx: u64, outcome: &mut u32) -> i32;
    fn wz_end(handle: &mut Handle, tx: u64) -> i32;
    fn wz_disk(handle: &mut Handle, work: &mut Work) -> i32;
    fn wz_bytes(handle: &mut Handle, into: *mut u8, length: usize) -> i32;
    fn wz_close(handle: &mut Handle) -> i32;
}

const OK: i32 = 0;
const NOTHING: i32 = 1;
const DISK: i32 = 2;
pub const NO_LOG: i32 = -3;
pub const NO_SUCH: i32 = -5;

const INIT: u32 = 1;
const TOLD: u32 = 6;
const ZEROS: u32 = 2;
const SYNC: u32 = 3;

/// What the library answered where it didn't do what it was asked for, or a failure of the file.
#[derive(Debug)]
pub enum Error {
    Answer(i32),
    File(io::Error),
}

impl fmt::Display for Error {
    fn fmt(&self, out: &mut fmt::Formatter) -> fmt::Result {
        match self {
            Error::Answer(code) => write!(out, "the transaction manager answered {code}"),
            Error::File(error) => write!(out, "the log's file: {error}"),
        }
    }
}

impl std::error::Error for Error {}

impl From<io::Error> for Error {
    fn from(error: io::Error) -> Error {
        Error::File(error)
    }
}

pub type Result<T> = std::result::Result<T, Error>;

#[derive(Clone, Copy, PartialEq, Eq, Debug)]
pub enum Outcome {
    Committed,
    Aborted,
    InDoubt,
}

#[derive(Clone, Copy, PartialEq, Eq, Debug)]
pub enum Question {
    Prepare,
    Promote,
    Hand,
    Single,
}

#[derive(Clone, Copy, PartialEq, Eq, Debug)]
pub enum Reply {
    Yes = 1,
    No = 2,
    Done = 3,
    OwnCommitted = 5,
    OwnAborted = 6,
    OwnInDoubt = 7,
    Promoted = 8,
    NotPromoted = 9,
}

const ACK: u32 = 4;

/// A transaction, by its number, which never comes twice in the life of a log.
#[derive(Clone, Copy, PartialEq, Eq, Hash, Debug, PartialOrd, Ord)]
pub struct Transaction(pub u64);

/// All that a program enlists; it tells them apart by the transaction and the enlistment.
pub trait Objects {
    /// A promotable was taken, and its own transaction begins.
    fn begins(&mut self, _tx: Transaction, _enlistment: u32) {}
    /// The reply, or none: `Manager::reply` gives it later.
    fn asked(&mut self, tx: Transaction, enlistment: u32, question: Question) -> Option<Reply>;
    /// The outcome. A durable one whose work committed has made it last when this returns.
    fn told(&mut self, tx: Transaction, enlistment: u32, outcome: Outcome);
}

/// A transaction manager over a log file, which it has locked. Dropping it closes it, as a crash.
pub struct Manager {
    handle: Handle,
    log: File,
    durable: HashSet<(Transaction, u32)>,
    prepared: HashSet<(Transaction, u32)>,
}

impl Drop for Manager {
    fn drop(&mut self) {
        self.close();
    }
}

fn done(code: i32) -> Result<()> {
    if code < 0 {
        Err(Error::Answer(code))
    } else {
        Ok(())
    }
}

fn outcome_of(word: u32) -> Option<Outcome> {
    match word {
        1 => Some(Outcome::Committed),
        2 => Some(Outcome::Aborted),
        3 => Some(Outcome::InDoubt),
        _ => None,
    }
}

fn question_of(word: u32) -> Option<Question> {
    match word {
        2 => Some(Question::Prepare),
        3 => Some(Question::Promote),
        4 => Some(Question::Hand),
        5 => Some(Question::Single),
        _ => None,
    }
}

impl Manager {
    /// Takes up the log in the file. `anew`: no resource manager has prepared work; only then may
    /// an empty log be begun where the file has none.
    pub fn open(mut log: File, anew: bool) -> Result<Manager> {
        log.try_lock().map_err(io::Error::from)?;
        let mut bytes = Vec::new();
        log.rewind()?;
        log.read_to_end(&mut bytes)?;
        let handle = Handle {
            open: false,
            at: std::ptr::null_mut(),
        };
        let (durable, prepared) = (HashSet::new(), HashSet::new());
        let mut manager = Manager {
            handle,
            log,
            durable,
            prepared,
        };
        manager.take_up(&bytes, anew)?;
        manager.do_disk()?;
        Ok(manager)
    }

    fn take_up(&mut self, bytes: &[u8], anew: bool) -> Result<()> {
        if bytes.is_empty() && !anew {
            return Err(Error::Answer(NO_LOG));
        }
        // The pointer of an empty slice isn't null.
        let code = unsafe { wz_open(&mut self.handle, bytes.as_ptr(), bytes.len()) };
        if code == NO_LOG && anew {
            let none: &[u8] = &[];
            return done(unsafe { wz_open(&mut self.handle, none.as_ptr(), 0) });
        }
        done(code)
    }

    fn close(&mut self) {
        unsafe { wz_close(&mut self.handle) };
    }

    /// Does what the log asks of its disk. Where that fails the manager is closed: to ask for the
    /// next request would say that this one is done.
    fn do_disk(&mut self) -> Result<()> {
        let mut work = Work::default();
        loop {
            let code = unsafe { wz_disk(&mut self.handle, &mut work) };
            if code != OK {
                return done(code);
            }
            if let Err(error) = self.do_work(&work) {
                self.close();
                return Err(error);
            }
        }
    }

    fn do_work(&mut self, work: &Work) -> Result<()> {
        if work.kind == SYNC {
            return Ok(self.log.sync_all()?);
        }
        let mut bytes = vec![0; work.length as usize];
        if work.kind != ZEROS {
            done(unsafe { wz_bytes(&mut self.handle, bytes.as_mut_ptr(), bytes.len()) })?;
        }
        Ok(self.log.write_all_at(&bytes, work.at)?)
    }

    /// What the log says of an enlistment of an earlier life.
    pub fn outcome(&mut self, tx: Transaction, enlistment: u32) -> Result<Option<Outcome>> {
        let mut word = 0;
        done(unsafe { wz_outcome(&mut self.handle, tx.0, enlistment, &mut word) })?;
        Ok(outcome_of(word))
    }

    /// The resource manager knows all that it had prepared, and its work lasts.
    pub fn recovered(&mut self, rm: u32) -> Result<()> {
        done(unsafe { wz_recovered(&mut self.handle, rm) })?;
        self.do_disk()
    }

    /// Begins an epoch, ahead of the first transaction.
    pub fn start(&mut self) -> Result<()> {
        done(unsafe { wz_start(&mut self.handle) })?;
        self.do_disk()
    }

    /// Begins a transaction; 0 milliseconds are ten minutes.
    pub fn begin(&mut self, milliseconds: u32) -> Result<Transaction> {
        let mut number = 0;
        loop {
            let code = unsafe { wz_begin(&mut self.handle, milliseconds, &mut number) };
            if code != DISK {
                return done(code).map(|()| Transaction(number));
            }
            self.do_disk()?;
        }
    }

    pub fn enlist_volatile(&mut self, tx: Transaction, during_prepare: bool) -> Result<u32> {
        let (mut enlistment, during) = (0, during_prepare.into());
        done(unsafe { wz_enlist_volatile(&mut self.handle, tx.0, during, &mut enlistment) })?;
        Ok(enlistment)
    }

    /// Where another one has to be promoted for this, `drive` asks it to.
    pub fn enlist_durable(&mut self, tx: Transaction, rm: u32, single: bool) -> Result<u32> {
        let (mut enlistment, single) = (0, single.into());
        done(unsafe { wz_enlist_durable(&mut self.handle, tx.0, rm, single, &mut enlistment) })?;
        self.durable.insert((tx, enlistment));
        Ok(enlistment)
    }

    /// None where it wasn't taken, since another resource is enlisted.
    pub fn enlist_promotable(&mut self, tx: Transaction, rm: u32) -> Result<Option<u32>> {
        let mut enlistment = 0;
        done(unsafe { wz_enlist_promotable(&mut self.handle, tx.0, rm, &mut enlistment) })?;
        Ok(if enlistment == 0 {
            None
        } else {
            Some(enlistment)
        })
    }

    pub fn dependent_clone(&mut self, tx: Transaction, rollback: bool) -> Result<u32> {
        let mut clone = 0;
        done(unsafe { wz_clone(&mut self.handle, tx.0, rollback.into(), &mut clone) })?;
        Ok(clone)
    }

    pub fn complete(&mut self, tx: Transaction, clone: u32) -> Result<()> {
        done(unsafe { wz_complete(&mut self.handle, tx.0, clone) })
    }

    /// None while the transaction is being promoted: `drive`, and call again.
    pub fn identifier(&mut self, tx: Transaction) -> Result<Option<[u8; 16]>> {
        let mut sixteen = [0; 16];
        let code = unsafe { wz_identifier(&mut self.handle, tx.0, &mut sixteen) };
        done(code)?;
        Ok(if code == OK { Some(sixteen) } else { None })
    }

    /// The outcome, or none where somebody hasn't replied.
    pub fn commit(
        &mut self,
        tx: Transaction,
        objects: &mut dyn Objects,
    ) -> Result<Option<Outcome>> {
        done(unsafe { wz_commit(&mut self.handle, tx.0) })?;
        self.drive(tx, objects)
    }

    pub fn rollback(
        &mut self,
        tx: Transaction,
        objects: &mut dyn Objects,
    ) -> Result<Option<Outcome>> {
        done(unsafe { wz_rollback(&mut self.handle, tx.0) })?;
        self.drive(tx, objects)
    }

    /// So many milliseconds went by.
    pub fn tick(&mut self, tx: Transaction, milliseconds: u32) -> Result<()> {
        done(unsafe { wz_tick(&mut self.handle, tx.0, milliseconds) })
    }

    /// The connection to the enlistment broke.
    pub fn lost(&mut self, tx: Transaction, enlistment: u32) -> Result<()> {
        done(unsafe { wz_lost(&mut self.handle, tx.0, enlistment) })
    }

    /// The reply of one that gave none when it was asked; `drive` goes on with it.
    pub fn reply(&mut self, tx: Transaction, enlistment: u32, reply: Reply) -> Result<()> {
        done(unsafe { wz_reply(&mut self.handle, tx.0, enlistment, reply as u32) })?;
        if reply == Reply::Yes && self.durable.contains(&(tx, enlistment)) {
            self.prepared.insert((tx, enlistment));
        }
        Ok(())
    }

    /// What the client was told.
    pub fn told(&mut self, tx: Transaction) -> Result<Option<Outcome>> {
        let mut word = 0;
        done(unsafe { wz_told(&mut self.handle, tx.0, &mut word) })?;
        Ok(outcome_of(word))
    }

    /// Forgets a transaction that is over.
    pub fn end(&mut self, tx: Transaction) -> Result<()> {
        done(unsafe { wz_end(&mut self.handle, tx.0) })?;
        self.durable.retain(|(owner, _)| *owner != tx);
        self.prepared.retain(|(owner, _)| *owner != tx);
        Ok(())
    }

    /// Does all that is pending. Gives what the client was told.
    pub fn drive(&mut self, tx: Transaction, objects: &mut dyn Objects) -> Result<Option<Outcome>> {
        let mut event = Event::default();
        loop {
            let code = unsafe { wz_next(&mut self.handle, tx.0, &mut event) };
            done(code)?;
            match code {
                NOTHING => return self.told(tx),
                DISK => self.do_disk()?,
                _ => self.take(tx, &event, objects)?,
            }
        }
    }

    fn take(&mut self, tx: Transaction, event: &Event, objects: &mut dyn Objects) -> Result<()> {
        let enlistment = event.enlistment;
        if event.kind == INIT {
            objects.begins(tx, enlistment);
        } else if let Some(question) = question_of(event.kind) {
            if let Some(reply) = objects.asked(tx, enlistment, question) {
                return self.reply(tx, enlistment, reply);
            }
        } else if event.kind == TOLD && enlistment != 0 {
            if let Some(outcome) = outcome_of(event.outcome) {
                return self.tell(tx, enlistment, outcome, objects);
            }
        }
        Ok(())
    }

    /// A durable one that had prepared acknowledges that it committed.
    fn tell(
        &mut self,
        tx: Transaction,
        enlistment: u32,
        outcome: Outcome,
        objects: &mut dyn Objects,
    ) -> Result<()> {
        objects.told(tx, enlistment, outcome);
        if outcome == Outcome::Committed && self.prepared.contains(&(tx, enlistment)) {
            done(unsafe { wz_reply(&mut self.handle, tx.0, enlistment, ACK) })?;
        }
        Ok(())
    }
}
