//! A coordinator of Kafka consumer groups (KIP-848) inside a Rust program.
//!
//! [`Coordinator`] owns a slot of the C library and is the only way to it, so what the library asks of C holds by Rust's rules: a
//! `&mut` for each call, no null pointer, and no two pointers to one place. The coordinator lies on the heap, so the slot may be moved.
//! [`Replica`] is a coordinator that applies the entries of a log, and owns a slot in the same way.

mod raw;
mod replica;

pub use replica::{Applied, Parts, Place, Replica};
use std::fmt;

/// What became of a frame.
#[derive(Clone, Debug, PartialEq, Eq)]
pub enum Answer {
    /// The frame of the reply, with its size.
    Reply(Vec<u8>),
    /// Nothing is replied, and the connection is to be closed.
    Close,
}

/// Why a call did nothing.
#[derive(Clone, Copy, Debug, PartialEq, Eq)]
pub enum Error {
    NoMemory,
    DuplicateName,
    DuplicateId,
    TooMany,
    BadCount,
    /// A replica proposes or applies no entry, by a code of include/migwelun.h; the replica is then as it was.
    BadEntry(i32),
    /// Bytes are no snapshot, by a code of include/migwelun.h and the number of the byte that is wrong.
    BadSnapshot { code: i32, at: usize },
}

impl fmt::Display for Error {
    fn fmt(&self, f: &mut fmt::Formatter<'_>) -> fmt::Result {
        f.write_str(match self {
            Error::BadEntry(code) => return write!(f, "the entry is refused with {code}"),
            Error::BadSnapshot { code, at } => return write!(f, "the snapshot is refused with {code} at byte {at}"),
            Error::NoMemory => "out of memory",
            Error::DuplicateName => "two topics have one name",
            Error::DuplicateId => "two topics have one id",
            Error::TooMany => "there are more than 10000 topics or 1000000 partitions",
            Error::BadCount => "a topic has fewer than 1 partition or more than 100000",
        })
    }
}

impl std::error::Error for Error {}

/// A topic of the cluster.
#[derive(Clone, Copy, Debug)]
pub struct Topic<'a> {
    pub name: &'a str,
    pub id: [u8; 16],
    pub partitions: i32,
}

/// Where a frame came from: the number of its connection in the order of acceptance, and its number on that connection.
#[derive(Clone, Copy, Debug, PartialEq, Eq, PartialOrd, Ord)]
pub struct Stamp {
    pub connection: u64,
    pub frame: u64,
}

/// A coordinator, with its groups and topics.
pub struct Coordinator {
    slot: raw::Slot,
}

// The library keeps nothing of a thread's, and each call has the slot for itself.
unsafe impl Send for Coordinator {}

impl Coordinator {
    /// A coordinator with no groups and no topics. The salt is the first half of the ids that it makes; the keys are 16 random bytes.
    pub fn new(salt: u64, keys: &[u8; 16]) -> Result<Coordinator, Error> {
        let mut it = Coordinator { slot: raw::Slot::EMPTY };
        done(unsafe { raw::migwelun_make(&mut it.slot, salt, keys.as_ptr()) })?;
        Ok(it)
    }

    /// Answers the body of a frame that came at a moment, in milliseconds of a clock that doesn't go back.
    pub fn answer(&mut self, body: &[u8], stamp: Stamp, moment: u64) -> Result<Answer, Error> {
        let code = unsafe {
            raw::migwelun_answer(&mut self.slot, body.as_ptr(), body.len(), stamp.connection, stamp.frame, moment)
        };
        match code {
            raw::CLOSES => Ok(Answer::Close),
            code => done(code).map(|()| Answer::Reply(take(&mut self.slot, raw::migwelun_take))),
        }
    }

    /// Removes the members whose time is over at the moment, and says how many.
    pub fn tick(&mut self, moment: u64) -> usize {
        let mut removed = 0;
        unsafe { raw::migwelun_tick(&mut self.slot, moment, &mut removed) };
        removed
    }

    /// Sets the topics of the cluster. After an error they are as they were; after [`Error::NoMemory`], set none any more.
    pub fn set_topics(&mut self, topics: &[Topic<'_>]) -> Result<(), Error> {
        add_topics(&mut self.slot, topics)?;
        match unsafe { raw::migwelun_set_topics(&mut self.slot) } {
            1 => Err(Error::DuplicateName),
            2 => Err(Error::DuplicateId),
            3 => Err(Error::TooMany),
            4 => Err(Error::BadCount),
            code => done(code),
        }
    }

    /// Whether a group has a member, or remembers it as a former one.
    pub fn remembers(&mut self, group: &str, member: &str) -> bool {
        raw::YES
            == unsafe {
                raw::migwelun_remembers(&mut self.slot, group.as_ptr(), group.len(), member.as_ptr(), member.len())
            }
    }

    /// The epoch of a member (-2 while it is away), and the one before it.
    pub fn epochs(&mut self, group: &str, member: &str) -> Option<(i32, i32)> {
        let (mut epoch, mut previous) = (0, 0);
        let code = unsafe {
            let (group, member) = ((group.as_ptr(), group.len()), (member.as_ptr(), member.len()));
            raw::migwelun_epochs(&mut self.slot, group.0, group.1, member.0, member.1, &mut epoch, &mut previous)
        };
        (code == raw::DONE).then_some((epoch, previous))
    }
}

impl Drop for Coordinator {
    fn drop(&mut self) {
        unsafe { raw::migwelun_drop(&mut self.slot) }
    }
}

fn add_topics(slot: &mut raw::Slot, topics: &[Topic<'_>]) -> Result<(), Error> {
    topics.iter().try_for_each(|topic| {
        let (name, id) = (topic.name.as_bytes(), topic.id.as_ptr());
        done(unsafe { raw::migwelun_add_topic(slot, name.as_ptr(), name.len(), id, topic.partitions) })
    })
}

/// The bytes that wait.
fn take(slot: &mut raw::Slot, call: raw::Take) -> Vec<u8> {
    let mut bytes = vec![0; 256];
    let mut size = 0;
    while unsafe { call(slot, bytes.as_mut_ptr(), bytes.len(), &mut size) } == raw::SHORT {
        bytes.resize(size, 0);
    }
    bytes.truncate(size);
    bytes
}

/// What a code says that is no answer.
fn done(code: i32) -> Result<(), Error> {
    match code {
        raw::DONE => Ok(()),
        raw::NO_MEMORY => Err(Error::NoMemory),
        1.. => Err(Error::BadEntry(code)),
        // A coordinator's slot is full, and its names are texts.
        code => unreachable!("the library returned {code}"),
    }
}
