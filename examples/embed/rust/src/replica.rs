//! A replica: a coordinator that applies the entries of a log that the program keeps.

use crate::{done, raw, Answer, Error, Topic};

/// How far a replica has come: how many entries it has applied, the number of the last leadership that began, and the greatest moment.
#[derive(Clone, Copy, Debug, PartialEq, Eq)]
pub struct Place {
    pub applied: u64,
    pub leadership: u32,
    pub moment: u64,
}

/// A place of the log that was applied.
#[derive(Clone, Debug, PartialEq, Eq)]
pub enum Applied {
    /// A frame: the number of its leadership, of its connection under it and of itself on that, and what became of it.
    Frame { leadership: u32, connection: u32, frame: u64, answer: Answer },
    /// How many members a tick removed.
    Tick { removed: u64 },
    Topics,
    Leads { leadership: u32 },
    /// The entry was refused, and nothing else has changed.
    PassedOver { why: Error },
}

/// A replica of a log. One that leads proposes entries; each applies those that the log has, in their order, and answers only then.
pub struct Replica {
    slot: raw::Slot,
}

// The library keeps nothing of a thread's, and each call has the slot for itself.
unsafe impl Send for Replica {}

impl Replica {
    /// A replica that has applied nothing. The salt is the same in all replicas of the log; the keys are 16 random bytes.
    pub fn new(salt: u64, keys: &[u8; 16]) -> Result<Replica, Error> {
        let mut it = Replica { slot: raw::Slot::EMPTY };
        done(unsafe { raw::migwelun_make_replica(&mut it.slot, salt, keys.as_ptr()) })?;
        Ok(it)
    }

    /// A replica that has come to what a snapshot says, and doesn't lead. The keys are as in [`Replica::new`]. Take snapshots from where you
    /// put them: a few bytes of somebody else can ask for much memory.
    pub fn restore(snapshot: &[u8], keys: &[u8; 16]) -> Result<Replica, Error> {
        let (mut it, mut at) = (Replica { slot: raw::Slot::EMPTY }, 0);
        let code = unsafe { raw::migwelun_restore(&mut it.slot, snapshot.as_ptr(), snapshot.len(), keys.as_ptr(), &mut at) };
        match code {
            raw::BAD_SNAPSHOT_FIELD..=raw::RESPELLED => Err(Error::BadSnapshot { code, at }),
            code => done(code).map(|()| it),
        }
    }

    /// What this replica has come to, as the parts of its one spelling, which stand one behind the other. Each has `size` bytes, or a group's
    /// more. After an error there is no further one.
    pub fn snapshot(&mut self, size: usize) -> Parts<'_> {
        let place = self.place().applied;
        Parts { replica: self, place, size, next: 0, is_over: false }
    }

    pub fn place(&mut self) -> Place {
        let mut it = Place { applied: 0, leadership: 0, moment: 0 };
        unsafe { raw::migwelun_place(&mut self.slot, &mut it.applied, &mut it.leadership, &mut it.moment) };
        it
    }

    /// The entry by which the next leadership begins.
    pub fn lead(&mut self) -> Result<Vec<u8>, Error> {
        let code = unsafe { raw::migwelun_lead(&mut self.slot) };
        self.proposed(code)
    }

    /// Leads from here on: its own entry of the present leadership was applied. The clock is this machine's, in milliseconds.
    pub fn begin(&mut self, clock: u64) {
        unsafe { raw::migwelun_begin(&mut self.slot, clock) };
    }

    /// The entry of a frame that came to this leader: its body, and its number on a connection of this leadership.
    pub fn propose(&mut self, body: &[u8], connection: u32, frame: u64, clock: u64) -> Result<Vec<u8>, Error> {
        let code = unsafe { raw::migwelun_propose(&mut self.slot, body.as_ptr(), body.len(), connection, frame, clock) };
        self.proposed(code)
    }

    /// The entry of a tick.
    pub fn propose_tick(&mut self, clock: u64) -> Result<Vec<u8>, Error> {
        let code = unsafe { raw::migwelun_propose_tick(&mut self.slot, clock) };
        self.proposed(code)
    }

    /// The entry of the topics of the cluster. After [`Error::NoMemory`], propose none any more.
    pub fn propose_topics(&mut self, topics: &[Topic<'_>]) -> Result<Vec<u8>, Error> {
        crate::add_topics(&mut self.slot, topics)?;
        let code = unsafe { raw::migwelun_propose_topics(&mut self.slot) };
        self.proposed(code)
    }

    /// Applies a place of the log, of which the first is 1. What is refused there is passed over. Nothing is applied where it isn't the next
    /// place, where the entry is of a version that a later library knows, and where memory is short.
    pub fn apply(&mut self, place: u64, entry: &[u8]) -> Result<Applied, Error> {
        let (mut leadership, mut connection, mut frame) = (0, 0, 0);
        let code = unsafe {
            let (slot, bytes) = (&mut self.slot, entry.as_ptr());
            raw::migwelun_apply(slot, place, bytes, entry.len(), &mut leadership, &mut connection, &mut frame)
        };
        if code < raw::DONE || code == raw::OUT_OF_PLACE || code == raw::UNKNOWN_VERSION {
            done(code)?;
        } else if code > raw::CLOSES {
            return Ok(Applied::PassedOver { why: Error::BadEntry(code) });
        }
        let reply = crate::take(&mut self.slot, raw::migwelun_take);
        // (an entry's kind stands behind its version)
        Ok(match entry[3] {
            0 => {
                let answer = if code == raw::CLOSES { Answer::Close } else { Answer::Reply(reply) };
                Applied::Frame { leadership, connection, frame, answer }
            }
            1 => Applied::Tick { removed: frame },
            2 => Applied::Topics,
            _ => Applied::Leads { leadership },
        })
    }

    fn proposed(&mut self, code: i32) -> Result<Vec<u8>, Error> {
        done(code)?;
        Ok(crate::take(&mut self.slot, raw::migwelun_take_entry))
    }
}

/// The parts of a replica's snapshot. The replica applies nothing meanwhile.
pub struct Parts<'a> {
    replica: &'a mut Replica,
    place: u64,
    size: usize,
    next: usize,
    is_over: bool,
}

impl Iterator for Parts<'_> {
    type Item = Result<Vec<u8>, Error>;

    fn next(&mut self) -> Option<Self::Item> {
        if self.is_over {
            return None;
        }
        let code = unsafe { raw::migwelun_snapshot(&mut self.replica.slot, self.place, self.next, self.size, &mut self.next) };
        let part = self.replica.proposed(code);
        self.is_over = !matches!(&part, Ok(bytes) if !bytes.is_empty());
        (part.is_err() || !self.is_over).then_some(part)
    }
}

impl Drop for Replica {
    fn drop(&mut self) {
        unsafe { raw::migwelun_drop(&mut self.slot) }
    }
}
