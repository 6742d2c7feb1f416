use crate::raw;

/// The sizes of a heap. See [`Heap::sized`](crate::Heap::sized).
#[derive(Clone, Copy, Debug, PartialEq, Eq, Hash)]
pub struct Sizes {
    /// The words of one space, 8 to 16,777,216. A heap takes two spaces of 16 bytes a word.
    pub words: u32,
    /// The most words that an object has, which is its fields and 2.
    pub biggest: u32,
    /// The units of collector work that each allocated word grants in a cycle, 4 to 64. 32 is a good
    /// ratio to begin with.
    pub ratio: u32,
    /// The owners, 1 to 16.
    pub owners: u32,
    /// The slots of each owner, 1 to 256.
    pub slots: u32,
}

/// The numbers of a heap. See [`Heap::stat`](crate::Heap::stat).
#[derive(Clone, Copy, Debug, PartialEq, Eq, Hash)]
#[non_exhaustive]
pub struct Stats {
    /// The words of the space that objects have.
    pub used: u64,
    /// The words of the space that no object has.
    pub free: u64,
    /// The epoch, from 1: one more after each cycle.
    pub epoch: u64,
    /// The number of the last accepted store, and 0 before the first.
    pub number: u64,
    /// The stores that the log holds.
    pub log: u64,
    /// The units that words allocated in the last cycle granted. It stays after the cycle's end.
    pub granted: u64,
    /// The units that stores paid or a collection added in the last cycle. It stays after the cycle's
    /// end.
    pub idle: u64,
    /// The units that were spent in the last cycle. It stays after the cycle's end.
    pub spent: u64,
    /// The objects that are placed.
    pub placed: u64,
    /// The fields of placed objects whose last store isn't held yet.
    pub missing: u64,
    /// The flips, each of which ended a cycle: 2^64 - 1 if there were more.
    pub flips: u64,
    /// The words of roots that flips wrote: 2^64 - 1 if there were more.
    pub root_words: u64,
    /// Whether a cycle is on.
    pub cycle: bool,
}

/// What the last increment or collection did. See [`Heap::last_did`](crate::Heap::last_did).
#[derive(Clone, Copy, Debug, Default, PartialEq, Eq, Hash)]
#[non_exhaustive]
pub struct Did {
    /// How many stores of the log and fields of placed objects it looked at.
    pub held: u64,
    /// How many objects it placed since roots refer to them.
    pub shaded: u32,
    /// If it ended a cycle: the roots that it wrote.
    pub roots: u32,
    /// If it ended a cycle: the words that live on.
    pub live_words: u32,
    /// Whether it began a cycle.
    pub began: bool,
    /// Whether it ended a cycle.
    pub flipped: bool,
}

/// The pace at which a heap collects. See [`Heap::pace`](crate::Heap::pace).
#[derive(Clone, Copy, Debug, PartialEq, Eq, Hash)]
#[non_exhaustive]
pub struct Pacing {
    /// A cycle begins if fewer words than this are free.
    pub mark: u32,
    /// The units of collector work that a store pays in a cycle.
    pub store_units: u32,
    /// The stores that the log holds at most.
    pub log_limit: u32,
}

/// The words of an object beside those of the heap. See [`Heap::room`](crate::Heap::room).
#[derive(Clone, Copy, Debug, PartialEq, Eq, Hash)]
#[non_exhaustive]
pub struct Room {
    /// The words that the object needs, its fields and 2.
    pub need: u64,
    /// The words of the space that no object has.
    pub free: u64,
}

impl From<raw::RheapWords> for Room {
    fn from(told: raw::RheapWords) -> Room {
        Room {
            need: told.need,
            free: told.free,
        }
    }
}

impl From<raw::RheapStats> for Stats {
    fn from(told: raw::RheapStats) -> Stats {
        Stats {
            used: told.used,
            free: told.free,
            epoch: told.epoch,
            number: told.number,
            log: told.log,
            granted: told.granted,
            idle: told.idle,
            spent: told.spent,
            placed: told.placed,
            missing: told.missing,
            flips: told.flips,
            root_words: told.root_words,
            cycle: told.cycle != 0,
        }
    }
}

impl From<raw::RheapDid> for Did {
    fn from(told: raw::RheapDid) -> Did {
        Did {
            held: told.held,
            shaded: told.shaded,
            roots: told.roots,
            live_words: told.live_words,
            began: told.began != 0,
            flipped: told.flipped != 0,
        }
    }
}

impl From<raw::RheapPacing> for Pacing {
    fn from(told: raw::RheapPacing) -> Pacing {
        Pacing {
            mark: told.mark,
            store_units: told.store_units,
            log_limit: told.log_limit,
        }
    }
}
