use crate::growth::Growth;
use crate::numbers::Sizes;
use crate::raw;
use crate::root::Root;
use crate::value::Value;
use std::fmt;

/// What a call returns that may be refused.
pub type Result<T, E = Error> = std::result::Result<T, E>;

/// Why a call was refused, with the numbers that explain it. A refused call changed nothing. But the
/// `insist_` calls may have collected before, and [`Heap::load_roots`](crate::Heap::load_roots) and its
/// like leave done what they did before the refusal.
///
/// Its [`Display`](fmt::Display) is one line without a full stop.
///
/// ```
/// # use rheap::Error;
/// let error = Error::SpaceFull { need: 4, free: 2 };
/// assert_eq!(error.to_string(), "the object needs 4 words, and 2 are free");
/// assert!(error.is_limit());
/// ```
#[derive(Clone, Copy, Debug, PartialEq, Eq, Hash)]
#[non_exhaustive]
pub enum Error {
    /// The heap has no such owner.
    NoOwner {
        /// The owner that was asked for.
        owner: u32,
        /// How many the heap has.
        owners: u32,
    },
    /// The owner has no such slot.
    NoSlot {
        /// The owner.
        owner: u32,
        /// The slot that was asked for.
        slot: u32,
        /// How many the owner has.
        slots: u32,
    },
    /// The root comes from another heap, and this one has no such slot.
    NoRoot {
        /// The root.
        root: Root,
        /// How many owners this heap has.
        owners: u32,
        /// How many slots each of them has.
        slots: u32,
    },
    /// The call names roots of two owners, none of whom is owner 0. Copy through a slot of owner 0.
    NotYours {
        /// The first root that the call names.
        first: Root,
        /// The second one.
        second: Root,
    },
    /// The root names no object.
    NotObject {
        /// The root.
        root: Root,
        /// What it holds.
        holds: Value,
    },
    /// The object has no such field.
    NoField {
        /// The root that names the object.
        root: Root,
        /// The field that was asked for, counted from 0.
        field: u32,
        /// How many the object has.
        fields: u32,
    },
    /// The object is raw, and the value is a reference.
    RawField {
        /// The root that names the raw object.
        root: Root,
        /// The field.
        field: u32,
        /// The reference.
        value: Value,
    },
    /// The number is below [`MIN_INT`](crate::MIN_INT) or above [`MAX_INT`](crate::MAX_INT).
    IntRange {
        /// The number.
        number: i64,
    },
    /// An object may not have so many fields: more than [`MAX_FIELDS`](crate::MAX_FIELDS).
    FieldsRange {
        /// The fields that were asked for.
        fields: u32,
    },
    /// The object needs more words than are free.
    SpaceFull {
        /// The words that it needs, its fields and 2.
        need: u64,
        /// The words that are free.
        free: u64,
    },
    /// In a cycle: the log holds as many stores as it may, or has too few places for fields in a row.
    LogFull {
        /// How many it may hold.
        limit: u32,
        /// How many it holds.
        holds: u64,
    },
    /// 2^62 stores were done.
    NumbersSpent,
    /// 2^62 - 1 cycles were done, so nothing can be collected any more.
    EpochsSpent,
    /// At these sizes no pace keeps up: the ratio is below 4, or the space is too small.
    NoPace {
        /// The sizes.
        sizes: Sizes,
        /// The words that were to live, if that was said.
        live: Option<u32>,
    },
    /// The factor of a growth isn't 100 to 1,000 percent, or a limit of its words is out of its range.
    BadGrowth {
        /// The growth.
        growth: Growth,
    },
    /// A size is out of its range.
    BadSizes {
        /// The sizes.
        sizes: Sizes,
    },
    /// Memory was refused.
    NoMemory,
    /// No ticket is free: [`Heap::watch_room`](crate::Heap::watch_room) makes more.
    WatchesFull,
    /// A heap may not have so many tickets: more than [`MAX_TICKETS`](crate::MAX_TICKETS).
    TicketsRange {
        /// How many more were asked for.
        additional: u32,
    },
    /// A cycle is on, so no memory is given back: [`Heap::collect`](crate::Heap::collect) ends it.
    CycleOn,
    /// Objects use more words than the heap was to have, or its log holds more stores than it might
    /// then. Less may be in use after [`Heap::collect`](crate::Heap::collect), and the log is empty.
    InUse {
        /// The words that were asked for.
        words: u32,
        /// The words that objects use.
        used: u64,
        /// The stores that the log holds.
        holds: u64,
    },
    /// The heap grows: it chooses its own words.
    Grows,
}

impl Error {
    /// Whether a limit refused the call: `SpaceFull`, `LogFull`, `NumbersSpent`, `EpochsSpent`,
    /// `NoMemory` or `WatchesFull`. All others but `CycleOn` and `InUse` are mistakes of the program.
    pub fn is_limit(&self) -> bool {
        matches!(
            self,
            Error::SpaceFull { .. }
                | Error::LogFull { .. }
                | Error::NumbersSpent
                | Error::EpochsSpent
                | Error::NoMemory
                | Error::WatchesFull
        )
    }
}

impl fmt::Display for Error {
    fn fmt(&self, f: &mut fmt::Formatter<'_>) -> fmt::Result {
        match *self {
            Error::NoOwner { owner, owners } => {
                write!(
                    f,
                    "there is no owner {owner}: the heap has {owners}, counted from 0"
                )
            }
            Error::NoSlot { owner, slot, slots } => {
                write!(
                    f,
                    "owner {owner} has no slot {slot}: it has {slots}, counted from 0"
                )
            }
            Error::NoRoot {
                root,
                owners,
                slots,
            } => write!(
                f,
                "root {root} is of another heap: this one has {owners} owners with {slots} slots"
            ),
            Error::NotYours { first, second } => {
                write!(f, "roots {first} and {second} belong to two owners")
            }
            Error::NotObject { root, holds } => match holds {
                Value::Int(number) => {
                    write!(
                        f,
                        "root {root} names no object: it holds the number {number}"
                    )
                }
                _ => write!(f, "root {root} names no object: it holds nil"),
            },
            Error::NoField {
                root,
                field,
                fields,
            } => write!(
                f,
                "the object of root {root} has no field {field}: it has {fields}, counted from 0"
            ),
            Error::RawField { root, field, .. } => write!(
                f,
                "the object of root {root} is raw, so its field {field} takes no reference"
            ),
            Error::IntRange { number } => {
                write!(f, "the number {number} isn't from -2^61 to 2^61 - 1")
            }
            Error::FieldsRange { fields } => write!(
                f,
                "an object of {fields} fields was asked for, and may have {}",
                raw::MAX_FIELDS
            ),
            Error::SpaceFull { need, free } => {
                write!(f, "the object needs {need} words, and {free} are free")
            }
            Error::LogFull { limit, holds } => {
                write!(
                    f,
                    "the log has too few places: it holds {holds} of {limit} stores"
                )
            }
            Error::NumbersSpent => write!(f, "the numbers of stores are spent"),
            Error::EpochsSpent => write!(f, "the epochs are spent"),
            Error::NoPace { sizes, live } => {
                let Sizes {
                    words,
                    biggest,
                    ratio,
                    ..
                } = sizes;
                write!(f, "no pace keeps up in {words} words at ratio {ratio}")?;
                write!(f, " with objects of {biggest} words")?;
                match live {
                    Some(live) => write!(f, ", of which {live} live"),
                    None => Ok(()),
                }
            }
            Error::BadGrowth { growth } => {
                let Growth {
                    at_least,
                    at_most,
                    factor,
                    ..
                } = growth;
                write!(
                    f,
                    "a growth is out of its range: the factor is {factor}, of 100 to 1000"
                )?;
                write!(
                    f,
                    ", and the words are {at_least} to {at_most}, of at most "
                )?;
                write!(f, "{}", raw::MAX_WORDS)
            }
            Error::BadSizes { sizes } => {
                let ranges = [
                    ("words", sizes.words, 8, raw::MAX_WORDS),
                    ("ratio", sizes.ratio, 4, 64),
                    ("owners", sizes.owners, 1, raw::MAX_OWNERS),
                    ("slots", sizes.slots, 1, raw::MAX_SLOTS),
                ];
                write!(f, "a size is out of its range")?;
                for (name, size, least, most) in ranges {
                    if size < least || most < size {
                        write!(f, ": {name} is {size}, not {least} to {most}")?;
                    }
                }
                Ok(())
            }
            Error::NoMemory => write!(f, "memory was refused"),
            Error::WatchesFull => write!(f, "no ticket is free"),
            Error::TicketsRange { additional } => write!(
                f,
                "{additional} more tickets were asked for, and a heap may have {}",
                raw::MAX_TICKETS
            ),
            Error::CycleOn => write!(f, "a cycle is on"),
            Error::InUse { words, used, holds } => write!(
                f,
                "{words} words are too few: objects use {used}, and the log holds {holds} stores"
            ),
            Error::Grows => write!(f, "the heap grows, and chooses its own words"),
        }
    }
}

impl std::error::Error for Error {}

/// Why a call on roots in a row, or on a path, was refused: it is a list of commands, of which some
/// were done before that. These stay done.
///
/// Its [`Display`](fmt::Display) says how many; its [`source`](std::error::Error::source) is the
/// refusal. In a function that returns an [`Error`], `?` makes one of it.
///
/// ```
/// # fn main() -> Result<(), rheap::Error> {
/// # use rheap::{Error, Heap, Sizes, Value};
/// use std::error::Error as _;
///
/// # let mut heap = Heap::sized(Sizes { words: 100, biggest: 8, ratio: 32, owners: 1, slots: 8 })?;
/// # let owner = heap.owner(0)?;
/// let (pair, first) = (owner.slot(0)?, owner.slot(1)?);
/// heap.alloc(pair, 2)?;
/// let refused = heap.store_roots(pair, 0, first, 3).unwrap_err();
/// assert_eq!(refused.done, 2);
/// assert_eq!(refused.to_string(), "the call was refused after 2 of its commands");
/// let source = refused.source().expect("each has one").to_string();
/// assert_eq!(source, "the object of root 0.0 has no field 2: it has 2, counted from 0");
/// # Ok(())
/// # }
/// ```
#[derive(Clone, Copy, Debug, PartialEq, Eq, Hash)]
#[non_exhaustive]
pub struct RowError {
    /// How many of its commands were done.
    pub done: usize,
    /// The refusal of the one after them.
    pub error: Error,
}

impl RowError {
    pub(crate) fn after(done: usize, error: Error) -> RowError {
        RowError { done, error }
    }
}

impl fmt::Display for RowError {
    fn fmt(&self, f: &mut fmt::Formatter<'_>) -> fmt::Result {
        write!(
            f,
            "the call was refused after {} of its commands",
            self.done
        )
    }
}

impl std::error::Error for RowError {
    fn source(&self) -> Option<&(dyn std::error::Error + 'static)> {
        Some(&self.error)
    }
}

impl From<RowError> for Error {
    fn from(refused: RowError) -> Error {
        refused.error
    }
}
