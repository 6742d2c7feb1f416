//! A managed object heap that collects by itself, for authors of language runtimes.
//!
//! The heap is a static library that was proved in Rattle, Rust with contracts. This crate is its
//! safe side for plain Rust. Nothing of this crate is proved.
//!
//! A heap has a space of 64-bit words. An object takes 2 words and one for each field. A field holds
//! nil, a whole number of 62 bits, or a reference to an object. Objects are named by roots: numbered
//! slots of numbered owners. No call hands out an address, so nothing of yours changes when the
//! collector moves an object.
//!
//! ```
//! use rheap::{values, Heap, Sizes, Value};
//!
//! # fn main() -> Result<(), rheap::Error> {
//! let mut heap = Heap::sized(Sizes { words: 4096, biggest: 4, ratio: 32, owners: 2, slots: 2 })?;
//! let owner = heap.owner(1)?;
//! let (list, cell) = (owner.slot(0)?, owner.slot(1)?);
//!
//! // Each cell has a number and the rest of the list.
//! for number in 1..=3 {
//!     heap.make(list, &values![number, list])?;
//! }
//! assert_eq!(heap.peek(list, 0)?, Value::Int(3));
//!
//! // The roots reach three cells of 4 words. Without the list nothing lives.
//! heap.drop_root(cell)?;
//! heap.collect()?;
//! assert_eq!(heap.stat().used, 12);
//! heap.drop_root(list)?;
//! heap.collect()?;
//! assert_eq!(heap.stat().used, 0);
//! # Ok(())
//! # }
//! ```
//!
//! # Roots and owners
//!
//! [`Heap::owner`] returns an [`Owner`], and [`Owner::slot`] a [`Root`]. Both look at the sizes of
//! the heap, so each root exists in the heap that it comes from. A call is made for the owner whose
//! roots it names. Owner 0's roots go with those of any owner. A call on roots of two owners of
//! their own returns [`Error::NotYours`], and changes nothing.
//!
//! A root is a pair of numbers, and doesn't know its heap. In another heap it names the slot of the
//! same numbers. If that heap has no such slot, the call returns [`Error::NoRoot`].
//!
//! A program that has no use for owners keeps all its roots in the slots of owner 0, and names each by
//! its number: [`Heap::shared`] returns a [`Shared`], and [`Heap::shared_alloc`] and its like take it. If
//! the heap has fixed sizes, they take fewer instructions than the calls on roots.
//!
//! # Objects with their values
//!
//! [`Heap::alloc`] makes an object whose fields are nil, and [`Heap::make`] one with the values of its
//! fields, in one call: all of them, or nothing is done.
//!
//! # Arrays and texts
//!
//! [`Heap::store_ints`] stores whole numbers to fields in a row, all of them or none, and
//! [`Heap::load_ints`] reads them. [`Heap::store_text`] and [`Heap::load_text`] do so with bytes, seven
//! to a field. [`Heap::alloc_raw`] makes an object for them; [`text_fields`] says of how many fields.
//!
//! # Roots in a row
//!
//! [`Heap::load_roots`] and [`Heap::store_roots`] move so many roots from and to fields in one call, as
//! a frame's registers, and [`Heap::load_path`] follows fields from object to object.
//!
//! # Files and the like
//!
//! [`Heap::watch`] returns a ticket for an object, beside which the program keeps what it has, such as an
//! open file. [`Heap::gone`] yields the tickets whose objects the heap has lost, each once.
//!
//! # Growing
//!
//! [`Heap::growing`] makes a heap whose space grows, and shrinks, with what lives in it, up to a limit.
//! All calls work on it but [`Heap::resize`] and [`Heap::resize_for`], which give a heap of fixed sizes
//! other words.
//!
//! # Looking at a heap
//!
//! [`Heap::dump`] returns what the roots reach as a text, and [`Heap::draw`] a picture of the heap.
//! [`Heap::cycle`] returns the numbers of each cycle that ended, as the words that it freed.
//!
//! # Whole traces
//!
//! [`run`] and [`run_paced`] take a text of commands, run it on a heap of its own, and return what the
//! program `rheap run` prints of it.
//!
//! # Refusals
//!
//! A refused call returns an [`Error`] with the numbers that explain it. It changes nothing, with two
//! exceptions: the `insist_` calls may have collected before, and a call on roots or values in a row
//! or on a path leaves done what it did before the refusal: its [`RowError`] says how much.
//!
//! # Work
//!
//! After each call the collector does a bounded amount of work. Work is counted in units; a unit is
//! not a machine instruction. `ratio` below is the one with which the heap was made. A call that
//! names no units does no collector work. Two kinds of calls do whole cycles: [`Heap::collect`], and
//! the `insist_` calls if they find no room.
//!
//! # Threads
//!
//! A [`Heap`] may go to another thread. It isn't [`Sync`]: to share one, put it in a
//! [`Mutex`](std::sync::Mutex).
//!
//! ```compile_fail,E0277
//! fn shared<T: Sync>() {}
//! shared::<rheap::Heap>();
//! ```
//!
//! # What is trusted
//!
//! - The declarations in this crate are those of the library. A test compares them with the header;
//!   that the header is that of the library isn't shown here.
//! - `malloc`, `realloc` and `free` do what C says of them, and `posix_memalign` and `madvise` what
//!   POSIX and Linux say, where `librheap.a` calls them.
//! - The three functions by which the library calls these pass on what they are asked: those of
//!   `include/rheap_memory.c` in `librheap.a`, or those of this crate over the library's two parts.
//! - `librheap.a` is the two parts and these functions, as `./rheap install` builds and joins them.
//! - The stack has room.

#![deny(unsafe_op_in_unsafe_fn)]
#![warn(missing_docs)]

// What the build script found to be wrong. Pages are made without a library.
#[cfg(all(rheap_not_found, not(doc)))]
compile_error!(include_str!(concat!(env!("OUT_DIR"), "/not_found.txt")));

mod error;
mod growth;
mod heap;
mod making;
#[cfg(not(rheap_memory_inside))]
mod memory;
mod numbers;
mod raw;
mod resizing;
mod root;
mod rows;
mod shared;
mod text;
mod trace;
mod value;
mod views;
mod watching;

pub use error::{Error, Result, RowError};
pub use growth::{Growth, Short};
pub use heap::{Fields, Heap};
pub use numbers::{Did, Pacing, Room, Sizes, Stats};
pub use root::{Owner, Root};
pub use shared::Shared;
pub use text::text_fields;
pub use trace::{run, run_paced, TraceError};
pub use value::{Operand, Value};
pub use views::{CycleReader, EndedCycle};
pub use watching::{Gone, Ticket};

/// The most words that a space has.
pub const MAX_WORDS: u32 = raw::MAX_WORDS;
/// The most owners of a heap.
pub const MAX_OWNERS: u32 = raw::MAX_OWNERS;
/// The most slots of an owner.
pub const MAX_SLOTS: u32 = raw::MAX_SLOTS;
/// The most fields of an object.
pub const MAX_FIELDS: u32 = raw::MAX_FIELDS;
/// The most tickets of a heap.
pub const MAX_TICKETS: u32 = raw::MAX_TICKETS;
/// The greatest number that a field holds: 2^61 - 1.
pub const MAX_INT: i64 = raw::MAX_INT;
/// The least number that a field holds: -2^61.
pub const MIN_INT: i64 = raw::MIN_INT;

/// The examples of the README are tests.
#[cfg(doctest)]
#[doc = include_str!("../README.md")]
struct Readme;
