use crate::error::{Error, Result};
use crate::heap::{done, unlisted, Asked, Heap};
use crate::raw;
use crate::root::Root;
use std::fmt;
use std::iter::FusedIterator;

/// A ticket that watches an object. It comes from [`Heap::watch`], and from [`Gone`] once the object
/// is gone.
///
/// It is a number below the tickets that the heap has, so a table of what the program keeps beside
/// its objects can be a vector. Once it was told or freed, the same number is given to another object.
#[derive(Clone, Copy, Debug, PartialEq, Eq, PartialOrd, Ord, Hash)]
pub struct Ticket(u64);

impl Ticket {
    /// The ticket of this number, as a program kept it in a field.
    #[inline]
    pub fn new(number: u64) -> Ticket {
        Ticket(number)
    }

    /// Its number, from 0.
    #[inline]
    pub fn number(self) -> u64 {
        self.0
    }

    /// Its number as an index into a table.
    #[inline]
    pub fn index(self) -> usize {
        self.0 as usize
    }
}

impl fmt::Display for Ticket {
    fn fmt(&self, f: &mut fmt::Formatter<'_>) -> fmt::Result {
        write!(f, "{}", self.0)
    }
}

/// # Watching objects
impl Heap {
    /// Makes room for so many tickets more than there are. A new heap has none.
    ///
    /// It takes 12 bytes for each ticket. After an error nothing has changed.
    ///
    /// # Errors
    ///
    /// - [`Error::TicketsRange`] if they were more than [`MAX_TICKETS`](crate::MAX_TICKETS) in all.
    /// - [`Error::NoMemory`] if memory is refused.
    #[inline]
    pub fn watch_room(&mut self, additional: u32) -> Result<()> {
        // SAFETY: open and alone, as at `Heap`.
        match unsafe { raw::rheap_watch_room(self.at(), additional) } {
            raw::DONE => Ok(()),
            raw::TICKETS_RANGE => Err(Error::TicketsRange { additional }),
            raw::NO_MEMORY => Err(Error::NoMemory),
            other => unlisted(other),
        }
    }

    /// Watches the object that the root names now, and returns the ticket: the free one with the least
    /// number. What the root holds later doesn't matter.
    ///
    /// A ticket keeps nothing alive, and no call puts its object back into a root. Once a cycle has
    /// ended in which no root reached the object any more, [`Heap::gone`] yields the ticket, once.
    ///
    /// ```
    /// # fn main() -> Result<(), rheap::Error> {
    /// # use rheap::{Heap, Sizes};
    /// # let mut heap = Heap::sized(Sizes { words: 100, biggest: 4, ratio: 32, owners: 1, slots: 8 })?;
    /// # let root = heap.owner(0)?.slot(0)?;
    /// heap.watch_room(8)?;
    /// let mut names = vec![""; 8];
    ///
    /// heap.alloc(root, 1)?;
    /// let ticket = heap.watch(root)?;
    /// names[ticket.index()] = "first";
    ///
    /// heap.drop_root(root)?;
    /// heap.collect()?;
    /// let gone: Vec<_> = heap.gone().map(|ticket| names[ticket.index()]).collect();
    /// assert_eq!(gone, ["first"]);
    /// assert_eq!(heap.gone().next(), None);
    /// # Ok(())
    /// # }
    /// ```
    ///
    /// # Errors
    ///
    /// [`Error::NotObject`]; [`Error::WatchesFull`] if no ticket is free; [`Error::NoRoot`] if the root
    /// is of another heap that has more slots.
    #[inline]
    pub fn watch(&mut self, root: Root) -> Result<Ticket> {
        let mut ticket = 0;
        // SAFETY: open, alone and apart, as at `Heap`.
        let status = unsafe { raw::rheap_watch(self.at(), root.owner(), root.id(), &mut ticket) };
        match status {
            raw::DONE => Ok(Ticket(ticket)),
            raw::WATCHES_FULL => Err(Error::WatchesFull),
            status => Err(self.refused(status, root, Asked::of(root, root))),
        }
    }

    /// Frees a ticket that watches an object, which isn't told then, and returns whether it did. A
    /// ticket that is free, one whose object is gone and one that isn't there stay as they are.
    #[inline]
    pub fn unwatch(&mut self, ticket: Ticket) -> bool {
        // SAFETY: open and alone, as at `Heap`.
        match unsafe { raw::rheap_unwatch(self.at(), ticket.0) } {
            raw::DONE => true,
            raw::NOT_WATCHED => false,
            other => unlisted(other),
        }
    }

    /// The tickets whose objects are gone. Each is told as it is yielded, and free from then on; those
    /// that aren't yielded stay for the next time. They come in the order of cycles, and of one cycle
    /// in that of their numbers.
    #[inline]
    pub fn gone(&mut self) -> Gone<'_> {
        Gone { heap: self }
    }
}

/// The tickets whose objects are gone, each yielded once. It comes from [`Heap::gone`].
#[derive(Debug)]
#[must_use = "a ticket is told as it is yielded"]
pub struct Gone<'heap> {
    heap: &'heap mut Heap,
}

impl Iterator for Gone<'_> {
    type Item = Ticket;

    #[inline]
    fn next(&mut self) -> Option<Ticket> {
        let (mut ticket, mut is) = (0, 0);
        // SAFETY: open, alone and apart, as at `Heap`.
        done(unsafe { raw::rheap_next_gone(self.heap.at(), &mut ticket, &mut is) });
        (is != 0).then_some(Ticket(ticket))
    }
}

impl FusedIterator for Gone<'_> {}
