use crate::error::{Error, Result};
use crate::heap::{unlisted, Heap};
use crate::numbers::Sizes;
use crate::raw;

/// How a heap grows, and what else it is made with. See [`Heap::growing`].
#[derive(Clone, Copy, Debug, PartialEq, Eq, Hash)]
pub struct Growth {
    /// The words with which a space begins, and below which it never has fewer.
    pub at_least: u32,
    /// The words above which it never has more, at most 16,777,216.
    pub at_most: u32,
    /// The words that it gets after a cycle, in percent of those that are used then: 100 to 1,000.
    /// It gets more if fewer wouldn't be in time.
    pub factor: u32,
    /// The most words that an object has, which is its fields and 2.
    pub biggest: u32,
    /// The units of collector work that each allocated word grants in a cycle, 4 to 64.
    pub ratio: u32,
    /// The owners, 1 to 16.
    pub owners: u32,
    /// The slots of each owner, 1 to 256.
    pub slots: u32,
}

impl Growth {
    /// From 40,000 words on, or `at_most` if that is less, to twice the words that are used after a
    /// cycle; for objects of any size, at ratio 32, for two owners with 256 slots each.
    pub fn up_to(at_most: u32) -> Growth {
        Growth {
            at_least: at_most.min(40_000),
            at_most,
            factor: 200,
            biggest: raw::MAX_FIELDS + 2,
            ratio: 32,
            owners: 2,
            slots: raw::MAX_SLOTS,
        }
    }
}

/// Why a heap that grows has too few words since its last cycle.
#[derive(Clone, Copy, Debug, PartialEq, Eq, Hash)]
pub enum Short {
    /// It has the most words that it may have.
    AtMost,
    /// Memory for more words was refused. It asks again after its next cycle.
    Memory,
}

/// # Growing
impl Heap {
    /// Makes a heap that grows: after each cycle its space gets the words that its growth wants for
    /// what is used then. As long as [`Heap::short`] is `None`, there is room for each object, however
    /// many live, if the program makes none of more than `biggest` words. If memory for more words is
    /// refused, nothing fails for that.
    ///
    /// ```
    /// # fn main() -> Result<(), rheap::Error> {
    /// # use rheap::{Growth, Heap};
    /// let mut heap = Heap::growing(Growth { biggest: 4, owners: 1, ..Growth::up_to(1_000_000) })?;
    /// let owner = heap.owner(0)?;
    /// let (list, cell) = (owner.slot(0)?, owner.slot(1)?);
    /// for number in 0..50_000 {
    ///     heap.alloc(cell, 2)?;
    ///     heap.store(cell, 0, number)?;
    ///     heap.store(cell, 1, list)?;
    ///     heap.copy(list, cell)?;
    /// }
    /// assert!(heap.stat().used > 40_000);
    /// assert_eq!(heap.short(), None);
    /// # Ok(())
    /// # }
    /// ```
    ///
    /// # Errors
    ///
    /// - [`Error::BadGrowth`] if the factor or a limit of the words is out of its range.
    /// - [`Error::NoPace`] if the ratio is below 4, or `at_least` is too small for `biggest`.
    /// - [`Error::BadSizes`] if a size is out of its range.
    /// - [`Error::NoMemory`] if memory is refused.
    pub fn growing(growth: Growth) -> Result<Heap> {
        let sizes = Sizes {
            words: growth.at_least,
            biggest: growth.biggest,
            ratio: growth.ratio,
            owners: growth.owners,
            slots: growth.slots,
        };
        let asked = raw::RheapGrowth {
            at_least: growth.at_least,
            at_most: growth.at_most,
            factor: growth.factor,
            biggest: growth.biggest,
            ratio: growth.ratio,
            owners: growth.owners,
            slots: growth.slots,
        };
        let mut handle = Heap::unopened();
        // SAFETY: the handle is null, as before the first call, and is written by this call alone.
        match unsafe { raw::rheap_open_growth(&mut handle, &asked) } {
            raw::BAD_GROWTH => Err(Error::BadGrowth { growth }),
            status => Heap::opened(status, handle, sizes, None),
        }
    }

    /// Why a heap that grows has too few words since its last cycle, so that a call may find no
    /// room. It is `None` if it has enough, and of a heap that doesn't grow.
    pub fn short(&self) -> Option<Short> {
        let mut is = 0;
        // SAFETY: open, alone and apart, as at `Heap`.
        let status = unsafe { raw::rheap_short(self.at(), &mut is) };
        match (status, is) {
            (raw::DONE, raw::AMPLE) => None,
            (raw::DONE, raw::AT_MOST) => Some(Short::AtMost),
            (raw::DONE, raw::REFUSED) => Some(Short::Memory),
            (other, _) => unlisted(other),
        }
    }
}
