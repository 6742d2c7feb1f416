use crate::error::{Error, Result};
use crate::raw;
use std::fmt;

/// An owner of slots: a thread, or a part of the program. It comes from [`Heap::owner`].
///
/// Owner 0's slots are shared: they go with the roots of any owner.
///
/// ```
/// # fn main() -> Result<(), rheap::Error> {
/// # use rheap::{Heap, Sizes};
/// let heap = Heap::sized(Sizes { words: 100, biggest: 4, ratio: 32, owners: 2, slots: 8 })?;
/// let owner = heap.owner(1)?;
/// assert_eq!(owner.number(), 1);
/// assert_eq!(owner.slots().len(), 8);
/// assert_eq!(owner.slots().next(), Some(owner.slot(0)?));
/// # Ok(())
/// # }
/// ```
///
/// [`Heap::owner`]: crate::Heap::owner
#[derive(Clone, Copy, Debug, PartialEq, Eq, Hash)]
pub struct Owner {
    number: u32,
    slots: u32,
}

impl Owner {
    #[inline]
    pub(crate) fn new(number: u32, slots: u32) -> Owner {
        Owner { number, slots }
    }

    /// Its number, counted from 0.
    #[inline]
    pub fn number(self) -> u32 {
        self.number
    }

    /// The root of one of its slots, counted from 0.
    ///
    /// ```
    /// # fn main() -> Result<(), rheap::Error> {
    /// # use rheap::{Error, Heap, Sizes};
    /// let heap = Heap::sized(Sizes { words: 100, biggest: 4, ratio: 32, owners: 2, slots: 8 })?;
    /// let owner = heap.owner(1)?;
    /// assert_eq!(owner.slot(3)?.to_string(), "1.3");
    /// assert_eq!(owner.slot(8), Err(Error::NoSlot { owner: 1, slot: 8, slots: 8 }));
    /// # Ok(())
    /// # }
    /// ```
    ///
    /// # Errors
    ///
    /// [`Error::NoSlot`] if the owner has no such slot.
    #[inline]
    pub fn slot(self, slot: u32) -> Result<Root> {
        if slot < self.slots {
            Ok(Root::new(self.number, slot))
        } else {
            Err(Error::NoSlot {
                owner: self.number,
                slot,
                slots: self.slots,
            })
        }
    }

    /// The roots of all its slots, in order.
    #[inline]
    pub fn slots(self) -> impl DoubleEndedIterator<Item = Root> + ExactSizeIterator + Clone {
        (0..self.slots).map(move |slot| Root::new(self.number, slot))
    }
}

/// A slot of an owner, which names an object, a number or nil. It comes from [`Owner::slot`].
///
/// It is a pair of numbers. In another heap it names the slot of the same numbers there, or none.
/// Its [`Display`](fmt::Display) is the owner and the slot, such as `1.3`.
///
/// ```
/// # fn main() -> Result<(), rheap::Error> {
/// # use rheap::{Error, Heap, Sizes};
/// let large = Sizes { words: 100, biggest: 4, ratio: 32, owners: 2, slots: 8 };
/// let heap = Heap::sized(large)?;
/// let mut other = Heap::sized(Sizes { slots: 4, ..large })?;
/// let root = heap.owner(1)?.slot(3)?;
/// other.alloc(root, 2)?;
/// let root = heap.owner(1)?.slot(4)?;
/// assert_eq!(other.alloc(root, 2), Err(Error::NoRoot { root, owners: 2, slots: 4 }));
/// # Ok(())
/// # }
/// ```
#[derive(Clone, Copy, Debug, PartialEq, Eq, PartialOrd, Ord, Hash)]
pub struct Root {
    owner: u32,
    slot: u32,
}

impl Root {
    #[inline]
    pub(crate) fn new(owner: u32, slot: u32) -> Root {
        Root { owner, slot }
    }

    /// The number of its owner, counted from 0.
    #[inline]
    pub fn owner(self) -> u32 {
        self.owner
    }

    /// The number of the slot, counted from 0.
    #[inline]
    pub fn slot(self) -> u32 {
        self.slot
    }

    /// Whether it is a slot of owner 0, whose roots go with those of any owner.
    #[inline]
    pub fn is_shared(self) -> bool {
        self.owner == 0
    }

    #[inline]
    pub(crate) fn id(self) -> raw::RheapRootId {
        raw::RheapRootId {
            owner: self.owner,
            slot: self.slot,
        }
    }
}

impl fmt::Display for Root {
    fn fmt(&self, f: &mut fmt::Formatter<'_>) -> fmt::Result {
        write!(f, "{}.{}", self.owner, self.slot)
    }
}
