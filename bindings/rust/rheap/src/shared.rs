use crate::error::{Error, Result};
use crate::heap::{Asked, Heap};
use crate::raw;
use crate::root::Root;
use crate::value::{Operand, Value};
use std::fmt;

/// A slot of owner 0, named by its number alone. It comes from [`Heap::shared`].
///
/// The calls that begin with `shared_` take it. The other calls take the root that names this slot, which
/// [`root`](Shared::root) returns. Like a root it doesn't know its heap. Its
/// [`Display`](fmt::Display) is that of the root, such as `0.3`.
///
/// ```
/// # fn main() -> Result<(), rheap::Error> {
/// # use rheap::{Heap, Sizes};
/// let heap = Heap::sized(Sizes { words: 100, biggest: 4, ratio: 32, owners: 1, slots: 8 })?;
/// let slot = heap.shared(3)?;
/// assert_eq!(slot.number(), 3);
/// assert_eq!(slot.root(), heap.owner(0)?.slot(3)?);
/// assert_eq!(slot.to_string(), "0.3");
/// # Ok(())
/// # }
/// ```
#[derive(Clone, Copy, Debug, PartialEq, Eq, PartialOrd, Ord, Hash)]
pub struct Shared {
    number: u32,
}

impl Shared {
    /// Its number, counted from 0.
    #[inline]
    pub fn number(self) -> u32 {
        self.number
    }

    /// The root that names this slot. It may be used beside roots of any owner.
    #[inline]
    pub fn root(self) -> Root {
        Root::new(0, self.number)
    }
}

impl From<Shared> for Root {
    #[inline]
    fn from(slot: Shared) -> Root {
        slot.root()
    }
}

impl From<Shared> for Operand {
    #[inline]
    fn from(slot: Shared) -> Operand {
        Operand::Root(slot.root())
    }
}

impl fmt::Display for Shared {
    fn fmt(&self, f: &mut fmt::Formatter<'_>) -> fmt::Result {
        self.root().fmt(f)
    }
}

/// # The slots of owner 0 by number
///
/// A program that has no use for owners keeps all its roots in the slots of owner 0, and names a slot by
/// its number. Each of these calls is the one without `shared_` on the roots in these slots, with the
/// same answer and the same work, in fewer instructions if the heap has fixed sizes. [`Error::NotYours`]
/// never comes. The calls that aren't here take the slot's [`root`](Shared::root).
impl Heap {
    /// One of the slots of owner 0, counted from 0.
    ///
    /// ```
    /// # fn main() -> Result<(), rheap::Error> {
    /// # use rheap::{Error, Heap, Operand, Sizes, Value};
    /// let mut heap = Heap::sized(Sizes { words: 100, biggest: 4, ratio: 32, owners: 1, slots: 8 })?;
    /// let (list, cell) = (heap.shared(0)?, heap.shared(1)?);
    /// assert_eq!(heap.shared(8), Err(Error::NoSlot { owner: 0, slot: 8, slots: 8 }));
    ///
    /// // A list of three numbers, each before those that are there.
    /// for number in 1..=3 {
    ///     heap.shared_alloc(cell, 2)?;
    ///     heap.shared_store(cell, 0, number)?;
    ///     heap.shared_store(cell, 1, list)?;
    ///     heap.shared_copy(list, cell)?;
    /// }
    /// heap.shared_load_untold(cell, list, 1)?;
    /// assert_eq!(heap.shared_load(cell, cell, 0)?, Value::Int(2));
    /// assert_eq!(heap.root(list.root())?, Value::Object { fields: 2 });
    /// # Ok(())
    /// # }
    /// ```
    ///
    /// # Errors
    ///
    /// [`Error::NoSlot`] if the owners of the heap have no such slot.
    #[inline]
    pub fn shared(&self, slot: u32) -> Result<Shared> {
        let root = self.owner(0)?.slot(slot)?;
        Ok(Shared {
            number: root.slot(),
        })
    }

    /// The slot `dst` names a new object of so many fields, all nil, as [`Heap::alloc`] makes it.
    ///
    /// # Errors
    ///
    /// As [`Heap::alloc`].
    #[inline]
    pub fn shared_alloc(&mut self, dst: Shared, fields: u32) -> Result<()> {
        // SAFETY: open and alone, as at `Heap`.
        let status = unsafe { raw::rheap_shared_alloc(self.at(), dst.number, fields) };
        self.allocated(status, dst.root(), fields)
    }

    /// The slot `dst` names a new raw object of so many fields, all nil, as [`Heap::alloc_raw`] makes it.
    ///
    /// # Errors
    ///
    /// As [`Heap::alloc`].
    #[inline]
    pub fn shared_alloc_raw(&mut self, dst: Shared, fields: u32) -> Result<()> {
        // SAFETY: open and alone, as at `Heap`.
        let status = unsafe { raw::rheap_shared_alloc_raw(self.at(), dst.number, fields) };
        self.allocated(status, dst.root(), fields)
    }

    /// As [`Heap::shared_alloc`], with room made first as [`Heap::insist_alloc`] does.
    ///
    /// # Errors
    ///
    /// As [`Heap::insist_alloc`].
    #[inline]
    pub fn shared_insist_alloc(&mut self, dst: Shared, fields: u32) -> Result<()> {
        // SAFETY: open and alone, as at `Heap`.
        let status = unsafe { raw::rheap_shared_insist_alloc(self.at(), dst.number, fields) };
        self.allocated(status, dst.root(), fields)
    }

    /// As [`Heap::shared_alloc_raw`], with room made first as [`Heap::insist_alloc`] does.
    ///
    /// # Errors
    ///
    /// As [`Heap::insist_alloc`].
    #[inline]
    pub fn shared_insist_alloc_raw(&mut self, dst: Shared, fields: u32) -> Result<()> {
        // SAFETY: open and alone, as at `Heap`.
        let status = unsafe { raw::rheap_shared_insist_alloc_raw(self.at(), dst.number, fields) };
        self.allocated(status, dst.root(), fields)
    }

    /// The slot `dst` takes the value of a field, counted from 0, of the object that `src` names, as
    /// [`Heap::load`] does. The value is returned too. Both may be one slot.
    ///
    /// # Errors
    ///
    /// [`Error::NotObject`], [`Error::NoField`]; [`Error::NoRoot`] if a slot is of another heap that has
    /// more of them.
    #[inline]
    pub fn shared_load(&mut self, dst: Shared, src: Shared, field: u32) -> Result<Value> {
        let mut value = raw::RheapValue::default();
        // SAFETY: open, alone and apart, as at `Heap`.
        let status =
            unsafe { raw::rheap_shared_load(self.at(), dst.number, src.number, field, &mut value) };
        match status {
            raw::DONE => Ok(Value::told(value)),
            status => Err(self.not_loaded(status, dst, src, field)),
        }
    }

    /// As [`Heap::shared_load`], where the value isn't looked at: no value is returned, which takes fewer
    /// instructions.
    ///
    /// # Errors
    ///
    /// As [`Heap::shared_load`].
    #[inline]
    pub fn shared_load_untold(&mut self, dst: Shared, src: Shared, field: u32) -> Result<()> {
        // SAFETY: open and alone, as at `Heap`.
        let status =
            unsafe { raw::rheap_shared_load_untold(self.at(), dst.number, src.number, field) };
        match status {
            raw::DONE => Ok(()),
            status => Err(self.not_loaded(status, dst, src, field)),
        }
    }

    /// What a field, counted from 0, holds of the object that `src` names. No root takes the value.
    ///
    /// # Errors
    ///
    /// As [`Heap::shared_load`].
    #[inline]
    pub fn shared_peek(&self, src: Shared, field: u32) -> Result<Value> {
        let mut value = raw::RheapValue::default();
        // SAFETY: open, alone and apart, as at `Heap`.
        let status = unsafe { raw::rheap_shared_peek(self.at(), src.number, field, &mut value) };
        match status {
            raw::DONE => Ok(Value::told(value)),
            status => Err(self.not_loaded(status, src, src, field)),
        }
    }

    /// A field, counted from 0, of the object that `object` names becomes nil, takes a whole number, or
    /// takes what a slot holds, as [`Heap::store`] does. What the root of another owner holds is stored
    /// by [`Heap::store`] itself.
    ///
    /// ```
    /// # fn main() -> Result<(), rheap::Error> {
    /// # use rheap::{Heap, Operand, Sizes, Value};
    /// # let mut heap = Heap::sized(Sizes { words: 100, biggest: 4, ratio: 32, owners: 1, slots: 8 })?;
    /// # let object = heap.shared(0)?;
    /// heap.shared_alloc(object, 3)?;
    /// heap.shared_store(object, 0, 7)?;
    /// heap.shared_store(object, 1, object)?;
    /// heap.shared_store(object, 2, Operand::Nil)?;
    /// assert_eq!(heap.shared_peek(object, 0)?, Value::Int(7));
    /// assert_eq!(heap.shared_peek(object, 1)?, Value::Object { fields: 3 });
    /// # Ok(())
    /// # }
    /// ```
    ///
    /// # Errors
    ///
    /// As [`Heap::store`], but never [`Error::NotYours`].
    #[inline]
    pub fn shared_store(
        &mut self,
        object: Shared,
        field: u32,
        operand: impl Into<Operand>,
    ) -> Result<()> {
        let (at, number) = (self.at(), object.number);
        let operand = operand.into();
        // SAFETY: open and alone, as at `Heap`, in each of the three.
        let status = match operand {
            Operand::Nil => unsafe { raw::rheap_shared_store_nil(at, number, field) },
            Operand::Int(of) => unsafe { raw::rheap_shared_store_int(at, number, field, of) },
            Operand::Root(src) if src.is_shared() => unsafe {
                raw::rheap_shared_store_root(at, number, field, src.slot())
            },
            Operand::Root(src) => return self.store(object.root(), field, src),
        };
        self.stored(status, object.root(), field, operand)
    }

    /// As [`Heap::shared_store`], with room made first: if the log is full, it collects and tries again,
    /// as [`Heap::insist_store`] does.
    ///
    /// # Errors
    ///
    /// As [`Heap::shared_store`], but never [`Error::LogFull`].
    #[inline]
    pub fn shared_insist_store(
        &mut self,
        object: Shared,
        field: u32,
        operand: impl Into<Operand>,
    ) -> Result<()> {
        let (at, number) = (self.at(), object.number);
        let operand = operand.into();
        // SAFETY: open and alone, as at `Heap`, in each of the three.
        let status = match operand {
            Operand::Nil => unsafe { raw::rheap_shared_insist_store_nil(at, number, field) },
            Operand::Int(of) => unsafe {
                raw::rheap_shared_insist_store_int(at, number, field, of)
            },
            Operand::Root(src) if src.is_shared() => unsafe {
                raw::rheap_shared_insist_store_root(at, number, field, src.slot())
            },
            Operand::Root(src) => return self.insist_store(object.root(), field, src),
        };
        self.stored(status, object.root(), field, operand)
    }

    /// The slot `dst` takes what the slot `src` holds.
    ///
    /// # Errors
    ///
    /// [`Error::NoRoot`] if a slot is of another heap that has more of them.
    #[inline]
    pub fn shared_copy(&mut self, dst: Shared, src: Shared) -> Result<()> {
        // SAFETY: open and alone, as at `Heap`.
        let status = unsafe { raw::rheap_shared_copy(self.at(), dst.number, src.number) };
        match status {
            raw::DONE => Ok(()),
            status => Err(self.not_loaded(status, dst, src, 0)),
        }
    }

    /// The slot becomes nil.
    ///
    /// # Errors
    ///
    /// [`Error::NoRoot`] if the slot is of another heap that has more of them.
    #[inline]
    pub fn shared_drop(&mut self, slot: Shared) -> Result<()> {
        // SAFETY: open and alone, as at `Heap`.
        match unsafe { raw::rheap_shared_drop(self.at(), slot.number) } {
            raw::DONE => Ok(()),
            status => Err(self.not_loaded(status, slot, slot, 0)),
        }
    }

    /// Why the slot `dst` took nothing from `src`, or from a field of the object that `src` names.
    #[cold]
    fn not_loaded(&self, status: u8, dst: Shared, src: Shared, field: u32) -> Error {
        let asked = Asked::of_field(dst.root(), src.root(), field);
        self.refused(status, src.root(), asked)
    }
}
