use crate::error::{Error, Result};
use crate::numbers::{Did, Pacing, Room, Sizes, Stats};
use crate::raw;
use crate::root::{Owner, Root};
use crate::value::{Operand, Value};
use std::cell::UnsafeCell;
use std::fmt;
use std::iter::FusedIterator;
use std::ptr::null_mut;

/// A heap that collects by itself. It is open from when it is made until it is dropped, which frees
/// its memory. Only making one, [`Heap::watch_room`], [`Heap::release`], and [`Heap::resize`] and
/// [`Heap::resize_for`] if it gets larger, take memory, and [`Heap::dump`] and [`Heap::draw`] while they
/// run; of a heap that [`Heap::growing`] made, also the calls that end a cycle.
///
/// It may go to another thread, and isn't [`Sync`].
// What each call below relies on, and this type keeps:
//   - open: the handle was null before it was opened, and holds an open heap until `drop`. Nobody
//     else reads or writes it, since the field is private and no copy of it is made. A `Heap` that
//     is moved takes the handle along, and the old place isn't used any more.
//   - alone: at most one call is on at a time. A `&mut` is the only reference, and a `&` stays on
//     one thread, since the type isn't `Sync`; no call of the library calls back.
//   - apart: what a call writes beside the handle are locals of the method, initialised, of the
//     types that the header declares, apart from the handle and from each other. A slice that a call
//     reads or writes is borrowed for it, and its pointer is never null. It can't overlap the handle,
//     since the borrow of one of the two is exclusive.
pub struct Heap {
    raw: UnsafeCell<raw::Rheap>,
    pub(crate) sizes: Sizes,
}

// SAFETY: the handle may go from one thread to another: what it owns is its heap alone, which is
// proved of the library (`impl Send for Rheap`). The memory is malloc's, which any thread may free.
unsafe impl Send for Heap {}

/// What a refused call asked for.
pub(crate) struct Asked {
    pub(crate) first: Root,
    pub(crate) second: Root,
    pub(crate) field: u32,
    pub(crate) number: i64,
    pub(crate) fields: u32,
}

impl Asked {
    #[inline]
    pub(crate) fn of(first: Root, second: Root) -> Asked {
        Asked {
            first,
            second,
            field: 0,
            number: 0,
            fields: 0,
        }
    }

    /// The same of a field.
    #[inline]
    pub(crate) fn of_field(first: Root, second: Root, field: u32) -> Asked {
        Asked {
            field,
            ..Asked::of(first, second)
        }
    }
}

/// The owner for whom a call on these roots is made. Where both have owners of their own, the call
/// is refused.
#[inline]
pub(crate) fn owner_of(first: Root, second: Root) -> u32 {
    if first.is_shared() {
        second.owner()
    } else {
        first.owner()
    }
}

/// Ends the program if the library returned what its header doesn't list for the call.
#[cold]
pub(crate) fn unlisted(status: u8) -> ! {
    unreachable!("rheap: the library returned status {status}, which the call hasn't")
}

/// # Making one
impl Heap {
    /// Makes a heap without objects, whose roots are all nil.
    ///
    /// As much of the space may live as the ratio allows. If the space is large beside `biggest`, that
    /// is about 45, 68, 83 and 91 percent at ratios 8, 16, 32 and 64. If more lives, or an object has
    /// more than `biggest` words, the heap still works; allocations may then be refused.
    ///
    /// ```
    /// # use rheap::{Error, Heap, Sizes};
    /// let sizes = Sizes { words: 4096, biggest: 4, ratio: 32, owners: 2, slots: 8 };
    /// assert!(Heap::sized(sizes).is_ok());
    ///
    /// let sizes = Sizes { words: 4096, biggest: 4, ratio: 3, owners: 2, slots: 8 };
    /// assert_eq!(Heap::sized(sizes).unwrap_err(), Error::NoPace { sizes, live: None });
    /// ```
    ///
    /// # Errors
    ///
    /// - [`Error::NoPace`] if the ratio is below 4, or the space is too small for `biggest`.
    /// - [`Error::BadSizes`] if a size is out of its range.
    /// - [`Error::NoMemory`] if memory is refused.
    pub fn sized(sizes: Sizes) -> Result<Heap> {
        let Sizes {
            words,
            biggest,
            ratio,
            owners,
            slots,
        } = sizes;
        let mut handle = Heap::unopened();
        // SAFETY: the handle is null, as before the first call, and is written by this call alone.
        let status =
            unsafe { raw::rheap_open_sized(&mut handle, words, biggest, ratio, owners, slots) };
        Heap::opened(status, handle, sizes, None)
    }

    /// Makes a heap without objects, whose roots are all nil, of which no more than `live` words are
    /// reached whenever a cycle begins. Within that bound it collects in time, if no object has more
    /// than `biggest` words and the epochs aren't spent.
    ///
    /// ```
    /// # use rheap::{Error, Heap, Sizes};
    /// let sizes = Sizes { words: 1000, biggest: 4, ratio: 32, owners: 2, slots: 8 };
    /// assert!(Heap::sized_for(sizes, 500).is_ok());
    /// let refused = Heap::sized_for(sizes, 1000).unwrap_err();
    /// assert_eq!(refused, Error::NoPace { sizes, live: Some(1000) });
    /// ```
    ///
    /// # Errors
    ///
    /// As [`Heap::sized`]. [`Error::NoPace`] also comes if the space is too small for `live`.
    pub fn sized_for(sizes: Sizes, live: u32) -> Result<Heap> {
        let Sizes {
            words,
            biggest,
            ratio,
            owners,
            slots,
        } = sizes;
        let mut handle = Heap::unopened();
        // SAFETY: the handle is null, as before the first call, and is written by this call alone.
        let status =
            unsafe { raw::rheap_open(&mut handle, words, live, biggest, ratio, owners, slots) };
        Heap::opened(status, handle, sizes, Some(live))
    }

    /// A handle before the first call.
    pub(crate) fn unopened() -> raw::Rheap {
        raw::Rheap {
            at: null_mut(),
            grows_at: null_mut(),
        }
    }

    pub(crate) fn opened(
        status: u8,
        handle: raw::Rheap,
        sizes: Sizes,
        live: Option<u32>,
    ) -> Result<Heap> {
        match status {
            raw::DONE => Ok(Heap {
                raw: UnsafeCell::new(handle),
                sizes,
            }),
            raw::NO_PACE => Err(Error::NoPace { sizes, live }),
            raw::BAD_SIZES => Err(Error::BadSizes { sizes }),
            raw::NO_MEMORY => Err(Error::NoMemory),
            other => unlisted(other),
        }
    }

    /// Its sizes: those with which it was made, with the words and the biggest object of the last
    /// [`Heap::resize`] or [`Heap::resize_for`] that was done.
    #[inline]
    pub fn sizes(&self) -> Sizes {
        self.sizes
    }

    /// One of its owners, counted from 0. Owner 0's slots go with those of any owner.
    ///
    /// ```
    /// # fn main() -> Result<(), rheap::Error> {
    /// # use rheap::{Error, Heap, Sizes};
    /// let heap = Heap::sized(Sizes { words: 100, biggest: 4, ratio: 32, owners: 2, slots: 8 })?;
    /// let shared = heap.owner(0)?;
    /// let mine = heap.owner(1)?;
    /// assert_eq!(heap.owner(2), Err(Error::NoOwner { owner: 2, owners: 2 }));
    /// # Ok(())
    /// # }
    /// ```
    ///
    /// # Errors
    ///
    /// [`Error::NoOwner`] if the heap has no such owner.
    #[inline]
    pub fn owner(&self, owner: u32) -> Result<Owner> {
        let Sizes { owners, slots, .. } = self.sizes;
        if owner < owners {
            Ok(Owner::new(owner, slots))
        } else {
            Err(Error::NoOwner { owner, owners })
        }
    }

    /// All its owners, in order.
    pub fn owners(&self) -> impl DoubleEndedIterator<Item = Owner> + ExactSizeIterator + Clone {
        let Sizes { owners, slots, .. } = self.sizes;
        (0..owners).map(move |owner| Owner::new(owner, slots))
    }
}

/// # Objects
impl Heap {
    /// The root `dst` names a new object of so many fields, all nil. In a cycle at most
    /// `ratio * (fields + 2) + 5` units follow; none follow outside.
    ///
    /// ```
    /// # fn main() -> Result<(), rheap::Error> {
    /// # use rheap::{Heap, Sizes, Value};
    /// # let mut heap = Heap::sized(Sizes { words: 100, biggest: 4, ratio: 32, owners: 1, slots: 8 })?;
    /// # let root = heap.owner(0)?.slot(0)?;
    /// heap.alloc(root, 2)?;
    /// assert_eq!(heap.root(root)?, Value::Object { fields: 2 });
    /// # Ok(())
    /// # }
    /// ```
    ///
    /// # Errors
    ///
    /// [`Error::FieldsRange`], [`Error::SpaceFull`]; [`Error::NoRoot`] if `dst` is of another heap
    /// that has more slots.
    #[inline]
    pub fn alloc(&mut self, dst: Root, fields: u32) -> Result<()> {
        // SAFETY: open and alone, as at `Heap`.
        let status = unsafe { raw::rheap_alloc(self.at(), dst.owner(), dst.id(), fields) };
        self.allocated(status, dst, fields)
    }

    /// The root `dst` names a new raw object of so many fields, all nil. Its fields hold nil and
    /// numbers alone. Else it is as [`Heap::alloc`].
    ///
    /// ```
    /// # fn main() -> Result<(), rheap::Error> {
    /// # use rheap::{Heap, Sizes, Value};
    /// # let mut heap = Heap::sized(Sizes { words: 100, biggest: 4, ratio: 32, owners: 1, slots: 8 })?;
    /// # let root = heap.owner(0)?.slot(0)?;
    /// heap.alloc_raw(root, 2)?;
    /// assert_eq!(heap.root(root)?, Value::Raw { fields: 2 });
    /// # Ok(())
    /// # }
    /// ```
    ///
    /// # Errors
    ///
    /// As [`Heap::alloc`].
    #[inline]
    pub fn alloc_raw(&mut self, dst: Root, fields: u32) -> Result<()> {
        // SAFETY: open and alone, as at `Heap`.
        let status = unsafe { raw::rheap_alloc_raw(self.at(), dst.owner(), dst.id(), fields) };
        self.allocated(status, dst, fields)
    }

    /// As [`Heap::alloc`], with room made first: if there is none, it collects and tries again,
    /// twice at most. So it may do the work of two whole cycles.
    ///
    /// ```
    /// # fn main() -> Result<(), rheap::Error> {
    /// # use rheap::{Heap, Sizes};
    /// # let mut heap = Heap::sized(Sizes { words: 100, biggest: 4, ratio: 32, owners: 1, slots: 8 })?;
    /// # let root = heap.owner(0)?.slot(0)?;
    /// // Each object is garbage once the next one has its root. Until then both are in the space.
    /// for _ in 0..10 {
    ///     heap.insist_alloc(root, 40)?;
    /// }
    /// # Ok(())
    /// # }
    /// ```
    ///
    /// # Errors
    ///
    /// As [`Heap::alloc`]. [`Error::SpaceFull`] means that what the roots reach and the object don't
    /// fit together, unless the epochs are spent. Stop at the first: each further try collects
    /// twice.
    #[inline]
    pub fn insist_alloc(&mut self, dst: Root, fields: u32) -> Result<()> {
        // SAFETY: open and alone, as at `Heap`.
        let status = unsafe { raw::rheap_insist_alloc(self.at(), dst.owner(), dst.id(), fields) };
        self.allocated(status, dst, fields)
    }

    /// The words that an object of so many fields needs, and those that are free. [`Error::SpaceFull`]
    /// comes of an allocation if more are needed than are free, and has these numbers.
    ///
    /// ```
    /// # fn main() -> Result<(), rheap::Error> {
    /// # use rheap::{Error, Heap, Sizes};
    /// # let mut heap = Heap::sized(Sizes { words: 100, biggest: 4, ratio: 32, owners: 1, slots: 8 })?;
    /// # let root = heap.owner(0)?.slot(0)?;
    /// let room = heap.room(99);
    /// assert_eq!((room.need, room.free), (101, 100));
    /// assert_eq!(heap.alloc(root, 99), Err(Error::SpaceFull { need: 101, free: 100 }));
    /// # Ok(())
    /// # }
    /// ```
    #[inline]
    pub fn room(&self, fields: u32) -> Room {
        let mut words = raw::RheapWords::default();
        // SAFETY: open, alone and apart, as at `Heap`.
        done(unsafe { raw::rheap_room(self.at(), fields, &mut words) });
        words.into()
    }

    /// As [`Heap::alloc_raw`], with room made first as [`Heap::insist_alloc`] does.
    ///
    /// # Errors
    ///
    /// As [`Heap::insist_alloc`].
    #[inline]
    pub fn insist_alloc_raw(&mut self, dst: Root, fields: u32) -> Result<()> {
        // SAFETY: open and alone, as at `Heap`.
        let status =
            unsafe { raw::rheap_insist_alloc_raw(self.at(), dst.owner(), dst.id(), fields) };
        self.allocated(status, dst, fields)
    }
}

/// # Fields
impl Heap {
    /// The root `dst` takes the value of a field, counted from 0, of the object that `src` names.
    /// The value is returned too.
    ///
    /// ```
    /// # fn main() -> Result<(), rheap::Error> {
    /// # use rheap::{Heap, Sizes, Value};
    /// # let mut heap = Heap::sized(Sizes { words: 100, biggest: 4, ratio: 32, owners: 1, slots: 8 })?;
    /// # let (pair, other) = (heap.owner(0)?.slot(0)?, heap.owner(0)?.slot(1)?);
    /// heap.alloc(pair, 2)?;
    /// heap.store(pair, 1, pair)?;
    /// assert_eq!(heap.load(other, pair, 1)?, Value::Object { fields: 2 });
    /// assert!(heap.same(other, pair)?);
    /// # Ok(())
    /// # }
    /// ```
    ///
    /// # Errors
    ///
    /// [`Error::NotYours`], [`Error::NotObject`], [`Error::NoField`]; [`Error::NoRoot`] if a root is
    /// of another heap that has more slots.
    #[inline]
    pub fn load(&mut self, dst: Root, src: Root, field: u32) -> Result<Value> {
        let mut value = raw::RheapValue::default();
        // SAFETY: open, alone and apart, as at `Heap`.
        let status = unsafe {
            raw::rheap_load(
                self.at(),
                owner_of(dst, src),
                dst.id(),
                src.id(),
                field,
                &mut value,
            )
        };
        match status {
            raw::DONE => Ok(Value::told(value)),
            status => Err(self.refused(
                status,
                src,
                Asked {
                    field,
                    ..Asked::of(dst, src)
                },
            )),
        }
    }

    /// As [`load`](Heap::load), where the value isn't looked at: no value is returned, which takes
    /// fewer instructions.
    ///
    /// ```
    /// # fn main() -> Result<(), rheap::Error> {
    /// # use rheap::{Heap, Sizes};
    /// # let mut heap = Heap::sized(Sizes { words: 100, biggest: 4, ratio: 32, owners: 1, slots: 8 })?;
    /// # let (pair, other) = (heap.owner(0)?.slot(0)?, heap.owner(0)?.slot(1)?);
    /// heap.alloc(pair, 2)?;
    /// heap.store(pair, 1, pair)?;
    /// heap.load_untold(other, pair, 1)?;
    /// assert!(heap.same(other, pair)?);
    /// # Ok(())
    /// # }
    /// ```
    ///
    /// # Errors
    ///
    /// As [`load`](Heap::load).
    #[inline]
    pub fn load_untold(&mut self, dst: Root, src: Root, field: u32) -> Result<()> {
        // SAFETY: open and alone, as at `Heap`.
        let status = unsafe {
            raw::rheap_load_untold(self.at(), owner_of(dst, src), dst.id(), src.id(), field)
        };
        match status {
            raw::DONE => Ok(()),
            status => Err(self.refused(
                status,
                src,
                Asked {
                    field,
                    ..Asked::of(dst, src)
                },
            )),
        }
    }

    /// A field, counted from 0, of the object that `object` names becomes nil, takes a whole number,
    /// or takes what a root holds. In a cycle at most `ratio + 5` units follow; none follow outside.
    ///
    /// ```
    /// # fn main() -> Result<(), rheap::Error> {
    /// # use rheap::{Heap, Operand, Sizes, Value};
    /// # let mut heap = Heap::sized(Sizes { words: 100, biggest: 4, ratio: 32, owners: 1, slots: 8 })?;
    /// # let object = heap.owner(0)?.slot(0)?;
    /// heap.alloc(object, 3)?;
    /// heap.store(object, 0, 7)?;
    /// heap.store(object, 1, object)?;
    /// heap.store(object, 2, Operand::Nil)?;
    /// let fields: Vec<Value> = heap.fields(object)?.collect();
    /// assert_eq!(fields, [Value::Int(7), Value::Object { fields: 3 }, Value::Nil]);
    /// # Ok(())
    /// # }
    /// ```
    ///
    /// # Errors
    ///
    /// - [`Error::NotObject`], [`Error::NoField`], [`Error::LogFull`], [`Error::NumbersSpent`].
    /// - [`Error::IntRange`] for a number.
    /// - [`Error::NotYours`], [`Error::RawField`] for a root.
    /// - [`Error::NoRoot`] if a root is of another heap that has more slots.
    #[inline]
    pub fn store(&mut self, object: Root, field: u32, operand: impl Into<Operand>) -> Result<()> {
        let operand = operand.into();
        let at = self.at();
        // SAFETY: open and alone, as at `Heap`, in each of the three.
        let status = match operand {
            Operand::Nil => unsafe { raw::rheap_store_nil(at, object.owner(), object.id(), field) },
            Operand::Int(number) => unsafe {
                raw::rheap_store_int(at, object.owner(), object.id(), field, number)
            },
            Operand::Root(src) => unsafe {
                raw::rheap_store_root(at, owner_of(object, src), object.id(), field, src.id())
            },
        };
        self.stored(status, object, field, operand)
    }

    /// As [`Heap::store`], with room made first: if the log is full, it collects and tries again. So
    /// it may do the work of two whole cycles.
    ///
    /// # Errors
    ///
    /// As [`Heap::store`], without [`Error::LogFull`].
    #[inline]
    pub fn insist_store(
        &mut self,
        object: Root,
        field: u32,
        operand: impl Into<Operand>,
    ) -> Result<()> {
        let operand = operand.into();
        let at = self.at();
        // SAFETY: open and alone, as at `Heap`, in each of the three.
        let status = match operand {
            Operand::Nil => unsafe {
                raw::rheap_insist_store_nil(at, object.owner(), object.id(), field)
            },
            Operand::Int(number) => unsafe {
                raw::rheap_insist_store_int(at, object.owner(), object.id(), field, number)
            },
            Operand::Root(src) => unsafe {
                raw::rheap_insist_store_root(
                    at,
                    owner_of(object, src),
                    object.id(),
                    field,
                    src.id(),
                )
            },
        };
        self.stored(status, object, field, operand)
    }

    /// What a field, counted from 0, holds of the object that `src` names. No root takes the value.
    ///
    /// ```
    /// # fn main() -> Result<(), rheap::Error> {
    /// # use rheap::{Heap, Sizes, Value};
    /// # let mut heap = Heap::sized(Sizes { words: 100, biggest: 4, ratio: 32, owners: 1, slots: 8 })?;
    /// # let object = heap.owner(0)?.slot(0)?;
    /// heap.alloc(object, 1)?;
    /// heap.store(object, 0, 7)?;
    /// assert_eq!(heap.peek(object, 0)?, Value::Int(7));
    /// # Ok(())
    /// # }
    /// ```
    ///
    /// # Errors
    ///
    /// [`Error::NotObject`], [`Error::NoField`]; [`Error::NoRoot`] if `src` is of another heap
    /// that has more slots.
    #[inline]
    pub fn peek(&self, src: Root, field: u32) -> Result<Value> {
        let mut value = raw::RheapValue::default();
        // SAFETY: open, alone and apart, as at `Heap`.
        let status =
            unsafe { raw::rheap_peek(self.at(), src.owner(), src.id(), field, &mut value) };
        match status {
            raw::DONE => Ok(Value::told(value)),
            status => Err(self.refused(
                status,
                src,
                Asked {
                    field,
                    ..Asked::of(src, src)
                },
            )),
        }
    }

    /// The values of all fields of the object that the root names, in order. Its
    /// [`len`](ExactSizeIterator::len) is how many there are.
    ///
    /// ```
    /// # fn main() -> Result<(), rheap::Error> {
    /// # use rheap::{Heap, Sizes, Value};
    /// # let mut heap = Heap::sized(Sizes { words: 100, biggest: 8, ratio: 32, owners: 1, slots: 8 })?;
    /// # let object = heap.owner(0)?.slot(0)?;
    /// heap.alloc_raw(object, 5)?;
    /// for field in 0..5 {
    ///     heap.store(object, field, field * field)?;
    /// }
    /// assert_eq!(heap.fields(object)?.len(), 5);
    /// let sum: i64 = heap.fields(object)?.filter_map(Value::int).sum();
    /// assert_eq!(sum, 30);
    /// # Ok(())
    /// # }
    /// ```
    ///
    /// # Errors
    ///
    /// [`Error::NotObject`]; [`Error::NoRoot`] if the root is of another heap that has more slots.
    #[inline]
    pub fn fields(&self, root: Root) -> Result<Fields<'_>> {
        let mut fields = 0;
        // SAFETY: open, alone and apart, as at `Heap`.
        let status = unsafe { raw::rheap_fields(self.at(), root.id(), &mut fields) };
        match status {
            raw::DONE => Ok(Fields {
                heap: self,
                root,
                next: 0,
                end: fields,
            }),
            status => Err(self.refused(status, root, Asked::of(root, root))),
        }
    }
}

/// # Fields in a row
impl Heap {
    /// The fields from `from` on, counted from 0, of the object that `object` names take whole
    /// numbers: all of them or none. No numbers change nothing.
    ///
    /// It is the list of their stores, in a fraction of their time while no cycle is on. In a cycle at
    /// most `ratio + 5` units follow each number; none follow outside.
    ///
    /// ```
    /// # fn main() -> Result<(), rheap::Error> {
    /// # use rheap::{Error, Heap, Sizes, Value};
    /// # let mut heap = Heap::sized(Sizes { words: 100, biggest: 8, ratio: 32, owners: 1, slots: 8 })?;
    /// # let root = heap.owner(0)?.slot(0)?;
    /// heap.alloc_raw(root, 5)?;
    /// heap.store_ints(root, 1, &[2, 3, 5])?;
    /// let fields: Vec<_> = heap.fields(root)?.map(Value::int).collect();
    /// assert_eq!(fields, [None, Some(2), Some(3), Some(5), None]);
    ///
    /// let refused = heap.store_ints(root, 3, &[7, 8, 9]);
    /// assert_eq!(refused, Err(Error::NoField { root, field: 5, fields: 5 }));
    /// assert_eq!(heap.peek(root, 3)?, Value::Int(5));
    /// # Ok(())
    /// # }
    /// ```
    ///
    /// # Errors
    ///
    /// - First the first of [`Error::NotObject`], [`Error::NoField`] and [`Error::IntRange`] that one
    ///   of the stores has, in their order; [`Error::NoRoot`] if `object` is of another heap
    ///   that has more slots.
    /// - Then [`Error::LogFull`], if a cycle is on and the log has fewer places left than there are
    ///   numbers. [`Heap::collect`] ends the cycle; a call after it finds room.
    /// - Last [`Error::NumbersSpent`].
    #[inline]
    pub fn store_ints(&mut self, object: Root, from: u32, numbers: &[i64]) -> Result<()> {
        // SAFETY: open, alone and apart, as at `Heap`.
        let status = unsafe {
            raw::rheap_store_ints(
                self.at(),
                object.owner(),
                object.id(),
                from,
                numbers.as_ptr(),
                numbers.len(),
            )
        };
        match status {
            raw::DONE => Ok(()),
            status => Err(self.refused_in_a_row(status, object, from, numbers)),
        }
    }

    /// As [`Heap::store_ints`], after a collection if the log has too few places for the numbers.
    ///
    /// # Errors
    ///
    /// As [`Heap::store_ints`], but never [`Error::LogFull`].
    #[inline]
    pub fn insist_store_ints(&mut self, object: Root, from: u32, numbers: &[i64]) -> Result<()> {
        // SAFETY: open, alone and apart, as at `Heap`.
        let status = unsafe {
            raw::rheap_insist_store_ints(
                self.at(),
                object.owner(),
                object.id(),
                from,
                numbers.as_ptr(),
                numbers.len(),
            )
        };
        match status {
            raw::DONE => Ok(()),
            status => Err(self.refused_in_a_row(status, object, from, numbers)),
        }
    }

    /// Reads whole numbers of the fields from `from` on, counted from 0, of the object that `object`
    /// names: as many as `numbers` has room for, or up to the first field that holds none. How many
    /// were read; the rest of `numbers` stays. Nothing of the heap changes.
    ///
    /// ```
    /// # fn main() -> Result<(), rheap::Error> {
    /// # use rheap::{Heap, Sizes};
    /// # let mut heap = Heap::sized(Sizes { words: 100, biggest: 8, ratio: 32, owners: 1, slots: 8 })?;
    /// # let root = heap.owner(0)?.slot(0)?;
    /// heap.alloc_raw(root, 5)?;
    /// heap.store_ints(root, 0, &[2, 3, 5])?;
    /// let mut numbers = [0; 5];
    /// assert_eq!(heap.load_ints(root, 1, &mut numbers[..4])?, 2);
    /// assert_eq!(numbers, [3, 5, 0, 0, 0]);
    /// # Ok(())
    /// # }
    /// ```
    ///
    /// # Errors
    ///
    /// [`Error::NotObject`]; [`Error::NoField`] if one of as many fields as `numbers` has places
    /// isn't there; [`Error::NoRoot`] if `object` is of another heap
    /// that has more slots. `numbers` is as it was then.
    #[inline]
    pub fn load_ints(&self, object: Root, from: u32, numbers: &mut [i64]) -> Result<usize> {
        let mut count = 0;
        // SAFETY: open, alone and apart, as at `Heap`.
        let status = unsafe {
            raw::rheap_load_ints(
                self.at(),
                object.owner(),
                object.id(),
                from,
                numbers.as_mut_ptr(),
                numbers.len(),
                &mut count,
            )
        };
        match status {
            raw::DONE => Ok(count as usize),
            status => Err(self.refused_in_a_row(status, object, from, numbers)),
        }
    }

    /// The fields from `from` on of the object that `object` names take the bytes of a text, seven
    /// bytes each: [`text_fields`](crate::text_fields) says how many fields. All take theirs, or
    /// none. The first byte is the lowest of its number, and the last number has zeros above.
    ///
    /// It is [`Heap::store_ints`] of these numbers. A text doesn't say how long it is: keep its length
    /// too.
    ///
    /// ```
    /// # fn main() -> Result<(), rheap::Error> {
    /// # use rheap::{text_fields, Heap, Sizes, Value};
    /// # let mut heap = Heap::sized(Sizes { words: 100, biggest: 8, ratio: 32, owners: 1, slots: 8 })?;
    /// # let root = heap.owner(0)?.slot(0)?;
    /// let said = "a managed heap";
    /// heap.alloc_raw(root, 1 + text_fields(said.len()))?;
    /// heap.store(root, 0, said.len() as i64)?;
    /// heap.store_text(root, 1, said.as_bytes())?;
    ///
    /// let length = heap.peek(root, 0)?.int().expect("a length");
    /// let mut text = vec![0; length as usize];
    /// assert_eq!(heap.load_text(root, 1, &mut text)?, 14);
    /// assert_eq!(text, said.as_bytes());
    /// # Ok(())
    /// # }
    /// ```
    ///
    /// # Errors
    ///
    /// As [`Heap::store_ints`], but never [`Error::IntRange`]. [`Error::NoField`] also if the text is
    /// too long for any object.
    #[inline]
    pub fn store_text(&mut self, object: Root, from: u32, text: &[u8]) -> Result<()> {
        // SAFETY: open, alone and apart, as at `Heap`.
        let status = unsafe {
            raw::rheap_store_text(
                self.at(),
                object.owner(),
                object.id(),
                from,
                text.as_ptr().cast(),
                text.len(),
            )
        };
        match status {
            raw::DONE => Ok(()),
            status => Err(self.refused_in_a_row(status, object, from, &[])),
        }
    }

    /// As [`Heap::store_text`], after a collection if the log has too few places for the text.
    ///
    /// # Errors
    ///
    /// As [`Heap::store_text`], but never [`Error::LogFull`].
    #[inline]
    pub fn insist_store_text(&mut self, object: Root, from: u32, text: &[u8]) -> Result<()> {
        // SAFETY: open, alone and apart, as at `Heap`.
        let status = unsafe {
            raw::rheap_insist_store_text(
                self.at(),
                object.owner(),
                object.id(),
                from,
                text.as_ptr().cast(),
                text.len(),
            )
        };
        match status {
            raw::DONE => Ok(()),
            status => Err(self.refused_in_a_row(status, object, from, &[])),
        }
    }

    /// Reads bytes of the fields from `from` on of the object that `object` names, seven of each: as
    /// many as `text` has room for, or those of the fields before the first that holds no number. How
    /// many were read; the rest of `text` stays. Of a number the lowest 56 bits are read.
    ///
    /// # Errors
    ///
    /// As [`Heap::load_ints`], if one of the fields isn't there that a text as long as `text` takes.
    #[inline]
    pub fn load_text(&self, object: Root, from: u32, text: &mut [u8]) -> Result<usize> {
        let mut count = 0;
        // SAFETY: open, alone and apart, as at `Heap`.
        let status = unsafe {
            raw::rheap_load_text(
                self.at(),
                object.owner(),
                object.id(),
                from,
                text.as_mut_ptr().cast(),
                text.len(),
                &mut count,
            )
        };
        match status {
            raw::DONE => Ok(count as usize),
            status => Err(self.refused_in_a_row(status, object, from, &[])),
        }
    }
}

/// # Roots
impl Heap {
    /// What a root holds.
    ///
    /// # Errors
    ///
    /// [`Error::NoRoot`] if the root is of another heap that has more slots.
    #[inline]
    pub fn root(&self, root: Root) -> Result<Value> {
        let mut value = raw::RheapValue::default();
        // SAFETY: open, alone and apart, as at `Heap`.
        let status = unsafe { raw::rheap_root(self.at(), root.id(), &mut value) };
        match status {
            raw::DONE => Ok(Value::told(value)),
            status => Err(self.refused(status, root, Asked::of(root, root))),
        }
    }

    /// The root `dst` takes what the root `src` holds.
    ///
    /// ```
    /// # fn main() -> Result<(), rheap::Error> {
    /// # use rheap::{Error, Heap, Sizes};
    /// # let mut heap = Heap::sized(Sizes { words: 100, biggest: 4, ratio: 32, owners: 3, slots: 8 })?;
    /// let mine = heap.owner(1)?.slot(0)?;
    /// let theirs = heap.owner(2)?.slot(0)?;
    /// let shared = heap.owner(0)?.slot(0)?;
    /// heap.alloc(mine, 1)?;
    /// assert_eq!(heap.copy(theirs, mine), Err(Error::NotYours { first: theirs, second: mine }));
    /// heap.copy(shared, mine)?;
    /// heap.copy(theirs, shared)?;
    /// # Ok(())
    /// # }
    /// ```
    ///
    /// # Errors
    ///
    /// [`Error::NotYours`]; [`Error::NoRoot`] if a root is of another heap that has more slots.
    #[inline]
    pub fn copy(&mut self, dst: Root, src: Root) -> Result<()> {
        // SAFETY: open and alone, as at `Heap`.
        let status = unsafe { raw::rheap_copy(self.at(), owner_of(dst, src), dst.id(), src.id()) };
        match status {
            raw::DONE => Ok(()),
            status => Err(self.refused(status, dst, Asked::of(dst, src))),
        }
    }

    /// The root becomes nil.
    ///
    /// # Errors
    ///
    /// [`Error::NoRoot`] if the root is of another heap that has more slots.
    #[inline]
    pub fn drop_root(&mut self, root: Root) -> Result<()> {
        // SAFETY: open and alone, as at `Heap`.
        let status = unsafe { raw::rheap_drop(self.at(), root.owner(), root.id()) };
        match status {
            raw::DONE => Ok(()),
            status => Err(self.refused(status, root, Asked::of(root, root))),
        }
    }

    /// Whether both roots hold the same number, refer to the same object, or are nil.
    ///
    /// # Errors
    ///
    /// [`Error::NotYours`]; [`Error::NoRoot`] if a root is of another heap that has more slots.
    #[inline]
    pub fn same(&self, a: Root, b: Root) -> Result<bool> {
        let mut same = 0;
        // SAFETY: open, alone and apart, as at `Heap`.
        let status =
            unsafe { raw::rheap_same(self.at(), owner_of(a, b), a.id(), b.id(), &mut same) };
        match status {
            raw::DONE => Ok(same != 0),
            status => Err(self.refused(status, a, Asked::of(a, b))),
        }
    }
}

/// # The collector
impl Heap {
    /// Collects at once: a cycle begins if none is on, and ends. If none was on, only what the roots
    /// reach is left. If one was on, more may be; a second call leaves only that.
    ///
    /// # Errors
    ///
    /// [`Error::EpochsSpent`].
    #[inline]
    pub fn collect(&mut self) -> Result<()> {
        // SAFETY: open and alone, as at `Heap`.
        match unsafe { raw::rheap_collect(self.at()) } {
            raw::DONE => Ok(()),
            raw::EPOCHS_SPENT => Err(Error::EpochsSpent),
            other => unlisted(other),
        }
    }

    /// Does one increment of collector work, of at most 5 units. It begins a cycle that is due.
    #[inline]
    pub fn increment(&mut self) {
        // SAFETY: open and alone, as at `Heap`.
        done(unsafe { raw::rheap_increment(self.at()) });
    }

    /// The numbers of the heap.
    #[inline]
    pub fn stat(&self) -> Stats {
        let mut stats = raw::RheapStats::default();
        // SAFETY: open, alone and apart, as at `Heap`.
        done(unsafe { raw::rheap_stat(self.at(), &mut stats) });
        stats.into()
    }

    /// What the last increment or collection did; all zero and false before the first.
    ///
    /// ```
    /// # fn main() -> Result<(), rheap::Error> {
    /// # use rheap::{Heap, Sizes};
    /// # let mut heap = Heap::sized(Sizes { words: 100, biggest: 4, ratio: 32, owners: 1, slots: 8 })?;
    /// # let root = heap.owner(0)?.slot(0)?;
    /// heap.alloc(root, 2)?;
    /// heap.collect()?;
    /// let did = heap.last_did();
    /// assert!(did.flipped);
    /// assert_eq!(did.live_words, 4);
    /// # Ok(())
    /// # }
    /// ```
    #[inline]
    pub fn last_did(&self) -> Did {
        let mut did = raw::RheapDid::default();
        // SAFETY: open, alone and apart, as at `Heap`.
        done(unsafe { raw::rheap_last_did(self.at(), &mut did) });
        did.into()
    }

    /// The pace of the heap.
    #[inline]
    pub fn pace(&self) -> Pacing {
        let mut pacing = raw::RheapPacing::default();
        // SAFETY: open, alone and apart, as at `Heap`.
        done(unsafe { raw::rheap_pace(self.at(), &mut pacing) });
        pacing.into()
    }
}

/// A call that can't be refused was done.
#[inline]
pub(crate) fn done(status: u8) {
    if status != raw::DONE {
        unlisted(status);
    }
}

impl Heap {
    /// The handle, for one call.
    #[inline]
    pub(crate) fn at(&self) -> *mut raw::Rheap {
        self.raw.get()
    }

    #[inline]
    pub(crate) fn allocated(&self, status: u8, dst: Root, fields: u32) -> Result<()> {
        match status {
            raw::DONE => Ok(()),
            status => Err(self.refused(
                status,
                dst,
                Asked {
                    fields,
                    ..Asked::of(dst, dst)
                },
            )),
        }
    }

    #[inline]
    pub(crate) fn stored(
        &self,
        status: u8,
        object: Root,
        field: u32,
        operand: Operand,
    ) -> Result<()> {
        if status == raw::DONE {
            return Ok(());
        }
        let (second, number) = match operand {
            Operand::Nil => (object, 0),
            Operand::Int(number) => (object, number),
            Operand::Root(src) => (src, 0),
        };
        Err(self.refused(
            status,
            object,
            Asked {
                field,
                number,
                ..Asked::of(object, second)
            },
        ))
    }

    /// Why a call on fields in a row was refused: with the first field that isn't there, or the first
    /// number that is out of its range.
    #[cold]
    fn refused_in_a_row(&self, status: u8, object: Root, from: u32, numbers: &[i64]) -> Error {
        let fields = self.fields(object).map_or(0, |fields| fields.end);
        let is_whole = |number: &&i64| (raw::MIN_INT..=raw::MAX_INT).contains(*number);
        self.refused(
            status,
            object,
            Asked {
                field: from.max(fields),
                number: numbers
                    .iter()
                    .find(|number| !is_whole(number))
                    .map_or(0, |number| *number),
                ..Asked::of(object, object)
            },
        )
    }

    /// Why a call was refused. The call changed nothing since, so the numbers are those that it met.
    /// `object` is the root whose object it asked for.
    #[cold]
    pub(crate) fn refused(&self, status: u8, object: Root, asked: Asked) -> Error {
        let Sizes { owners, slots, .. } = self.sizes;
        let Asked {
            first,
            second,
            field,
            number,
            fields,
        } = asked;
        match status {
            raw::NO_ROOT => {
                let is_here = first.owner() < owners && first.slot() < slots;
                Error::NoRoot {
                    root: if is_here { second } else { first },
                    owners,
                    slots,
                }
            }
            raw::NOT_YOURS => Error::NotYours { first, second },
            raw::NOT_OBJECT => Error::NotObject {
                root: object,
                holds: self.root(object).unwrap_or_default(),
            },
            raw::NO_FIELD => Error::NoField {
                root: object,
                field,
                fields: self.fields(object).map_or(0, |fields| fields.end),
            },
            raw::RAW_FIELD => Error::RawField {
                root: object,
                field,
                value: self.root(second).unwrap_or_default(),
            },
            raw::INT_RANGE => Error::IntRange { number },
            raw::FIELDS_RANGE => Error::FieldsRange { fields },
            raw::SPACE_FULL => {
                let Room { need, free } = self.room(fields);
                Error::SpaceFull { need, free }
            }
            raw::LOG_FULL => Error::LogFull {
                limit: self.pace().log_limit,
                holds: self.stat().log,
            },
            raw::NUMBERS_SPENT => Error::NumbersSpent,
            other => unlisted(other),
        }
    }
}

impl Drop for Heap {
    fn drop(&mut self) {
        // SAFETY: open and alone, as at `Heap`; no call follows.
        let status = unsafe { raw::rheap_close(self.at()) };
        debug_assert_eq!(
            status,
            raw::DONE,
            "rheap: the heap was closed before its drop"
        );
    }
}

impl fmt::Debug for Heap {
    fn fmt(&self, f: &mut fmt::Formatter<'_>) -> fmt::Result {
        f.debug_struct("Heap")
            .field("sizes", &self.sizes)
            .field("stat", &self.stat())
            .finish_non_exhaustive()
    }
}

/// The values of an object's fields, in order. It comes from [`Heap::fields`].
///
/// It borrows the heap, so no field changes while it is used.
///
/// ```compile_fail,E0502
/// # fn main() -> Result<(), rheap::Error> {
/// # use rheap::{Heap, Sizes};
/// # let mut heap = Heap::sized(Sizes { words: 100, biggest: 4, ratio: 32, owners: 1, slots: 8 })?;
/// # let root = heap.owner(0)?.slot(0)?;
/// for value in heap.fields(root)? {
///     heap.drop_root(root)?;
/// }
/// # Ok(())
/// # }
/// ```
#[derive(Clone, Debug)]
pub struct Fields<'heap> {
    heap: &'heap Heap,
    root: Root,
    next: u32,
    end: u32,
}

impl Fields<'_> {
    /// The value of a field that the object has.
    #[inline]
    fn field(&self, field: u32) -> Value {
        let mut value = raw::RheapValue::default();
        // SAFETY: open, alone and apart, as at `Heap`.
        done(unsafe { raw::rheap_field(self.heap.at(), self.root.id(), field, &mut value) });
        Value::told(value)
    }
}

impl Iterator for Fields<'_> {
    type Item = Value;

    #[inline]
    fn next(&mut self) -> Option<Value> {
        if self.next == self.end {
            return None;
        }
        let value = self.field(self.next);
        self.next += 1;
        Some(value)
    }

    #[inline]
    fn nth(&mut self, skipped: usize) -> Option<Value> {
        let left = self.end - self.next;
        self.next += u32::try_from(skipped).map_or(left, |skipped| skipped.min(left));
        self.next()
    }

    #[inline]
    fn size_hint(&self) -> (usize, Option<usize>) {
        let left = (self.end - self.next) as usize;
        (left, Some(left))
    }
}

impl DoubleEndedIterator for Fields<'_> {
    #[inline]
    fn next_back(&mut self) -> Option<Value> {
        if self.next == self.end {
            return None;
        }
        self.end -= 1;
        Some(self.field(self.end))
    }
}

impl ExactSizeIterator for Fields<'_> {}

impl FusedIterator for Fields<'_> {}

#[cfg(test)]
mod tests {
    use super::*;

    fn heap() -> Heap {
        let sizes = Sizes {
            words: 100,
            biggest: 4,
            ratio: 32,
            owners: 2,
            slots: 2,
        };
        Heap::sized(sizes).expect("the sizes have a pace")
    }

    /// These two come after 2^62 stores and 2^62 - 1 cycles, so a test gives the status by hand.
    #[test]
    fn what_is_spent_is_told() {
        let heap = heap();
        let root = Root::new(0, 0);
        let refused = heap.refused(raw::NUMBERS_SPENT, root, Asked::of(root, root));
        assert_eq!(refused, Error::NumbersSpent);
        assert_eq!(refused.to_string(), "the numbers of stores are spent");
        assert_eq!(Error::EpochsSpent.to_string(), "the epochs are spent");
    }

    #[test]
    #[should_panic(expected = "status 12")]
    fn a_status_that_a_call_has_not_ends_the_program() {
        let heap = heap();
        let root = Root::new(0, 0);
        heap.refused(raw::NOT_OPEN, root, Asked::of(root, root));
    }

    #[test]
    fn a_call_is_made_for_the_owner_of_its_roots() {
        let (shared, mine, theirs) = (Root::new(0, 0), Root::new(1, 1), Root::new(2, 1));
        assert_eq!(owner_of(shared, shared), 0);
        assert_eq!(owner_of(shared, mine), 1);
        assert_eq!(owner_of(mine, shared), 1);
        assert_eq!(owner_of(mine, mine), 1);
        assert_eq!(owner_of(mine, theirs), 1);
    }
}
