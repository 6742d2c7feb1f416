use crate::error::{Result, RowError};
use crate::heap::{owner_of, Asked, Heap};
use crate::making::{given, owner_of as owner_of_all, NIL};
use crate::raw;
use crate::root::Root;
use crate::value::{Operand, Value};

/// So many values are handed to the library at once.
const AT_ONCE: usize = 16;

/// The calls by which the library stores values in a row.
type StoreRow = unsafe extern "C" fn(
    *mut raw::Rheap,
    u32,
    raw::RheapRootId,
    u32,
    *const raw::RheapInit,
    usize,
    *mut usize,
) -> u8;

/// The root that stands so many slots after this one, whether its owner has that or not.
fn behind(first: Root, slots: usize) -> Root {
    let slots = u32::try_from(slots).unwrap_or(u32::MAX);
    Root::new(first.owner(), first.slot().saturating_add(slots))
}

/// # Roots and values in a row, and paths
///
/// Each of these calls is a list of commands, done one after the other up to the first that is
/// refused. Those before it stay done: the [`RowError`] has how many, and the refusal.
impl Heap {
    /// The roots from `first` on take the fields from `from` on of the object that `src` names, as many
    /// as `values` has places. Their values are written there.
    ///
    /// If `src` is one of these roots, let it be the last: the fields after its own would be those of
    /// the object that it then names.
    ///
    /// ```
    /// # fn main() -> Result<(), rheap::Error> {
    /// # use rheap::{Heap, Sizes, Value};
    /// # let mut heap = Heap::sized(Sizes { words: 100, biggest: 8, ratio: 32, owners: 1, slots: 8 })?;
    /// # let owner = heap.owner(0)?;
    /// let (frame, first) = (owner.slot(0)?, owner.slot(1)?);
    /// heap.alloc(first, 2)?;
    /// heap.alloc(frame, 3)?;
    /// // Three roots are saved in a frame, lost, and taken from it again.
    /// heap.store_roots(frame, 0, first, 3)?;
    /// heap.drop_roots(first, 3)?;
    /// let mut values = [Value::Nil; 3];
    /// heap.load_roots(first, frame, 0, &mut values)?;
    /// assert_eq!(values, [Value::Object { fields: 2 }, Value::Nil, Value::Nil]);
    /// assert_eq!(heap.root(first)?, values[0]);
    /// # Ok(())
    /// # }
    /// ```
    ///
    /// # Errors
    ///
    /// [`Error::NotYours`], [`Error::NotObject`], [`Error::NoField`]; [`Error::NoRoot`] if there is no
    /// slot after the last one that was loaded.
    ///
    /// [`Error::NotYours`]: crate::Error::NotYours
    /// [`Error::NotObject`]: crate::Error::NotObject
    /// [`Error::NoField`]: crate::Error::NoField
    /// [`Error::NoRoot`]: crate::Error::NoRoot
    pub fn load_roots(
        &mut self,
        first: Root,
        src: Root,
        from: u32,
        values: &mut [Value],
    ) -> Result<(), RowError> {
        // More than an owner has slots are never loaded.
        let mut told = [raw::RheapValue::default(); raw::MAX_SLOTS as usize + 1];
        let length = values.len().min(told.len());
        let mut count = 0;
        // SAFETY: open, alone and apart, as at `Heap`; `told` has `length` places or more.
        let status = unsafe {
            raw::rheap_load_roots(
                self.at(),
                owner_of(first, src),
                first.id(),
                src.id(),
                from,
                told.as_mut_ptr(),
                length,
                &mut count,
            )
        };
        for (value, told) in values.iter_mut().zip(&told[..count]) {
            *value = Value::told(*told);
        }
        match status {
            raw::DONE => Ok(()),
            status => {
                let field = from.saturating_add(count as u32);
                let asked = Asked::of_field(behind(first, count), src, field);
                Err(RowError::after(count, self.refused(status, src, asked)))
            }
        }
    }

    /// As [`Heap::load_roots`] of `length` fields, where nobody looks at their values.
    ///
    /// # Errors
    ///
    /// As [`Heap::load_roots`].
    pub fn load_roots_untold(
        &mut self,
        first: Root,
        src: Root,
        from: u32,
        length: usize,
    ) -> Result<(), RowError> {
        let mut count = 0;
        // SAFETY: open, alone and apart, as at `Heap`.
        let status = unsafe {
            raw::rheap_load_roots_untold(
                self.at(),
                owner_of(first, src),
                first.id(),
                src.id(),
                from,
                length,
                &mut count,
            )
        };
        match status {
            raw::DONE => Ok(()),
            status => {
                let field = from.saturating_add(count as u32);
                let asked = Asked::of_field(behind(first, count), src, field);
                Err(RowError::after(count, self.refused(status, src, asked)))
            }
        }
    }

    /// The fields from `from` on of the object that `object` names take these values: nil, numbers and
    /// what roots hold. In a cycle at most `ratio + 5` units follow each store; none follow outside.
    ///
    /// ```
    /// # fn main() -> Result<(), rheap::Error> {
    /// # use rheap::{values, Heap, Operand, Sizes, Value};
    /// # let mut heap = Heap::sized(Sizes { words: 100, biggest: 8, ratio: 32, owners: 1, slots: 8 })?;
    /// # let owner = heap.owner(0)?;
    /// let (frame, list) = (owner.slot(0)?, owner.slot(1)?);
    /// heap.alloc(list, 2)?;
    /// heap.alloc(frame, 4)?;
    /// heap.store_row(frame, 1, &values![7, Operand::Nil, list])?;
    /// assert_eq!(heap.peek(frame, 1)?, Value::Int(7));
    /// assert_eq!(heap.peek(frame, 3)?, Value::Object { fields: 2 });
    /// # Ok(())
    /// # }
    /// ```
    ///
    /// # Errors
    ///
    /// That of the first store that is refused, as [`Heap::store`] has it. The values before it are
    /// stored.
    pub fn store_row(
        &mut self,
        object: Root,
        from: u32,
        values: &[Operand],
    ) -> Result<(), RowError> {
        self.stored_row(raw::rheap_store_row, object, from, values)
    }

    /// As [`Heap::store_row`], where each store is as [`Heap::insist_store`].
    ///
    /// # Errors
    ///
    /// As [`Heap::store_row`], but never [`Error::LogFull`](crate::Error::LogFull).
    pub fn insist_store_row(
        &mut self,
        object: Root,
        from: u32,
        values: &[Operand],
    ) -> Result<(), RowError> {
        self.stored_row(raw::rheap_insist_store_row, object, from, values)
    }

    /// Stores some values at once, and then those after them: it is one list of stores.
    fn stored_row(
        &mut self,
        call: StoreRow,
        object: Root,
        from: u32,
        values: &[Operand],
    ) -> Result<(), RowError> {
        let owner = owner_of_all(object, values);
        let (mut field, mut done) = (from, 0);
        for some in values.chunks(AT_ONCE) {
            let mut array = [NIL; AT_ONCE];
            for (place, value) in array.iter_mut().zip(some) {
                *place = given(*value);
            }
            let (length, mut count) = (some.len(), 0);
            // SAFETY: open, alone and apart, as at `Heap`; the array has as many values or more.
            let status = unsafe {
                let at = array.as_ptr();
                call(self.at(), owner, object.id(), field, at, length, &mut count)
            };
            if status != raw::DONE {
                let field = field.saturating_add(count as u32);
                let stored = self.stored(status, object, field, some[count]);
                return stored.map_err(|error| RowError::after(done + count, error));
            }
            field = field.saturating_add(length as u32);
            done += length;
        }
        Ok(())
    }

    /// The fields from `from` on of the object that `object` names take what the roots from `first` on
    /// hold, `length` of them. In a cycle at most `ratio + 5` units follow each store; none follow
    /// outside. See [`Heap::load_roots`].
    ///
    /// # Errors
    ///
    /// As [`Heap::load_roots`]; [`Error::RawField`], [`Error::LogFull`], [`Error::NumbersSpent`].
    ///
    /// [`Error::RawField`]: crate::Error::RawField
    /// [`Error::LogFull`]: crate::Error::LogFull
    /// [`Error::NumbersSpent`]: crate::Error::NumbersSpent
    pub fn store_roots(
        &mut self,
        object: Root,
        from: u32,
        first: Root,
        length: usize,
    ) -> Result<(), RowError> {
        let mut count = 0;
        // SAFETY: open, alone and apart, as at `Heap`.
        let status = unsafe {
            raw::rheap_store_roots(
                self.at(),
                owner_of(object, first),
                object.id(),
                from,
                first.id(),
                length,
                &mut count,
            )
        };
        self.stored_in_a_row(status, object, from, first, count)
            .map_err(|error| RowError::after(count, error))
    }

    /// As [`Heap::store_roots`], where each store is as [`Heap::insist_store`].
    ///
    /// # Errors
    ///
    /// As [`Heap::store_roots`], but never [`Error::LogFull`](crate::Error::LogFull).
    pub fn insist_store_roots(
        &mut self,
        object: Root,
        from: u32,
        first: Root,
        length: usize,
    ) -> Result<(), RowError> {
        let mut count = 0;
        // SAFETY: open, alone and apart, as at `Heap`.
        let status = unsafe {
            raw::rheap_insist_store_roots(
                self.at(),
                owner_of(object, first),
                object.id(),
                from,
                first.id(),
                length,
                &mut count,
            )
        };
        self.stored_in_a_row(status, object, from, first, count)
            .map_err(|error| RowError::after(count, error))
    }

    fn stored_in_a_row(
        &self,
        status: u8,
        object: Root,
        from: u32,
        first: Root,
        count: usize,
    ) -> Result<()> {
        match status {
            raw::DONE => Ok(()),
            status => {
                let field = from.saturating_add(count as u32);
                let asked = Asked::of_field(object, behind(first, count), field);
                Err(self.refused(status, object, asked))
            }
        }
    }

    /// The roots from `first` on become nil, `length` of them.
    ///
    /// # Errors
    ///
    /// [`Error::NoRoot`](crate::Error::NoRoot) if there is no slot after the last one that became nil.
    pub fn drop_roots(&mut self, first: Root, length: usize) -> Result<(), RowError> {
        let mut count = 0;
        // SAFETY: open, alone and apart, as at `Heap`.
        let status = unsafe {
            raw::rheap_drop_roots(self.at(), first.owner(), first.id(), length, &mut count)
        };
        match status {
            raw::DONE => Ok(()),
            status => {
                let root = behind(first, count);
                let error = self.refused(status, root, Asked::of(root, root));
                Err(RowError::after(count, error))
            }
        }
    }

    /// Follows a path: the root `dst` takes the first of `fields` of the object that `src` names, then
    /// the next one of the object that this is, and so on. Returns the last value; nil where there are
    /// no fields, and `dst` is as it was then.
    ///
    /// ```
    /// # fn main() -> Result<(), rheap::Error> {
    /// # use rheap::{Heap, Sizes, Value};
    /// # let mut heap = Heap::sized(Sizes { words: 100, biggest: 4, ratio: 32, owners: 1, slots: 8 })?;
    /// # let owner = heap.owner(0)?;
    /// let (list, cell) = (owner.slot(0)?, owner.slot(1)?);
    /// for number in 1..=3 {
    ///     heap.alloc(cell, 2)?;
    ///     heap.store(cell, 0, number)?;
    ///     heap.store(cell, 1, list)?;
    ///     heap.copy(list, cell)?;
    /// }
    /// // The third item: the rest, its rest, and the number of that.
    /// assert_eq!(heap.load_path(cell, list, &[1, 1, 0])?, Value::Int(1));
    /// # Ok(())
    /// # }
    /// ```
    ///
    /// # Errors
    ///
    /// As a [`Heap::load`] of each field. `dst` then has what it took last.
    pub fn load_path(&mut self, dst: Root, src: Root, fields: &[u32]) -> Result<Value, RowError> {
        let (mut count, mut value) = (0, raw::RheapValue::default());
        // SAFETY: open, alone and apart, as at `Heap`.
        let status = unsafe {
            raw::rheap_load_path(
                self.at(),
                owner_of(dst, src),
                dst.id(),
                src.id(),
                fields.as_ptr(),
                fields.len(),
                &mut count,
                &mut value,
            )
        };
        match status {
            raw::DONE => Ok(Value::told(value)),
            status => {
                let object = if count == 0 { src } else { dst };
                let field = fields.get(count).copied().unwrap_or_default();
                let error = self.refused(status, object, Asked::of_field(dst, object, field));
                Err(RowError::after(count, error))
            }
        }
    }
}
