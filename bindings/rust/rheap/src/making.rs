use crate::error::{Error, Result};
use crate::heap::{Asked, Heap};
use crate::raw;
use crate::root::Root;
use crate::value::Operand;

/// So many values are few: they are handed to the library by way of a small array.
const FEW: usize = 8;

/// The same of many values; of more, the array is as long as an object may be.
const MANY: usize = 64;
const MOST: usize = raw::MAX_FIELDS as usize;

/// Values for the fields of a new object, as an array of [`Operand`]s: numbers and roots are taken as
/// they are.
///
/// ```
/// # fn main() -> Result<(), rheap::Error> {
/// # use rheap::{values, Heap, Operand, Sizes};
/// # let mut heap = Heap::sized(Sizes { words: 100, biggest: 4, ratio: 32, owners: 1, slots: 8 })?;
/// # let list = heap.owner(0)?.slot(0)?;
/// assert_eq!(values![7, list, Operand::Nil], [Operand::Int(7), Operand::Root(list), Operand::Nil]);
/// # Ok(())
/// # }
/// ```
#[macro_export]
macro_rules! values {
    ($($value:expr),* $(,)?) => {
        [$($crate::Operand::from($value)),*]
    };
}

/// The calls by which the library makes an object.
type Call = unsafe extern "C" fn(
    *mut raw::Rheap,
    u32,
    raw::RheapRootId,
    u32,
    *const raw::RheapInit,
    usize,
) -> u8;

/// Nil, as the library takes it.
pub(crate) const NIL: raw::RheapInit = raw::RheapInit {
    kind: raw::NIL,
    root: raw::RheapRootId { owner: 0, slot: 0 },
    number: 0,
};

/// The operand as the library takes it.
#[inline]
pub(crate) fn given(operand: Operand) -> raw::RheapInit {
    match operand {
        Operand::Nil => NIL,
        Operand::Int(number) => raw::RheapInit {
            kind: raw::NUMBER,
            number,
            ..NIL
        },
        Operand::Root(root) => raw::RheapInit {
            kind: raw::OBJECT,
            root: root.id(),
            ..NIL
        },
    }
}

/// The owner for whom the call is made: that of the first root that has one of its own.
#[inline]
pub(crate) fn owner_of(dst: Root, values: &[Operand]) -> u32 {
    let roots = values.iter().map(|value| match *value {
        Operand::Root(root) => root.owner(),
        Operand::Nil | Operand::Int(_) => 0,
    });
    std::iter::once(dst.owner())
        .chain(roots)
        .find(|owner| *owner != 0)
        .unwrap_or(0)
}

/// The fields of an object that has no others than these.
#[inline]
fn fields_of(values: &[Operand]) -> u32 {
    u32::try_from(values.len()).unwrap_or(u32::MAX)
}

/// # Objects with their values
impl Heap {
    /// The root `dst` names a new object, whose fields take these values, all of them or none. The
    /// object has as many fields. What a root holds is read before `dst` names the object, so that it
    /// may be `dst` itself.
    ///
    /// If no value names `dst`, it is a [`Heap::alloc`] and a [`Heap::store`] for each value. In a
    /// cycle at most `ratio * (fields + 2 + values.len()) + 5` units follow; none follow outside.
    ///
    /// ```
    /// # fn main() -> Result<(), rheap::Error> {
    /// # use rheap::{values, Heap, Sizes, Value};
    /// # let mut heap = Heap::sized(Sizes { words: 100, biggest: 4, ratio: 32, owners: 1, slots: 8 })?;
    /// # let list = heap.owner(0)?.slot(0)?;
    /// // A list of three numbers, each before those that are there.
    /// for number in 1..=3 {
    ///     heap.make(list, &values![number, list])?;
    /// }
    /// assert_eq!(heap.peek(list, 0)?, Value::Int(3));
    /// assert_eq!(heap.peek(list, 1)?, Value::Object { fields: 2 });
    /// # Ok(())
    /// # }
    /// ```
    ///
    /// # Errors
    ///
    /// Nothing has changed then.
    ///
    /// - [`Error::FieldsRange`] for more than [`MAX_FIELDS`](crate::MAX_FIELDS) values,
    ///   [`Error::SpaceFull`].
    /// - [`Error::LogFull`] if a cycle is on and the log has fewer places left than there are values;
    ///   [`Error::NumbersSpent`].
    /// - [`Error::IntRange`] for a number.
    /// - [`Error::NotYours`] if `dst` and the roots among the values are of two owners.
    /// - [`Error::NoRoot`] if a root is of another heap that has more slots.
    #[inline]
    pub fn make(&mut self, dst: Root, values: &[Operand]) -> Result<()> {
        self.make_of(dst, fields_of(values), values)
    }

    /// As [`Heap::make`], of an object of so many fields. Those past the values are nil.
    ///
    /// ```
    /// # fn main() -> Result<(), rheap::Error> {
    /// # use rheap::{values, Heap, Sizes, Value};
    /// # let mut heap = Heap::sized(Sizes { words: 100, biggest: 8, ratio: 32, owners: 1, slots: 8 })?;
    /// # let frame = heap.owner(0)?.slot(0)?;
    /// heap.make_of(frame, 3, &values![7])?;
    /// let fields: Vec<Value> = heap.fields(frame)?.collect();
    /// assert_eq!(fields, [Value::Int(7), Value::Nil, Value::Nil]);
    /// # Ok(())
    /// # }
    /// ```
    ///
    /// # Errors
    ///
    /// As [`Heap::make`]; [`Error::NoField`] for more values than fields.
    #[inline]
    pub fn make_of(&mut self, dst: Root, fields: u32, values: &[Operand]) -> Result<()> {
        self.made(raw::rheap_make, dst, fields, values)
    }

    /// As [`Heap::make`], of a raw object, whose fields hold nil and numbers alone.
    ///
    /// # Errors
    ///
    /// As [`Heap::make`]; [`Error::RawField`] for a root that holds a reference.
    #[inline]
    pub fn make_raw(&mut self, dst: Root, values: &[Operand]) -> Result<()> {
        self.make_raw_of(dst, fields_of(values), values)
    }

    /// As [`Heap::make_raw`], of a raw object of so many fields. Those past the values are nil.
    ///
    /// # Errors
    ///
    /// As [`Heap::make_raw`]; [`Error::NoField`] for more values than fields.
    #[inline]
    pub fn make_raw_of(&mut self, dst: Root, fields: u32, values: &[Operand]) -> Result<()> {
        self.made(raw::rheap_make_raw, dst, fields, values)
    }

    /// As [`Heap::make`], with room made first: if there is none, it collects and tries again, twice at
    /// most. So it may do the work of two whole cycles.
    ///
    /// # Errors
    ///
    /// As [`Heap::make`], but never [`Error::LogFull`]. [`Error::SpaceFull`] means that what the roots
    /// reach and the object don't fit together, unless the epochs are spent.
    #[inline]
    pub fn insist_make(&mut self, dst: Root, values: &[Operand]) -> Result<()> {
        self.insist_make_of(dst, fields_of(values), values)
    }

    /// As [`Heap::make_of`], with room made first as [`Heap::insist_make`] does.
    ///
    /// # Errors
    ///
    /// As [`Heap::insist_make`]; [`Error::NoField`] for more values than fields.
    #[inline]
    pub fn insist_make_of(&mut self, dst: Root, fields: u32, values: &[Operand]) -> Result<()> {
        self.made(raw::rheap_insist_make, dst, fields, values)
    }

    /// As [`Heap::make_raw`], with room made first as [`Heap::insist_make`] does.
    ///
    /// # Errors
    ///
    /// As [`Heap::insist_make`]; [`Error::RawField`] for a root that holds a reference.
    #[inline]
    pub fn insist_make_raw(&mut self, dst: Root, values: &[Operand]) -> Result<()> {
        self.insist_make_raw_of(dst, fields_of(values), values)
    }

    /// As [`Heap::make_raw_of`], with room made first as [`Heap::insist_make`] does.
    ///
    /// # Errors
    ///
    /// As [`Heap::insist_make_raw`]; [`Error::NoField`] for more values than fields.
    #[inline]
    pub fn insist_make_raw_of(&mut self, dst: Root, fields: u32, values: &[Operand]) -> Result<()> {
        self.made(raw::rheap_insist_make_raw, dst, fields, values)
    }

    #[inline]
    fn made(&mut self, call: Call, dst: Root, fields: u32, values: &[Operand]) -> Result<()> {
        let status = if values.len() > FEW {
            self.made_of_many(call, dst, fields, values)
        } else {
            self.made_by_way_of::<FEW>(call, dst, fields, values)
        };
        match status {
            raw::DONE => Ok(()),
            status => Err(self.not_made(status, dst, fields, values)),
        }
    }

    #[inline(never)]
    fn made_of_many(&mut self, call: Call, dst: Root, fields: u32, values: &[Operand]) -> u8 {
        if values.len() > MOST {
            raw::FIELDS_RANGE
        } else if values.len() > MANY {
            self.made_of_most(call, dst, fields, values)
        } else {
            self.made_by_way_of::<MANY>(call, dst, fields, values)
        }
    }

    #[inline(never)]
    fn made_of_most(&mut self, call: Call, dst: Root, fields: u32, values: &[Operand]) -> u8 {
        self.made_by_way_of::<MOST>(call, dst, fields, values)
    }

    /// Makes the object of at most `N` values.
    #[inline(always)]
    fn made_by_way_of<const N: usize>(
        &mut self,
        call: Call,
        dst: Root,
        fields: u32,
        values: &[Operand],
    ) -> u8 {
        let mut array = [NIL; N];
        for (place, value) in array.iter_mut().zip(values) {
            *place = given(*value);
        }
        let owner = owner_of(dst, values);
        // SAFETY: open, alone and apart, as at `Heap`; the array has as many values or more.
        unsafe {
            call(
                self.at(),
                owner,
                dst.id(),
                fields,
                array.as_ptr(),
                values.len(),
            )
        }
    }

    /// Why no object was made. What was refused is the first value that can be refused so.
    #[cold]
    fn not_made(&self, status: u8, dst: Root, fields: u32, values: &[Operand]) -> Error {
        let owner = owner_of(dst, values);
        let first = |refused: &dyn Fn(Root) -> bool| {
            values
                .iter()
                .enumerate()
                .find_map(|(field, value)| match *value {
                    Operand::Root(root) if refused(root) => Some((field as u32, root)),
                    _ => None,
                })
        };
        let (field, second) = match status {
            raw::NO_ROOT => first(&|root| self.root(root).is_err()),
            raw::NOT_YOURS => first(&|root| !root.is_shared() && root.owner() != owner),
            raw::RAW_FIELD => {
                first(&|root| self.root(root).is_ok_and(|value| value.is_reference()))
            }
            _ => None,
        }
        .unwrap_or((fields, dst));
        if status == raw::NO_FIELD {
            return Error::NoField {
                root: dst,
                field,
                fields,
            };
        }
        let number = values.iter().find_map(|value| match *value {
            Operand::Int(number) if !(raw::MIN_INT..=raw::MAX_INT).contains(&number) => {
                Some(number)
            }
            _ => None,
        });
        // Where `dst` is shared, the first root with an owner of its own is the other one.
        let first = match first(&|root| root.owner() == owner) {
            Some((_, root)) if status == raw::NOT_YOURS && dst.is_shared() => root,
            _ => dst,
        };
        let asked = fields.max(fields_of(values));
        self.refused(
            status,
            dst,
            Asked {
                field,
                number: number.unwrap_or(0),
                fields: if status == raw::FIELDS_RANGE {
                    asked
                } else {
                    fields
                },
                ..Asked::of(first, second)
            },
        )
    }
}
