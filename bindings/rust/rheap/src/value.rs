use crate::raw;
use crate::root::Root;

/// What a root or a field holds.
///
/// Two values of objects are equal if the objects have the same kind and as many fields. Whether two
/// roots name one object, [`Heap::same`](crate::Heap::same) returns.
#[derive(Clone, Copy, Debug, Default, PartialEq, Eq, Hash)]
pub enum Value {
    /// No object and no number: a field of a new object, or a root that was never written.
    #[default]
    Nil,
    /// A whole number.
    Int(i64),
    /// A reference to an object.
    Object {
        /// How many fields it has.
        fields: u32,
    },
    /// A reference to a raw object, whose fields hold nil and numbers alone.
    Raw {
        /// How many fields it has.
        fields: u32,
    },
}

impl Value {
    /// The number, if it is one.
    ///
    /// ```
    /// # use rheap::Value;
    /// assert_eq!(Value::Int(7).int(), Some(7));
    /// assert_eq!(Value::Nil.int(), None);
    /// ```
    #[inline]
    pub fn int(self) -> Option<i64> {
        match self {
            Value::Int(number) => Some(number),
            _ => None,
        }
    }

    /// Whether it is nil.
    #[inline]
    pub fn is_nil(self) -> bool {
        self == Value::Nil
    }

    /// Whether it is a reference, to a raw object or another.
    ///
    /// ```
    /// # use rheap::Value;
    /// assert!(Value::Raw { fields: 2 }.is_reference());
    /// assert!(!Value::Int(7).is_reference());
    /// ```
    #[inline]
    pub fn is_reference(self) -> bool {
        matches!(self, Value::Object { .. } | Value::Raw { .. })
    }

    /// The value that the library wrote.
    #[inline]
    pub(crate) fn told(value: raw::RheapValue) -> Value {
        let fields = value.fields;
        match value.kind {
            raw::NIL => Value::Nil,
            raw::NUMBER => Value::Int(value.number),
            raw::OBJECT => Value::Object { fields },
            raw::RAW => Value::Raw { fields },
            kind => unreachable!("rheap: the library wrote a value of kind {kind}"),
        }
    }
}

/// What is stored in a field: nil, a whole number, or what a root holds.
///
/// Numbers and roots convert to it, so [`Heap::store`](crate::Heap::store) takes them as they are.
///
/// ```
/// # fn main() -> Result<(), rheap::Error> {
/// # use rheap::{Heap, Operand, Sizes, Value};
/// # let mut heap = Heap::sized(Sizes { words: 100, biggest: 4, ratio: 32, owners: 1, slots: 8 })?;
/// # let root = heap.owner(0)?.slot(0)?;
/// heap.alloc(root, 2)?;
/// heap.store(root, 0, 7)?;
/// heap.store(root, 1, root)?;
/// heap.store(root, 0, Operand::Nil)?;
/// assert_eq!(heap.peek(root, 0)?, Value::Nil);
/// # Ok(())
/// # }
/// ```
#[derive(Clone, Copy, Debug, PartialEq, Eq, Hash)]
pub enum Operand {
    /// Nil.
    Nil,
    /// A whole number, from [`MIN_INT`](crate::MIN_INT) to [`MAX_INT`](crate::MAX_INT).
    Int(i64),
    /// What the root holds.
    Root(Root),
}

impl From<i64> for Operand {
    #[inline]
    fn from(number: i64) -> Operand {
        Operand::Int(number)
    }
}

impl From<i32> for Operand {
    #[inline]
    fn from(number: i32) -> Operand {
        Operand::Int(number.into())
    }
}

impl From<u32> for Operand {
    #[inline]
    fn from(number: u32) -> Operand {
        Operand::Int(number.into())
    }
}

impl From<Root> for Operand {
    #[inline]
    fn from(root: Root) -> Operand {
        Operand::Root(root)
    }
}
