use crate::raw;

/// The bytes of a text that a field takes.
const A_FIELD: usize = 7;

/// One more than an object has fields: so many are refused of any object.
const TOO_MANY: usize = raw::MAX_FIELDS as usize + 1;

/// How many fields a text of so many bytes takes: seven bytes go into one. If that is more than an
/// object has, it is [`MAX_FIELDS`](crate::MAX_FIELDS)` + 1`, which an allocation refuses.
///
/// ```
/// # use rheap::{text_fields, MAX_FIELDS};
/// assert_eq!(text_fields(0), 0);
/// assert_eq!(text_fields(7), 1);
/// assert_eq!(text_fields(8), 2);
/// assert_eq!(text_fields(28_665), MAX_FIELDS);
/// assert_eq!(text_fields(usize::MAX), MAX_FIELDS + 1);
/// ```
#[inline]
pub fn text_fields(length: usize) -> u32 {
    length.div_ceil(A_FIELD).min(TOO_MANY) as u32
}
