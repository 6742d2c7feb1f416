use crate::raw;
use std::fmt;
use std::num::NonZeroU32;

/// Why a trace wasn't run.
///
/// Its [`Display`](fmt::Display) is one line without a full stop.
#[derive(Clone, Copy, Debug, PartialEq, Eq, Hash)]
#[non_exhaustive]
pub enum TraceError {
    /// The trace has a fault, or no pace keeps up with it. The program `rheap run` says which, and in
    /// which line.
    Fault,
    /// Memory was refused.
    NoMemory,
}

impl fmt::Display for TraceError {
    fn fmt(&self, f: &mut fmt::Formatter<'_>) -> fmt::Result {
        match self {
            TraceError::Fault => write!(f, "the trace has a fault, or no pace keeps up with it"),
            TraceError::NoMemory => write!(f, "memory was refused"),
        }
    }
}

impl std::error::Error for TraceError {}

/// Runs a trace that drives its cycles itself, or has none, on a new heap. Returns the text that
/// `rheap run` prints of it: a line for each answer, and the total line. A refused line is an answer.
///
/// `rheap run --help` has the language of traces.
///
/// ```
/// # fn main() -> Result<(), rheap::TraceError> {
/// let answers = rheap::run(b"heap 16 8 4 2 2\n1 alloc 1.0 2\nbegin\n")?;
/// assert!(answers.starts_with(b"object 2\ncycle 1\ntotal "));
/// assert_eq!(rheap::run(b"hip"), Err(rheap::TraceError::Fault));
/// # Ok(())
/// # }
/// ```
pub fn run(trace: &[u8]) -> Result<Vec<u8>, TraceError> {
    answered(trace, |answers, length| {
        // SAFETY: the declaration fits; each pointer and length are those of one slice, which is
        // borrowed for the call, and the slices and `length` lie apart.
        unsafe {
            raw::rheap_run(
                trace.as_ptr(),
                trace.len(),
                answers.as_mut_ptr(),
                answers.len(),
                length,
            )
        }
    })
}

/// Runs a trace of commands alone, on a new heap that collects by itself. Returns the text that
/// `rheap run --paced` prints of it. With a `mark` a cycle begins where fewer words are free, as for
/// `--mark`. Without one it is the lowest mark that keeps up.
///
/// ```
/// # fn main() -> Result<(), rheap::TraceError> {
/// let trace = b"heap 1024 32 64 1 1\n0 alloc 0.0 2\n";
/// let answers = rheap::run_paced(trace, None)?;
/// assert_eq!(answers, b"object 2\ntotal commands 1 refused 0 flips 0 rootwords 0\n");
/// # Ok(())
/// # }
/// ```
pub fn run_paced(trace: &[u8], mark: Option<NonZeroU32>) -> Result<Vec<u8>, TraceError> {
    let mark = mark.map_or(0, NonZeroU32::get);
    answered(trace, |answers, length| {
        // SAFETY: as in `run`.
        unsafe {
            raw::rheap_run_paced(
                trace.as_ptr(),
                trace.len(),
                mark,
                answers.as_mut_ptr(),
                answers.len(),
                length,
            )
        }
    })
}

/// The text that a call puts into a buffer. If that is too small the call says how many bytes are
/// due, and is made once more.
fn answered(
    trace: &[u8],
    mut call: impl FnMut(&mut [u8], &mut usize) -> u8,
) -> Result<Vec<u8>, TraceError> {
    let mut answers = Vec::new();
    let mut due = trace.len();
    loop {
        answers
            .try_reserve_exact(due - answers.len())
            .map_err(|_| TraceError::NoMemory)?;
        answers.resize(due, 0);
        match call(&mut answers, &mut due) {
            raw::RUN_DONE => {
                answers.truncate(due);
                return Ok(answers);
            }
            raw::RUN_NO_ROOM => {}
            raw::RUN_NO_MEMORY => return Err(TraceError::NoMemory),
            _ => return Err(TraceError::Fault),
        }
    }
}

#[cfg(test)]
mod tests {
    use super::*;

    /// What `answered` makes of these answers of a call, whose text is `text`.
    fn of(trace: &[u8], statuses: &[u8], text: &[u8]) -> Result<Vec<u8>, TraceError> {
        let mut statuses = statuses.iter();
        let mut rooms = Vec::new();
        let got = answered(trace, |answers, length| {
            let status = *statuses.next().expect("no call is made once more");
            rooms.push(answers.len());
            *length = text.len();
            if status == raw::RUN_DONE {
                answers[..text.len()].copy_from_slice(text);
            }
            status
        });
        assert_eq!(statuses.len(), 0, "each call was made");
        // The first buffer is as long as the trace, and the second as the text.
        assert_eq!(rooms, [trace.len(), text.len()][..rooms.len()]);
        got
    }

    #[test]
    fn a_buffer_that_is_too_small_grows_once() {
        assert_eq!(of(b"12345", &[raw::RUN_DONE], b"abc"), Ok(b"abc".to_vec()));
        let statuses = [raw::RUN_NO_ROOM, raw::RUN_DONE];
        assert_eq!(of(b"12", &statuses, b"abc"), Ok(b"abc".to_vec()));
        assert_eq!(of(b"", &statuses, b"abc"), Ok(b"abc".to_vec()));
        assert_eq!(of(b"12", &[raw::RUN_FAULT], b""), Err(TraceError::Fault));
        assert_eq!(
            of(b"12", &[raw::RUN_NO_MEMORY], b""),
            Err(TraceError::NoMemory)
        );
    }
}
