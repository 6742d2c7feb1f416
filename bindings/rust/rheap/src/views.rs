use crate::error::{Error, Result};
use crate::heap::{done, unlisted, Heap};
use crate::raw;

/// What is kept of the cycles of one heap, for [`Heap::cycle`].
#[derive(Debug, Default)]
pub struct CycleReader {
    raw: raw::RheapCycleReader,
}

impl CycleReader {
    /// A reader before its first reading.
    #[inline]
    pub fn new() -> CycleReader {
        CycleReader::default()
    }
}

/// The numbers of a cycle that ended. See [`Heap::cycle`].
#[derive(Clone, Copy, Debug, PartialEq, Eq, Hash)]
#[non_exhaustive]
pub struct EndedCycle {
    /// Which one it is of those that ended since the reader's first reading, from 1.
    pub number: u64,
    /// The epoch at its begin.
    pub epoch: u64,
    /// The reading at which it began: the one after the reader's first is 1.
    pub began: u64,
    /// The reading at which it ended.
    pub ended: u64,
    /// The words that were used when it began.
    pub used: u64,
    /// The words that are used once it ended.
    pub live: u64,
    /// The words that it freed.
    pub freed: u64,
    /// The objects that it kept.
    pub objects: u64,
    /// The units that words allocated in it granted.
    pub granted: u64,
    /// The units that stores paid in it or a collection added.
    pub idle: u64,
    /// The units that were spent in it.
    pub spent: u64,
    /// The most units that were spent in it from one reading to the next.
    pub most: u64,
    /// The stores in it.
    pub logged: u64,
    /// The words of the space once it ended.
    pub words: u64,
    /// Whether it ended with a flip, as all cycles of these calls do.
    pub flipped: bool,
}

impl From<raw::RheapEndedCycle> for EndedCycle {
    fn from(told: raw::RheapEndedCycle) -> EndedCycle {
        EndedCycle {
            number: told.number,
            epoch: told.epoch,
            began: told.began,
            ended: told.ended,
            used: told.used,
            live: told.live,
            freed: told.freed,
            objects: told.objects,
            granted: told.granted,
            idle: told.idle,
            spent: told.spent,
            most: told.most,
            logged: told.logged,
            words: told.words,
            flipped: told.flipped != 0,
        }
    }
}

/// # What a heap looks like
impl Heap {
    /// What the roots reach, as the text that `rheap run` answers to the line `dump`: lines of roots
    /// and of objects, numbered breadth first. The same graph has the same text, wherever its objects
    /// are.
    ///
    /// ```
    /// # fn main() -> Result<(), rheap::Error> {
    /// # use rheap::{values, Heap, Sizes};
    /// # let mut heap = Heap::sized(Sizes { words: 100, biggest: 4, ratio: 32, owners: 1, slots: 8 })?;
    /// # let root = heap.owner(0)?.slot(0)?;
    /// heap.make(root, &values![7, root])?;
    /// assert_eq!(heap.dump()?, "rheap 2\nroots 1\n0.0 @0\nobjects 1\n@0 2 7 nil\nend\n");
    /// # Ok(())
    /// # }
    /// ```
    ///
    /// # Errors
    ///
    /// [`Error::NoMemory`] if memory is refused: it is taken for the text, and for what is noted of the
    /// heap meanwhile.
    pub fn dump(&self) -> Result<String> {
        text(|bytes, needs| {
            // SAFETY: open, alone and apart, as at `Heap`.
            unsafe {
                raw::rheap_dump_into(self.at(), bytes.as_mut_ptr().cast(), bytes.len(), needs)
            }
        })
    }

    /// A picture of the heap in SVG, as it stands: roots, objects with their addresses, and in a cycle
    /// the copies and the log. If more than 4,096 words are used, or there are more than 300 objects,
    /// roots or entries of the log, it shows bars alone.
    ///
    /// # Errors
    ///
    /// [`Error::NoMemory`].
    pub fn draw(&self) -> Result<String> {
        text(|bytes, needs| {
            // SAFETY: open, alone and apart, as at `Heap`.
            unsafe {
                raw::rheap_draw_into(self.at(), bytes.as_mut_ptr().cast(), bytes.len(), needs)
            }
        })
    }

    /// Reads the heap once more, and returns the numbers of the cycle that ended since the last
    /// reading, if one did. A reader is for one heap. Its first reading returns none.
    ///
    /// Read after each call that may end a cycle. If two ended since the last reading, or work was done
    /// since the end of one, none is returned, but they count: [`EndedCycle::number`] of the next one
    /// shows it.
    ///
    /// ```
    /// # fn main() -> Result<(), rheap::Error> {
    /// # use rheap::{CycleReader, Heap, Sizes};
    /// # let mut heap = Heap::sized(Sizes { words: 100, biggest: 4, ratio: 32, owners: 1, slots: 8 })?;
    /// # let root = heap.owner(0)?.slot(0)?;
    /// let mut reader = CycleReader::new();
    /// heap.cycle(&mut reader);
    /// heap.alloc(root, 2)?;
    /// heap.alloc(root, 1)?;
    /// heap.cycle(&mut reader);
    /// heap.collect()?;
    /// let cycle = heap.cycle(&mut reader).expect("it ended at this call");
    /// assert_eq!((cycle.used, cycle.live, cycle.freed), (7, 3, 4));
    /// # Ok(())
    /// # }
    /// ```
    #[inline]
    pub fn cycle(&self, reader: &mut CycleReader) -> Option<EndedCycle> {
        let mut cycle = raw::RheapEndedCycle::default();
        // SAFETY: open, alone and apart, as at `Heap`.
        done(unsafe { raw::rheap_cycle(self.at(), &mut reader.raw, &mut cycle) });
        (cycle.is != 0).then(|| cycle.into())
    }

    /// Gives memory back that the heap keeps for its next cycle alone: of its two spaces, the one that
    /// holds no object outside a cycle. A new block is taken for it, and the old one is freed. After
    /// the next cycle it is the other one's turn. Nothing that can be read changes.
    ///
    /// # Errors
    ///
    /// - [`Error::CycleOn`] exactly if a cycle is on: [`Heap::collect`] ends it.
    /// - [`Error::NoMemory`] if the new block is refused. The old one stays.
    #[inline]
    pub fn release(&mut self) -> Result<()> {
        // SAFETY: open and alone, as at `Heap`.
        match unsafe { raw::rheap_release(self.at()) } {
            raw::DONE => Ok(()),
            raw::CYCLE_ON => Err(Error::CycleOn),
            raw::NO_MEMORY => Err(Error::NoMemory),
            other => unlisted(other),
        }
    }
}

/// The text that a call tells whole, in a buffer of which it says how many bytes it needs.
fn text(mut call: impl FnMut(&mut [u8], &mut usize) -> u8) -> Result<String> {
    let mut bytes = Vec::new();
    let mut needs = 512;
    loop {
        bytes
            .try_reserve_exact(needs - bytes.len())
            .map_err(|_| Error::NoMemory)?;
        bytes.resize(needs, 0);
        match call(&mut bytes, &mut needs) {
            raw::DONE => {
                bytes.truncate(needs);
                return Ok(String::from_utf8(bytes).expect("each text is ASCII"));
            }
            raw::TOO_LONG => {}
            raw::NO_MEMORY => return Err(Error::NoMemory),
            other => unlisted(other),
        }
    }
}
