use crate::error::{Error, Result};
use crate::heap::{unlisted, Heap};
use crate::numbers::Sizes;
use crate::raw;

/// # Other words
impl Heap {
    /// Gives a heap that doesn't grow so many words, in place and at any moment, in a cycle too.
    /// Objects, roots and tickets stay as they are. The pace is chosen anew, as [`Heap::sized`] chooses
    /// it, at the heap's own ratio: as much of the space may live as that allows.
    ///
    /// The heap collects in time from then on if no cycle is on and the new mark ([`Heap::pace`]) is
    /// free beside the words in use, as it is after a [`Heap::collect`] that leaves no more than may
    /// live. Else it does so from the first moment on at which that is so. Fewer words give no memory
    /// back by themselves: [`Heap::release`] does, of one space at a call.
    ///
    /// ```
    /// # fn main() -> Result<(), rheap::Error> {
    /// # use rheap::{Error, Heap, Sizes};
    /// let mut heap = Heap::sized(Sizes { words: 100, biggest: 4, ratio: 32, owners: 1, slots: 8 })?;
    /// let root = heap.owner(0)?.slot(0)?;
    /// heap.alloc_raw(root, 40)?;
    /// heap.resize(10_000, 500)?;
    /// assert_eq!(heap.stat().free, 10_000 - 42);
    /// assert_eq!(heap.fields(root)?.len(), 40);
    /// let refused = heap.resize(40, 4).unwrap_err();
    /// assert_eq!(refused, Error::InUse { words: 40, used: 42, holds: 0 });
    /// # Ok(())
    /// # }
    /// ```
    ///
    /// # Errors
    ///
    /// The first of these that holds. The heap is as it was then.
    ///
    /// - [`Error::Grows`] of a heap that [`Heap::growing`] made: it chooses its own words.
    /// - [`Error::NoPace`] if the space would be too small for `biggest`.
    /// - [`Error::BadSizes`] if the words are out of their range.
    /// - [`Error::InUse`] if objects use more words than these, or the log holds more stores than it may
    ///   then.
    /// - [`Error::NoMemory`] if memory is refused: it is asked for only if there are to be more words than
    ///   the heap has, or a longer log.
    pub fn resize(&mut self, words: u32, biggest: u32) -> Result<()> {
        // SAFETY: open and alone, as at `Heap`.
        let status = unsafe { raw::rheap_resize_sized(self.at(), words, biggest) };
        self.resized(status, words, biggest, None)
    }

    /// The same, where no more than `live` words are to be reached from then on whenever a cycle begins:
    /// the pace is chosen as [`Heap::sized_for`] chooses it.
    ///
    /// ```
    /// # fn main() -> Result<(), rheap::Error> {
    /// # use rheap::{Error, Heap, Sizes};
    /// let sizes = Sizes { words: 1000, biggest: 4, ratio: 32, owners: 1, slots: 8 };
    /// let mut heap = Heap::sized_for(sizes, 500)?;
    /// assert!(matches!(heap.resize_for(1000, 950, 4), Err(Error::NoPace { .. })));
    /// heap.resize_for(1200, 950, 4)?;
    /// assert_eq!(heap.sizes().words, 1200);
    /// # Ok(())
    /// # }
    /// ```
    ///
    /// # Errors
    ///
    /// As [`Heap::resize`]. [`Error::NoPace`] also comes if the space would be too small for `live`.
    pub fn resize_for(&mut self, words: u32, live: u32, biggest: u32) -> Result<()> {
        // SAFETY: open and alone, as at `Heap`.
        let status = unsafe { raw::rheap_resize(self.at(), words, live, biggest) };
        self.resized(status, words, biggest, Some(live))
    }

    /// What a resize returns, whose sizes are kept if it was done.
    fn resized(&mut self, status: u8, words: u32, biggest: u32, live: Option<u32>) -> Result<()> {
        let sizes = Sizes {
            words,
            biggest,
            ..self.sizes
        };
        match status {
            raw::DONE => {
                self.sizes = sizes;
                Ok(())
            }
            raw::NO_PACE => Err(Error::NoPace { sizes, live }),
            raw::BAD_SIZES => Err(Error::BadSizes { sizes }),
            raw::NO_MEMORY => Err(Error::NoMemory),
            raw::IN_USE => {
                let stats = self.stat();
                Err(Error::InUse {
                    words,
                    used: stats.used,
                    holds: stats.log,
                })
            }
            raw::GROWS => Err(Error::Grows),
            other => unlisted(other),
        }
    }
}
