//! Heaps that are given other words.

use rheap::{Error, Heap, Sizes, Value};

/// The sizes of the heaps here.
const SIZES: Sizes = Sizes {
    words: 1000,
    biggest: 4,
    ratio: 32,
    owners: 2,
    slots: 8,
};

/// The pace is that of a heap that is made of these sizes.
#[test]
fn the_pace_is_that_of_the_new_sizes() -> Result<(), Error> {
    let mut heap = Heap::sized(SIZES)?;
    for (words, biggest, live) in [(3000, 9, 2000), (200, 3, 20), (100_000, 40, 0)] {
        let sizes = Sizes {
            words,
            biggest,
            ..SIZES
        };
        heap.resize(words, biggest)?;
        assert_eq!(heap.pace(), Heap::sized(sizes)?.pace());
        assert_eq!(heap.sizes(), sizes);
        heap.resize_for(words, live, biggest)?;
        assert_eq!(heap.pace(), Heap::sized_for(sizes, live)?.pace());
        assert_eq!(heap.stat().free, u64::from(words));
    }
    Ok(())
}

/// A list that grows in a heap that is given more words where it finds no room, and fewer after the
/// list is gone: each number is still there, and what the roots reach has the same dump.
#[test]
fn a_heap_is_given_words_where_it_has_no_room() -> Result<(), Error> {
    let mut heap = Heap::sized(SIZES)?;
    let owner = heap.owner(1)?;
    let (list, cell) = (owner.slot(0)?, owner.slot(1)?);
    let mut resized = 0;
    for n in 0..2000 {
        match heap.insist_alloc(cell, 2) {
            Err(Error::SpaceFull { .. }) => {
                let dump = heap.dump()?;
                heap.resize(2 * heap.sizes().words, 4)?;
                assert_eq!(heap.dump()?, dump);
                heap.alloc(cell, 2)?;
                resized += 1;
            }
            other => other?,
        }
        heap.insist_store(cell, 0, n)?;
        heap.insist_store(cell, 1, list)?;
        heap.copy(list, cell)?;
    }
    assert_eq!(resized, 3);
    for n in (0..2000).rev() {
        assert_eq!(heap.peek(list, 0)?, Value::Int(n));
        heap.load(list, list, 1)?;
    }
    heap.drop_root(cell)?;
    heap.collect()?;
    heap.collect()?;
    heap.resize(100, 4)?;
    heap.release()?;
    assert_eq!(heap.stat().free, 100);
    Ok(())
}
