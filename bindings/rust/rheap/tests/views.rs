//! What a heap looks like: its dump, its picture and its cycles; and memory that it gives back.

use rheap::{run, values, CycleReader, EndedCycle, Error, Heap, Sizes, Stats};

fn heap() -> Heap {
    Heap::sized(Sizes {
        words: 1000,
        biggest: 4,
        ratio: 32,
        owners: 2,
        slots: 8,
    })
    .expect("the sizes have a pace")
}

#[test]
fn a_dump_is_what_a_run_answers() -> Result<(), Error> {
    let mut heap = heap();
    let owner = heap.owner(1)?;
    let (list, cell) = (owner.slot(0)?, owner.slot(1)?);
    let mut trace = String::from("heap 1000 1 64 2 8\n");
    for n in 0..60 {
        heap.alloc(cell, 2)?;
        heap.store(cell, 0, n)?;
        heap.store(cell, 1, list)?;
        heap.copy(list, cell)?;
        trace += &format!("1 alloc 1.1 2\n1 store 1.1 0 {n}\n1 store 1.1 1 1.0\n1 copy 1.0 1.1\n");
    }
    let answers = run((trace + "dump\n").as_bytes()).expect("the trace has no fault");
    let answers = String::from_utf8(answers).expect("it is ASCII");
    let dump = heap.dump()?;
    assert!(dump.len() > 512);
    assert!(answers.contains(&dump), "{answers}\n{dump}");
    heap.collect()?;
    assert_eq!(heap.dump()?, dump);
    heap.store(list, 0, 7)?;
    assert_ne!(heap.dump()?, dump);
    Ok(())
}

#[test]
fn a_picture_is_whole_and_changes_with_the_heap() -> Result<(), Error> {
    let mut heap = heap();
    let root = heap.owner(1)?.slot(0)?;
    let empty = heap.draw()?;
    heap.make(root, &values![4711])?;
    let drawn = heap.draw()?;
    assert!(empty.ends_with("</svg>\n") && drawn.ends_with("</svg>\n"));
    assert!(drawn.contains("4711") && !empty.contains("4711"));
    assert_eq!(heap.draw()?, drawn);
    Ok(())
}

#[test]
fn each_cycle_is_told_once() -> Result<(), Error> {
    let mut heap = heap();
    let root = heap.owner(1)?.slot(0)?;
    let mut reader = CycleReader::new();
    assert_eq!(heap.cycle(&mut reader), None);
    let mut told = 0;
    for n in 0..2000 {
        heap.alloc(root, 2)?;
        let flips = heap.stat().flips;
        if let Some(cycle) = heap.cycle(&mut reader) {
            told += 1;
            assert_eq!((cycle.number, cycle.ended), (told, n + 1));
            assert_eq!(cycle.live, u64::from(heap.last_did().live_words));
            assert!(cycle.flipped && cycle.freed > 0 && cycle.words == 1000);
        }
        assert_eq!(told, flips);
    }
    assert!(told > 1);
    Ok(())
}

/// The heap's own numbers after the reading at which a cycle began, which reading that was, and the
/// most units that were spent in it from one reading to the next.
struct Begun {
    reading: u64,
    stat: Stats,
    most: u64,
}

/// Compares the numbers of a cycle with the heap's own: when it began, before the last call, and now.
fn compare(cycle: &EndedCycle, begun: &Begun, last: &Stats, now: &Stats) {
    assert_eq!((cycle.epoch, cycle.began), (begun.stat.epoch, begun.reading));
    assert_eq!((cycle.used, cycle.live), (begun.stat.used, now.used));
    // Each word that was allocated in the cycle granted 32 units.
    let allocated = (now.granted - last.granted) / 32;
    assert_eq!(cycle.freed, last.used + allocated - now.used);
    assert_eq!((cycle.granted, cycle.idle), (now.granted, now.idle));
    assert_eq!(cycle.spent, now.spent);
    assert_eq!(cycle.most, begun.most.max(now.spent - last.spent));
    assert_eq!(cycle.logged, now.number - begun.stat.number);
    assert_eq!(cycle.words, now.used + now.free);
}

#[test]
fn a_cycle_has_the_numbers_that_the_heap_has() -> Result<(), Error> {
    let mut heap = heap();
    let owner = heap.owner(1)?;
    let (list, root) = (owner.slot(0)?, owner.slot(1)?);
    for n in 0..60 {
        heap.make(list, &values![n, list])?;
    }
    // So the epoch of a cycle isn't its number.
    heap.collect()?;
    let mut reader = CycleReader::new();
    assert_eq!(heap.cycle(&mut reader), None);
    let (mut last, mut begun, mut told) = (heap.stat(), None::<Begun>, 0);
    for reading in 1..=3000 {
        if reading % 3 == 0 {
            heap.store(list, 0, 7)?;
        } else {
            heap.alloc(root, 2)?;
        }
        let (now, cycle) = (heap.stat(), heap.cycle(&mut reader));
        if let Some(cycle) = cycle {
            told += 1;
            assert_eq!((cycle.number, cycle.ended), (told, reading));
            let begun = begun.take().expect("it took several calls");
            compare(&cycle, &begun, &last, &now);
            // The list is kept, and at most the object of each allocation in the cycle.
            assert!((60..100).contains(&cycle.objects));
            assert!(cycle.idle > 0 && cycle.logged > 0 && cycle.most < cycle.spent);
        } else if let Some(begun) = &mut begun {
            begun.most = begun.most.max(now.spent - last.spent);
        } else if now.cycle {
            begun = Some(Begun {
                reading,
                stat: now,
                most: now.spent,
            });
        }
        last = now;
    }
    assert!(told > 1);
    Ok(())
}

#[test]
fn memory_is_given_back_outside_a_cycle() -> Result<(), Error> {
    let mut heap = heap();
    let root = heap.owner(1)?.slot(0)?;
    heap.make(root, &values![1, root])?;
    let (stats, dump) = (heap.stat(), heap.dump()?);
    heap.release()?;
    assert_eq!((heap.stat(), heap.dump()?), (stats, dump));
    while !heap.stat().cycle {
        heap.alloc(root, 2)?;
    }
    let stats = heap.stat();
    let refused = heap.release().unwrap_err();
    assert_eq!(refused, Error::CycleOn);
    assert_eq!(refused.to_string(), "a cycle is on");
    assert!(!refused.is_limit());
    assert_eq!(heap.stat(), stats);
    heap.collect()?;
    heap.release()
}
