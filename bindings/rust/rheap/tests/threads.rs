//! A heap goes to another thread, and is shared under a lock.

use rheap::{Heap, Sizes, Value};
use std::sync::{Arc, Mutex};
use std::thread;

const SIZES: Sizes = Sizes {
    words: 4096,
    biggest: 4,
    ratio: 32,
    owners: 5,
    slots: 2,
};

#[test]
fn a_heap_goes_to_a_thread_and_back() -> Result<(), rheap::Error> {
    let mut heap = Heap::sized(SIZES)?;
    let root = heap.owner(1)?.slot(0)?;
    heap.alloc(root, 1)?;
    heap.store(root, 0, 1)?;
    let went = thread::spawn(move || {
        heap.collect()?;
        heap.store(root, 0, 2)?;
        Ok::<_, rheap::Error>(heap)
    });
    let heap = went.join().expect("the thread ends")?;
    assert_eq!(heap.peek(root, 0)?, Value::Int(2));
    // It may be dropped on a thread that didn't make it.
    thread::spawn(move || drop(heap))
        .join()
        .expect("the thread ends");
    Ok(())
}

#[test]
fn four_threads_have_owners_of_their_own() -> Result<(), rheap::Error> {
    const ROUNDS: i64 = 5000;
    let heap = Heap::sized(SIZES)?;
    let owners: Vec<_> = heap.owners().skip(1).collect();
    let shared = heap.owner(0)?.slot(0)?;
    let heap = Arc::new(Mutex::new(heap));
    let threads: Vec<_> = owners
        .into_iter()
        .map(|owner| {
            let heap = Arc::clone(&heap);
            thread::spawn(move || {
                let (list, cell) = (owner.slot(0)?, owner.slot(1)?);
                for round in 0..ROUNDS {
                    let mut heap = heap.lock().expect("no thread panics");
                    if round % 20 == 0 {
                        heap.drop_root(list)?;
                    }
                    heap.alloc(cell, 2)?;
                    heap.store(cell, 0, i64::from(owner.number()) * ROUNDS + round)?;
                    heap.store(cell, 1, list)?;
                    heap.copy(list, cell)?;
                    heap.copy(shared, cell)?;
                }
                let mut heap = heap.lock().expect("no thread panics");
                for round in (ROUNDS - 20..ROUNDS).rev() {
                    let due = i64::from(owner.number()) * ROUNDS + round;
                    assert_eq!(heap.peek(list, 0)?, Value::Int(due));
                    heap.load(list, list, 1)?;
                }
                assert_eq!(heap.root(list)?, Value::Nil);
                Ok::<_, rheap::Error>(())
            })
        })
        .collect();
    for one in threads {
        one.join().expect("the thread ends")?;
    }
    let heap = heap.lock().expect("no thread panics");
    assert!(heap.stat().flips > 0);
    assert!(matches!(heap.peek(shared, 0)?, Value::Int(_)));
    Ok(())
}
