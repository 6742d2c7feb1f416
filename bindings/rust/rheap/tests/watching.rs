//! Tickets: an object is told once, when no root reaches it any more.

use rheap::{Error, Heap, Root, Sizes, Ticket, Value, MAX_TICKETS};

const SIZES: Sizes = Sizes {
    words: 1000,
    biggest: 4,
    ratio: 32,
    owners: 3,
    slots: 8,
};

fn heap_and_roots() -> (Heap, [Root; 3]) {
    let heap = Heap::sized(SIZES).expect("the sizes have a pace");
    let of = |owner: u32, slot| heap.owner(owner).and_then(|owner| owner.slot(slot));
    let roots = [of(1, 0), of(1, 1), of(0, 0)].map(|root| root.expect("a root"));
    (heap, roots)
}

fn told(heap: &mut Heap) -> Vec<u64> {
    heap.gone().map(Ticket::number).collect()
}

#[test]
fn refusals_of_a_watch() -> Result<(), Error> {
    let (mut heap, [object, nil, _]) = heap_and_roots();
    heap.alloc(object, 1)?;
    let full = heap.watch(object).unwrap_err();
    assert_eq!(full, Error::WatchesFull);
    assert!(full.is_limit());
    assert_eq!(full.to_string(), "no ticket is free");
    heap.watch_room(1)?;
    assert_eq!(
        heap.watch(nil),
        Err(Error::NotObject {
            root: nil,
            holds: Value::Nil
        })
    );
    let many = heap.watch_room(MAX_TICKETS).unwrap_err();
    assert_eq!(
        many,
        Error::TicketsRange {
            additional: MAX_TICKETS
        }
    );
    assert!(!many.is_limit());
    assert_eq!(
        many.to_string(),
        "65536 more tickets were asked for, and a heap may have 65536"
    );
    heap.watch_room(0)?;
    assert!(heap.watch(object).is_ok());
    assert_eq!(heap.watch(object), Err(Error::WatchesFull));
    let large = Heap::sized(Sizes { slots: 9, ..SIZES })?;
    let absent = large.owner(1)?.slot(8)?;
    assert!(matches!(heap.watch(absent), Err(Error::NoRoot { .. })));
    Ok(())
}

#[test]
fn each_is_told_once() -> Result<(), Error> {
    let (mut heap, [object, other, shared]) = heap_and_roots();
    heap.watch_room(4)?;
    for root in [object, other] {
        heap.alloc(root, 1)?;
    }
    heap.copy(shared, object)?;
    let tickets = [heap.watch(object)?, heap.watch(shared)?, heap.watch(other)?];
    assert_eq!(tickets.map(Ticket::number), [0, 1, 2]);
    heap.drop_root(object)?;
    heap.collect()?;
    assert_eq!(told(&mut heap), []);

    // A ticket that is freed isn't told.
    assert!(heap.unwatch(tickets[2]));
    assert!(!heap.unwatch(tickets[2]));
    assert!(!heap.unwatch(Ticket::new(u64::MAX)));
    heap.drop_root(other)?;
    heap.drop_root(shared)?;
    heap.collect()?;
    // Those that aren't yielded stay.
    assert_eq!(heap.gone().next().map(Ticket::index), Some(0));
    assert!(!heap.unwatch(tickets[1]));
    assert_eq!(told(&mut heap), [1]);
    heap.collect()?;
    assert_eq!(told(&mut heap), []);

    // It is given again.
    heap.alloc(object, 2)?;
    assert_eq!(heap.watch(object)?.to_string(), "0");
    Ok(())
}
