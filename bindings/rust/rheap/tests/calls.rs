//! Each call, where it is done.

use rheap::{text_fields, Did, Heap, Operand, Root, Sizes, Value, MAX_INT, MIN_INT};

type Done = Result<(), rheap::Error>;

const SIZES: Sizes = Sizes {
    words: 30_000,
    biggest: 4097,
    ratio: 32,
    owners: 3,
    slots: 8,
};

fn heap() -> Heap {
    Heap::sized(SIZES).expect("the sizes have a pace")
}

fn root(heap: &Heap, owner: u32, slot: u32) -> Root {
    heap.owner(owner)
        .and_then(|owner| owner.slot(slot))
        .expect("the heap has the root")
}

#[test]
fn a_new_heap_has_nothing() -> Done {
    let heap = heap();
    assert_eq!(heap.sizes(), SIZES);
    let stat = heap.stat();
    assert_eq!((stat.used, stat.free, stat.epoch), (0, 30_000, 1));
    assert_eq!((stat.number, stat.log, stat.flips), (0, 0, 0));
    assert!(!stat.cycle);
    assert_eq!(heap.last_did(), Did::default());
    assert_eq!(heap.owners().len(), 3);
    for (number, owner) in heap.owners().enumerate() {
        assert_eq!(owner.number() as usize, number);
        assert_eq!(owner, heap.owner(number as u32)?);
        assert_eq!(owner.slots().len(), 8);
        for root in owner.slots() {
            assert_eq!(heap.root(root)?, Value::Nil);
            assert_eq!(root, owner.slot(root.slot())?);
            assert_eq!(root.owner(), owner.number());
            assert_eq!(root.is_shared(), owner.number() == 0);
        }
    }
    assert!(format!("{heap:?}").starts_with("Heap { sizes: Sizes { words: 30000,"));
    Ok(())
}

#[test]
fn sizes_with_what_lives() -> Done {
    let heap = Heap::sized_for(
        Sizes {
            words: 1000,
            biggest: 4,
            ratio: 32,
            owners: 1,
            slots: 2,
        },
        100,
    )?;
    let pace = heap.pace();
    // lag = (3 * 100 + 5) / 29 rounded up, mark = lag + 2 * 4, log limit = lag + 2
    assert_eq!((pace.mark, pace.store_units, pace.log_limit), (19, 32, 13));
    Ok(())
}

#[test]
fn objects_and_fields() -> Done {
    let mut heap = heap();
    let (mine, other, taken) = (root(&heap, 1, 0), root(&heap, 1, 1), root(&heap, 1, 2));

    heap.alloc(mine, 3)?;
    heap.alloc_raw(other, 4095)?;
    assert_eq!(heap.root(mine)?, Value::Object { fields: 3 });
    assert_eq!(heap.root(other)?, Value::Raw { fields: 4095 });
    assert_eq!(heap.stat().used, 5 + 4097);

    heap.store(mine, 0, MIN_INT)?;
    heap.store(mine, 1, mine)?;
    heap.store(mine, 2, other)?;
    heap.store(other, 4094, MAX_INT)?;
    assert_eq!(heap.peek(mine, 0)?, Value::Int(MIN_INT));
    assert_eq!(heap.peek(mine, 1)?, Value::Object { fields: 3 });
    assert_eq!(heap.peek(mine, 2)?, Value::Raw { fields: 4095 });
    assert_eq!(heap.peek(other, 4094)?, Value::Int(MAX_INT));
    assert_eq!(heap.peek(other, 0)?, Value::Nil);
    assert_eq!(heap.stat().number, 4);

    assert_eq!(heap.load(taken, mine, 1)?, Value::Object { fields: 3 });
    assert!(heap.same(taken, mine)?);
    assert!(!heap.same(taken, other)?);
    assert_eq!(heap.load(taken, mine, 0)?, Value::Int(MIN_INT));
    assert_eq!(heap.root(taken)?, Value::Int(MIN_INT));
    heap.store(mine, 0, Operand::Nil)?;
    assert_eq!(heap.peek(mine, 0)?, Value::Nil);
    assert_eq!(heap.root(taken)?, Value::Int(MIN_INT));
    heap.store(mine, 0, taken)?;
    assert_eq!(heap.peek(mine, 0)?, Value::Int(MIN_INT));
    heap.store(mine, 0, 7_i64)?;
    heap.store(mine, 1, 8_u32)?;
    heap.store(mine, 2, Operand::Int(9))?;
    assert!(heap.fields(mine)?.eq([7, 8, 9].map(Value::Int)));
    Ok(())
}

#[test]
fn fields_from_both_ends() -> Done {
    let mut heap = heap();
    let object = root(&heap, 0, 0);
    heap.alloc(object, 0)?;
    assert_eq!(heap.fields(object)?.next(), None);
    assert_eq!(heap.fields(object)?.next_back(), None);
    heap.alloc(object, 6)?;
    for field in 0..6 {
        heap.store(object, field, field)?;
    }
    let mut fields = heap.fields(object)?;
    assert_eq!(fields.len(), 6);
    assert_eq!(fields.next(), Some(Value::Int(0)));
    assert_eq!(fields.next_back(), Some(Value::Int(5)));
    assert_eq!(fields.len(), 4);
    let again = fields.clone();
    assert_eq!(fields.nth(1), Some(Value::Int(2)));
    assert_eq!(fields.nth(usize::MAX), None);
    assert_eq!(
        (fields.len(), fields.next(), fields.next_back()),
        (0, None, None)
    );
    assert!(again.rev().eq([4, 3, 2, 1].map(Value::Int)));
    Ok(())
}

#[test]
fn numbers_in_a_row() -> Done {
    let mut heap = heap();
    let (object, raw) = (root(&heap, 1, 0), root(&heap, 1, 1));
    heap.alloc(object, 6)?;
    heap.alloc_raw(raw, 4095)?;
    heap.store_ints(object, 1, &[MIN_INT, -1, 0, MAX_INT])?;
    assert_eq!(heap.stat().number, 4);
    let due = [MIN_INT, -1, 0, MAX_INT].map(Value::Int);
    assert!(heap.fields(object)?.skip(1).take(4).eq(due));
    assert_eq!(heap.peek(object, 0)?, Value::Nil);
    assert_eq!(heap.peek(object, 5)?, Value::Nil);

    // Field 5 is nil, and then a reference.
    let mut numbers = [9; 5];
    assert_eq!(heap.load_ints(object, 1, &mut numbers)?, 4);
    assert_eq!(numbers, [MIN_INT, -1, 0, MAX_INT, 9]);
    heap.store(object, 5, raw)?;
    let mut numbers = [9; 3];
    assert_eq!(heap.load_ints(object, 3, &mut numbers)?, 2);
    assert_eq!(numbers, [0, MAX_INT, 9]);
    assert_eq!(heap.load_ints(object, 0, &mut numbers)?, 0);

    // No numbers ask for nothing.
    heap.store_ints(root(&heap, 2, 0), 7, &[])?;
    assert_eq!(heap.load_ints(root(&heap, 2, 0), u32::MAX, &mut [])?, 0);

    let all: Vec<i64> = (-2000..2095).collect();
    heap.store_ints(raw, 0, &all)?;
    let mut read = vec![0; 4095];
    assert_eq!(heap.load_ints(raw, 0, &mut read)?, 4095);
    assert_eq!(read, all);
    Ok(())
}

#[test]
fn texts_of_each_length() -> Done {
    let mut heap = heap();
    let raw = root(&heap, 1, 0);
    heap.alloc_raw(raw, 4095)?;
    let bytes: Vec<u8> = (0..28_665_usize).map(|at| (at * 31 % 251) as u8).collect();
    for length in (0..100).chain([1000, 28_664, 28_665]) {
        heap.store_text(raw, 0, &bytes[..length])?;
        let mut text = vec![0xee; length];
        assert_eq!(heap.load_text(raw, 0, &mut text)?, length);
        assert_eq!(text, bytes[..length]);
        for (field, chunk) in (0..).zip(bytes[..length].chunks(7)) {
            let due = chunk
                .iter()
                .rev()
                .fold(0, |number, byte| number << 8 | i64::from(*byte));
            assert_eq!(heap.peek(raw, field)?, Value::Int(due));
        }
        assert_eq!(text_fields(length) as usize, length.div_ceil(7));
    }
    // What is no number ends the text; of a number that no text has, 56 bits are read.
    heap.store(raw, 3, Operand::Nil)?;
    heap.store(raw, 1, -1)?;
    let mut text = [0xee; 30];
    assert_eq!(heap.load_text(raw, 1, &mut text)?, 14);
    assert_eq!(text[..7], [0xff; 7]);
    assert_eq!(text[7..14], bytes[14..21]);
    assert_eq!(text[14..], [0xee; 16]);
    Ok(())
}

#[test]
fn roots_go_between_owners_through_owner_0() -> Done {
    let mut heap = heap();
    let (shared, mine, theirs) = (root(&heap, 0, 7), root(&heap, 1, 0), root(&heap, 2, 3));
    heap.alloc(mine, 1)?;
    heap.store(mine, 0, 5)?;
    heap.copy(shared, mine)?;
    heap.copy(theirs, shared)?;
    heap.drop_root(mine)?;
    assert_eq!(heap.root(mine)?, Value::Nil);
    assert!(heap.same(theirs, shared)?);
    assert_eq!(heap.peek(theirs, 0)?, Value::Int(5));
    heap.store(shared, 0, theirs)?;
    assert_eq!(heap.load(theirs, shared, 0)?, Value::Object { fields: 1 });
    heap.drop_root(shared)?;
    heap.drop_root(theirs)?;
    heap.collect()?;
    assert_eq!(heap.stat().used, 0);
    Ok(())
}

#[test]
fn insisting() -> Done {
    let mut heap = heap();
    let (mine, other) = (root(&heap, 1, 0), root(&heap, 1, 1));
    heap.insist_alloc(mine, 3)?;
    heap.insist_alloc_raw(other, 2)?;
    assert_eq!(heap.root(other)?, Value::Raw { fields: 2 });
    heap.insist_store(mine, 0, 7)?;
    heap.insist_store(mine, 1, other)?;
    heap.insist_store(mine, 2, 8)?;
    heap.insist_store(mine, 2, Operand::Nil)?;
    let due = [Value::Int(7), Value::Raw { fields: 2 }, Value::Nil];
    assert!(heap.fields(mine)?.eq(due));
    heap.insist_store_ints(mine, 1, &[2, 3])?;
    assert!(heap.fields(mine)?.eq([7, 2, 3].map(Value::Int)));
    // The third of these finds no room by itself: each is bigger than the heap was told.
    let mut small = Heap::sized(Sizes {
        words: 100,
        biggest: 4,
        ratio: 32,
        owners: 1,
        slots: 1,
    })?;
    let large = root(&small, 0, 0);
    for _ in 0..10 {
        small.insist_alloc_raw(large, 40)?;
    }
    // The space has room for seven of these.
    for number in 0..100 {
        heap.insist_alloc_raw(other, 4095)?;
        heap.insist_store(other, 4094, number)?;
    }
    assert_eq!(heap.peek(other, 4094)?, Value::Int(99));
    assert!(heap.stat().flips > 0);
    assert_eq!(heap.peek(mine, 0)?, Value::Int(7));
    Ok(())
}

#[test]
fn collecting() -> Done {
    let mut heap = heap();
    let object = root(&heap, 0, 0);
    heap.alloc(object, 2)?;
    heap.alloc(object, 2)?;
    assert_eq!(heap.stat().used, 8);
    heap.collect()?;
    let did = heap.last_did();
    assert!(did.began && did.flipped);
    assert_eq!((did.shaded, did.live_words), (1, 4));
    let stat = heap.stat();
    assert_eq!((stat.used, stat.flips, stat.epoch), (4, 1, 2));
    heap.increment();
    let did = heap.last_did();
    assert!(!did.began && !did.flipped);
    assert_eq!(did.live_words, 0);
    // A cycle that began by itself, and ends on demand.
    for _ in 0..10_000 {
        if heap.stat().cycle {
            break;
        }
        heap.alloc(object, 10)?;
    }
    let did = heap.last_did();
    assert!(did.began && !did.flipped);
    heap.collect()?;
    let did = heap.last_did();
    assert!(!did.began && did.flipped);
    assert_eq!(heap.stat().flips, 2);
    Ok(())
}

/// A cell has a number and the rest of the list, of which ten cells live at the end.
#[test]
fn a_list_outlives_100_000_allocations() -> Done {
    let mut heap = Heap::sized(Sizes {
        words: 4096,
        biggest: 4,
        ratio: 32,
        owners: 2,
        slots: 3,
    })?;
    let (list, cell, kept) = (root(&heap, 1, 0), root(&heap, 1, 1), root(&heap, 1, 2));
    heap.alloc(kept, 1)?;
    heap.store(kept, 0, 42)?;
    for number in 0..100_000 {
        if number % 500 == 490 {
            heap.drop_root(list)?;
        }
        heap.alloc(cell, 2)?;
        heap.store(cell, 0, number)?;
        heap.store(cell, 1, list)?;
        heap.copy(list, cell)?;
    }
    assert!(heap.stat().flips > 50, "{:?}", heap.stat());
    assert_eq!(heap.peek(kept, 0)?, Value::Int(42));
    for number in (99_990..100_000).rev() {
        assert_eq!(heap.peek(list, 0)?, Value::Int(number));
        heap.load(list, list, 1)?;
    }
    assert_eq!(heap.root(list)?, Value::Nil);
    Ok(())
}

#[test]
fn a_heap_may_be_moved() -> Done {
    let mut heaps = Vec::new();
    for number in 0..100 {
        let mut heap = heap();
        let object = root(&heap, 0, 0);
        heap.alloc(object, 1)?;
        heap.store(object, 0, number)?;
        heaps.push(heap);
    }
    heaps.reverse();
    let mut boxed: Vec<Box<Heap>> = heaps.into_iter().map(Box::new).collect();
    for (at, heap) in boxed.iter_mut().enumerate() {
        let object = root(heap, 0, 0);
        heap.collect()?;
        assert_eq!(heap.peek(object, 0)?, Value::Int(99 - at as i64));
    }
    let mut first = boxed.remove(0);
    let mut second = boxed.remove(0);
    std::mem::swap(&mut *first, &mut *second);
    let object = root(&first, 0, 0);
    assert_eq!(first.peek(object, 0)?, Value::Int(98));
    assert_eq!(second.peek(object, 0)?, Value::Int(99));
    Ok(())
}
