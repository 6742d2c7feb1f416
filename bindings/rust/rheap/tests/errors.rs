//! Each refusal by each call that has it, with its numbers and its line. What comes after 2^62 calls
//! is tested beside the code.

use rheap::{values, Error, Growth, Heap, Operand, Root, Sizes, Value, MAX_INT, MIN_INT};

const SIZES: Sizes = Sizes {
    words: 1000,
    biggest: 4,
    ratio: 32,
    owners: 3,
    slots: 8,
};

fn heap() -> Heap {
    Heap::sized(SIZES).expect("the sizes have a pace")
}

fn root(heap: &Heap, owner: u32, slot: u32) -> Root {
    heap.owner(owner)
        .and_then(|owner| owner.slot(slot))
        .expect("the heap has the root")
}

fn says(error: Error, line: &str) {
    assert_eq!(error.to_string(), line);
    let error: Box<dyn std::error::Error + Send + Sync> = error.into();
    assert!(error.source().is_none());
}

#[test]
fn sizes_without_a_pace() {
    let slow = Sizes { ratio: 3, ..SIZES };
    let refused = Heap::sized(slow).unwrap_err();
    assert_eq!(
        refused,
        Error::NoPace {
            sizes: slow,
            live: None
        }
    );
    assert!(!refused.is_limit());
    says(
        refused,
        "no pace keeps up in 1000 words at ratio 3 with objects of 4 words",
    );
    let refused = Heap::sized_for(SIZES, 1000).unwrap_err();
    assert_eq!(
        refused,
        Error::NoPace {
            sizes: SIZES,
            live: Some(1000)
        }
    );
    says(
        refused,
        "no pace keeps up in 1000 words at ratio 32 with objects of 4 words, of which 1000 live",
    );
    let huge = Sizes {
        words: u32::MAX,
        biggest: u32::MAX,
        ratio: u32::MAX,
        owners: u32::MAX,
        slots: u32::MAX,
    };
    assert!(matches!(Heap::sized(huge), Err(Error::NoPace { .. })));
    assert!(matches!(
        Heap::sized_for(huge, u32::MAX),
        Err(Error::NoPace { .. })
    ));
}

#[test]
fn sizes_out_of_their_ranges() {
    for (sizes, line) in [
        (
            Sizes {
                words: 16_777_217,
                ..SIZES
            },
            "a size is out of its range: words is 16777217, not 8 to 16777216",
        ),
        (
            Sizes { ratio: 65, ..SIZES },
            "a size is out of its range: ratio is 65, not 4 to 64",
        ),
        (
            Sizes {
                owners: 17,
                ..SIZES
            },
            "a size is out of its range: owners is 17, not 1 to 16",
        ),
        (
            Sizes {
                owners: 0,
                slots: 257,
                ..SIZES
            },
            "a size is out of its range: owners is 0, not 1 to 16: slots is 257, not 1 to 256",
        ),
        (
            Sizes { slots: 0, ..SIZES },
            "a size is out of its range: slots is 0, not 1 to 256",
        ),
    ] {
        let refused = Heap::sized(sizes).unwrap_err();
        assert_eq!(refused, Error::BadSizes { sizes });
        assert!(!refused.is_limit());
        says(refused, line);
        assert_eq!(Heap::sized_for(sizes, 100).unwrap_err(), refused);
    }
    let most = Sizes {
        owners: 16,
        slots: 256,
        ratio: 64,
        ..SIZES
    };
    assert!(Heap::sized(most).is_ok());
}

#[test]
fn other_words_that_are_refused() -> Result<(), Error> {
    let mut heap = heap();
    let cell = root(&heap, 1, 0);
    heap.alloc_raw(cell, 60)?;
    let sizes = Sizes {
        biggest: 900,
        ..SIZES
    };
    let refused = heap.resize(1000, 900).unwrap_err();
    assert_eq!(refused, Error::NoPace { sizes, live: None });
    let refused = heap.resize_for(1000, 1000, 4).unwrap_err();
    assert_eq!(
        refused,
        Error::NoPace {
            sizes: SIZES,
            live: Some(1000)
        }
    );
    let refused = heap.resize(u32::MAX, 4).unwrap_err();
    says(
        refused,
        "a size is out of its range: words is 4294967295, not 8 to 16777216",
    );
    let refused = heap.resize_for(61, 0, 4).unwrap_err();
    assert!(!refused.is_limit());
    says(
        refused,
        "61 words are too few: objects use 62, and the log holds 0 stores",
    );
    assert_eq!(heap.sizes(), SIZES);
    assert_eq!(heap.stat().free, 938);
    heap.resize_for(62, 0, 4)?;
    assert_eq!(heap.sizes(), Sizes { words: 62, ..SIZES });

    let mut heap = Heap::growing(Growth {
        biggest: 4,
        ..Growth::up_to(1000)
    })?;
    assert_eq!(heap.resize(2000, 4), Err(Error::Grows));
    assert_eq!(heap.resize_for(0, 0, 0), Err(Error::Grows));
    says(Error::Grows, "the heap grows, and chooses its own words");
    Ok(())
}

#[test]
fn owners_and_slots_that_are_not_there() {
    let heap = heap();
    let refused = heap.owner(3).unwrap_err();
    assert_eq!(
        refused,
        Error::NoOwner {
            owner: 3,
            owners: 3
        }
    );
    says(
        refused,
        "there is no owner 3: the heap has 3, counted from 0",
    );
    assert!(heap.owner(u32::MAX).is_err());
    let refused = heap.owner(2).unwrap().slot(8).unwrap_err();
    assert_eq!(
        refused,
        Error::NoSlot {
            owner: 2,
            slot: 8,
            slots: 8
        }
    );
    says(refused, "owner 2 has no slot 8: it has 8, counted from 0");
    assert!(heap.owner(2).unwrap().slot(u32::MAX).is_err());
}

#[test]
fn roots_of_another_heap() {
    let larger = Heap::sized(Sizes {
        owners: 4,
        slots: 9,
        ..SIZES
    })
    .unwrap();
    let mut heap = heap();
    let mine = root(&heap, 1, 0);
    for foreign in [root(&larger, 1, 8), root(&larger, 3, 0)] {
        let due = Error::NoRoot {
            root: foreign,
            owners: 3,
            slots: 8,
        };
        assert_eq!(heap.alloc(foreign, 1), Err(due));
        assert_eq!(heap.alloc_raw(foreign, 1), Err(due));
        assert_eq!(heap.insist_alloc(foreign, 1), Err(due));
        assert_eq!(heap.insist_alloc_raw(foreign, 1), Err(due));
        assert_eq!(heap.load(mine, foreign, 0), Err(due));
        assert_eq!(heap.load_untold(mine, foreign, 0), Err(due));
        assert_eq!(heap.load(foreign, mine, 0), Err(due));
        assert_eq!(heap.load_untold(foreign, mine, 0), Err(due));
        assert_eq!(heap.store(foreign, 0, Operand::Nil), Err(due));
        assert_eq!(heap.store(foreign, 0, 1), Err(due));
        assert_eq!(heap.store(foreign, 0, mine), Err(due));
        assert_eq!(heap.store(mine, 0, foreign), Err(due));
        assert_eq!(heap.insist_store(foreign, 0, Operand::Nil), Err(due));
        assert_eq!(heap.insist_store(foreign, 0, 1), Err(due));
        assert_eq!(heap.insist_store(mine, 0, foreign), Err(due));
        assert_eq!(heap.store_ints(foreign, 0, &[1]), Err(due));
        assert_eq!(heap.load_ints(foreign, 0, &mut [1]), Err(due));
        assert_eq!(heap.store_text(foreign, 0, b"a"), Err(due));
        assert_eq!(heap.load_text(foreign, 0, &mut [1]), Err(due));
        assert_eq!(heap.copy(mine, foreign), Err(due));
        assert_eq!(heap.copy(foreign, mine), Err(due));
        assert_eq!(heap.drop_root(foreign), Err(due));
        assert_eq!(heap.same(mine, foreign), Err(due));
        assert_eq!(heap.root(foreign), Err(due));
        assert_eq!(heap.fields(foreign).unwrap_err(), due);
        assert_eq!(heap.peek(foreign, 0), Err(due));
    }
    let foreign = root(&larger, 3, 8);
    says(
        heap.alloc(foreign, 1).unwrap_err(),
        "root 3.8 is of another heap: this one has 3 owners with 8 slots",
    );
    // One that this heap has names the slot of the same numbers.
    heap.alloc(root(&larger, 1, 0), 1).unwrap();
    assert_eq!(heap.root(mine), Ok(Value::Object { fields: 1 }));
}

#[test]
fn roots_of_two_owners() {
    let mut heap = heap();
    let (first, second) = (root(&heap, 1, 0), root(&heap, 2, 3));
    let due = Error::NotYours { first, second };
    assert_eq!(heap.load(first, second, 0), Err(due));
    assert_eq!(heap.load_untold(first, second, 0), Err(due));
    assert_eq!(heap.store(first, 0, second), Err(due));
    assert_eq!(heap.insist_store(first, 0, second), Err(due));
    assert_eq!(heap.copy(first, second), Err(due));
    assert_eq!(heap.same(first, second), Err(due));
    says(due, "roots 1.0 and 2.3 belong to two owners");
}

#[test]
fn no_object() {
    let mut heap = heap();
    let (object, holder) = (root(&heap, 1, 0), root(&heap, 1, 1));
    let nil = Error::NotObject {
        root: object,
        holds: Value::Nil,
    };
    assert_eq!(heap.load(holder, object, 0), Err(nil));
    assert_eq!(heap.load_untold(holder, object, 0), Err(nil));
    assert_eq!(heap.store(object, 0, Operand::Nil), Err(nil));
    assert_eq!(heap.store(object, 0, 1), Err(nil));
    assert_eq!(heap.store(object, 0, holder), Err(nil));
    assert_eq!(heap.insist_store(object, 0, 1), Err(nil));
    assert_eq!(heap.fields(object).unwrap_err(), nil);
    assert_eq!(heap.peek(object, 0), Err(nil));
    says(nil, "root 1.0 names no object: it holds nil");
    heap.alloc(holder, 1).unwrap();
    heap.store(holder, 0, -5).unwrap();
    heap.load(object, holder, 0).unwrap();
    let number = Error::NotObject {
        root: object,
        holds: Value::Int(-5),
    };
    assert_eq!(heap.peek(object, 0), Err(number));
    says(number, "root 1.0 names no object: it holds the number -5");
}

#[test]
fn no_field() {
    let mut heap = heap();
    let (object, other) = (root(&heap, 1, 0), root(&heap, 1, 1));
    heap.alloc(object, 2).unwrap();
    let due = Error::NoField {
        root: object,
        field: 2,
        fields: 2,
    };
    assert_eq!(heap.load(other, object, 2), Err(due));
    assert_eq!(heap.load_untold(other, object, 2), Err(due));
    assert_eq!(heap.store(object, 2, Operand::Nil), Err(due));
    assert_eq!(heap.store(object, 2, 1), Err(due));
    assert_eq!(heap.store(object, 2, other), Err(due));
    assert_eq!(heap.insist_store(object, 2, 1), Err(due));
    assert_eq!(heap.peek(object, 2), Err(due));
    says(
        due,
        "the object of root 1.0 has no field 2: it has 2, counted from 0",
    );
    let due = Error::NoField {
        root: object,
        field: u32::MAX,
        fields: 2,
    };
    assert_eq!(heap.peek(object, u32::MAX), Err(due));
}

#[test]
fn a_reference_in_a_raw_object() {
    let mut heap = heap();
    let (raw, object) = (root(&heap, 1, 0), root(&heap, 1, 1));
    heap.alloc_raw(raw, 1).unwrap();
    heap.alloc(object, 3).unwrap();
    let value = Value::Object { fields: 3 };
    let due = Error::RawField {
        root: raw,
        field: 0,
        value,
    };
    assert_eq!(heap.store(raw, 0, object), Err(due));
    assert_eq!(heap.insist_store(raw, 0, object), Err(due));
    says(
        due,
        "the object of root 1.0 is raw, so its field 0 takes no reference",
    );
    // A root that holds a number or nil is none.
    heap.load(object, object, 0).unwrap();
    assert_eq!(heap.store(raw, 0, object), Ok(()));
}

#[test]
fn numbers_and_fields_out_of_their_ranges() {
    let mut heap = heap();
    let object = root(&heap, 0, 0);
    heap.alloc(object, 1).unwrap();
    for number in [MAX_INT + 1, MIN_INT - 1, i64::MAX, i64::MIN] {
        let due = Error::IntRange { number };
        assert_eq!(heap.store(object, 0, number), Err(due));
        assert_eq!(heap.insist_store(object, 0, number), Err(due));
    }
    says(
        Error::IntRange {
            number: MAX_INT + 1,
        },
        "the number 2305843009213693952 isn't from -2^61 to 2^61 - 1",
    );
    for fields in [4096, u32::MAX] {
        let due = Error::FieldsRange { fields };
        assert_eq!(heap.alloc(object, fields), Err(due));
        assert_eq!(heap.alloc_raw(object, fields), Err(due));
        assert_eq!(heap.insist_alloc(object, fields), Err(due));
        assert_eq!(heap.insist_alloc_raw(object, fields), Err(due));
    }
    says(
        Error::FieldsRange { fields: 4096 },
        "an object of 4096 fields was asked for, and may have 4095",
    );
    assert_eq!(heap.stat().used, 3);
    assert_eq!(heap.stat().number, 0);
}

/// More calls of one kind than any of these heaps has words or entries of its log.
const MANY: i64 = 100_000;

/// The refusal of an object with its values is that of the first value that is wrong.
#[test]
fn an_object_with_its_values() -> Result<(), Error> {
    let mut heap = heap();
    let (shared, mine, theirs) = (root(&heap, 0, 0), root(&heap, 1, 0), root(&heap, 2, 0));
    let mut refused =
        |dst, fields, values: &[Operand]| heap.make_of(dst, fields, values).unwrap_err();
    let two = Error::NotYours {
        first: mine,
        second: theirs,
    };
    assert_eq!(refused(mine, 2, &values![1, theirs]), two);
    assert_eq!(refused(shared, 3, &values![shared, mine, theirs]), two);
    let none = Error::NoField {
        root: mine,
        field: 1,
        fields: 1,
    };
    assert_eq!(refused(mine, 1, &values![1, mine]), none);
    let number = MAX_INT + 1;
    assert_eq!(
        refused(mine, 2, &values![1, number]),
        Error::IntRange { number }
    );
    let many = vec![Operand::Nil; 4096];
    let fields = 4096;
    assert_eq!(refused(mine, 1, &many), Error::FieldsRange { fields });
    assert_eq!(refused(mine, fields, &[]), Error::FieldsRange { fields });
    let (need, free) = (1001, 1000);
    assert_eq!(refused(mine, 999, &[]), Error::SpaceFull { need, free });
    assert_eq!(heap.stat().used, 0);

    heap.make(mine, &[])?;
    let reference = Error::RawField {
        root: shared,
        field: 2,
        value: Value::Object { fields: 0 },
    };
    let row = values![7, Operand::Nil, mine];
    assert_eq!(heap.make_raw(shared, &row), Err(reference));
    assert_eq!(heap.insist_make_raw(shared, &row), Err(reference));
    heap.make(shared, &row)?;
    let fields: Vec<Value> = heap.fields(shared)?.collect();
    assert_eq!(
        fields,
        [Value::Int(7), Value::Nil, Value::Object { fields: 0 }]
    );
    heap.insist_make_of(mine, 4, &values![mine, 1])?;
    let fields: Vec<Value> = heap.fields(mine)?.collect();
    assert_eq!(fields[..2], [Value::Object { fields: 0 }, Value::Int(1)]);
    assert_eq!(fields[2..], [Value::Nil, Value::Nil]);
    Ok(())
}

#[test]
fn fields_in_a_row() {
    let mut heap = heap();
    let object = root(&heap, 1, 0);
    let mut numbers = [5; 3];
    let due = Error::NotObject {
        root: object,
        holds: Value::Nil,
    };
    assert_eq!(heap.store_ints(object, 0, &numbers), Err(due));
    assert_eq!(heap.load_ints(object, 0, &mut numbers), Err(due));
    assert_eq!(heap.store_text(object, 0, b"a text"), Err(due));
    assert_eq!(heap.load_text(object, 0, &mut [0; 9]), Err(due));

    heap.alloc_raw(object, 3).unwrap();
    let no_field = |field| Error::NoField {
        root: object,
        field,
        fields: 3,
    };
    let long = vec![0; 28_666];
    for (from, field) in [(1, 3), (3, 3), (4, 4), (u32::MAX, u32::MAX)] {
        let due = no_field(field);
        assert_eq!(heap.store_ints(object, from, &numbers), Err(due));
        assert_eq!(heap.load_ints(object, from, &mut numbers), Err(due));
        assert_eq!(heap.store_text(object, from, &[0; 15]), Err(due));
        assert_eq!(heap.load_text(object, from, &mut [0; 15]), Err(due));
        assert_eq!(heap.store_text(object, from, &long), Err(due));
        assert_eq!(heap.insist_store_text(object, from, &long), Err(due));
        assert_eq!(heap.load_text(object, from, &mut long.clone()), Err(due));
    }
    assert_eq!(numbers, [5; 3]);

    // The first mistake in the order of the fields is the one that is told.
    for number in [MIN_INT - 1, MAX_INT + 1, i64::MIN, i64::MAX] {
        let due = Error::IntRange { number };
        assert_eq!(heap.store_ints(object, 0, &[1, number, i64::MAX]), Err(due));
        assert_eq!(heap.store_ints(object, 1, &[1, number, 2]), Err(due));
        let refused = heap.store_ints(object, 2, &[1, number]);
        assert_eq!(refused, Err(no_field(3)));
    }
    assert_eq!(heap.load_ints(object, 0, &mut numbers), Ok(0));
    assert_eq!(heap.stat().number, 0);
}

/// What refuses the call, which is made until something does.
fn first_refusal(mut call: impl FnMut(i64) -> Result<(), Error>) -> Error {
    (0..MANY)
        .find_map(|number| call(number).err())
        .expect("a limit refuses the call")
}

/// Makes the call until a cycle is on.
fn until_a_cycle(heap: &mut Heap, mut call: impl FnMut(&mut Heap)) {
    for _ in 0..MANY {
        if heap.stat().cycle {
            return;
        }
        call(heap);
    }
    panic!("no cycle begins");
}

/// Allocates until a cycle is on, and stores until its log is full. How many flips there were.
fn fill_log(heap: &mut Heap, list: Root, cell: Root) -> u64 {
    until_a_cycle(heap, |heap| heap.alloc(cell, 2).unwrap());
    let flips = heap.stat().flips;
    first_refusal(|_| heap.store(list, 0, 1));
    assert_eq!(heap.stat().flips, flips);
    flips
}

/// More lives than was said, so that the log and the space fill up.
#[test]
fn a_full_log_and_a_full_space() {
    let sizes = Sizes {
        ratio: 4,
        owners: 1,
        slots: 2,
        ..SIZES
    };
    let mut heap = Heap::sized_for(sizes, 10).unwrap();
    let (list, cell) = (root(&heap, 0, 0), root(&heap, 0, 1));
    until_a_cycle(&mut heap, |heap| {
        heap.alloc(cell, 2).unwrap();
        heap.store(cell, 1, list).unwrap();
        heap.copy(list, cell).unwrap();
    });
    let refused = first_refusal(|number| heap.store(list, 0, number));
    let limit = heap.pace().log_limit;
    let holds = u64::from(limit);
    assert_eq!(refused, Error::LogFull { limit, holds });
    assert!(refused.is_limit());
    says(
        refused,
        &format!("the log has too few places: it holds {limit} of {limit} stores"),
    );
    assert_eq!(heap.store(list, 0, Operand::Nil), Err(refused));
    assert_eq!(heap.store(list, 0, list), Err(refused));
    assert_eq!(heap.store_ints(list, 0, &[1, 2]), Err(refused));
    assert_eq!(heap.store_ints(list, 0, &[]), Ok(()));
    assert_eq!(heap.store_text(list, 0, b"a"), Err(refused));
    assert_eq!(heap.stat().flips, 0);
    heap.insist_store(list, 0, 1).unwrap();
    assert_eq!(heap.stat().flips, 1);
    for operand in [Operand::Nil, Operand::Root(list)] {
        let flips = fill_log(&mut heap, list, cell);
        heap.insist_store(list, 0, operand).unwrap();
        assert_eq!(heap.stat().flips, flips + 1);
    }
    // A collection makes room for a row.
    fill_log(&mut heap, list, cell);
    heap.collect().unwrap();
    heap.store_ints(list, 0, &[1]).unwrap();
    heap.store(list, 0, Operand::Nil).unwrap();
    // One that insists on a row makes it.
    let flips = fill_log(&mut heap, list, cell);
    heap.insist_store_ints(list, 0, &[1]).unwrap();
    assert_eq!(heap.stat().flips, flips + 1);
    let flips = fill_log(&mut heap, list, cell);
    heap.insist_store_text(list, 0, b"a").unwrap();
    assert_eq!(heap.stat().flips, flips + 1);
    heap.store(list, 0, Operand::Nil).unwrap();

    let refused = first_refusal(|_| {
        heap.insist_alloc(cell, 2)?;
        heap.insist_store(cell, 1, list).unwrap();
        heap.copy(list, cell)
    });
    let free = heap.stat().free;
    assert!(free < 4);
    assert_eq!(refused, Error::SpaceFull { need: 4, free });
    let room = heap.room(2);
    assert_eq!((room.need, room.free), (4, free));
    assert!(refused.is_limit());
    says(
        refused,
        &format!("the object needs 4 words, and {free} are free"),
    );
    assert_eq!(heap.alloc(cell, 2), Err(refused));
    assert_eq!(heap.alloc_raw(cell, 2), Err(refused));
    assert_eq!(heap.insist_alloc_raw(cell, 2), Err(refused));
    let large = heap.alloc(cell, 4095).unwrap_err();
    assert_eq!(large, Error::SpaceFull { need: 4097, free });

    heap.drop_root(list).unwrap();
    heap.drop_root(cell).unwrap();
    heap.insist_alloc(cell, 2).unwrap();
}
