//! Roots in a row and paths: what is done up to the first refusal, and which that is.

use rheap::{values, Error, Heap, Operand, Owner, Root, RowError, Sizes, Value};

const SIZES: Sizes = Sizes {
    words: 1000,
    biggest: 8,
    ratio: 32,
    owners: 3,
    slots: 8,
};

fn heap_and_owner() -> (Heap, Owner) {
    let heap = Heap::sized(SIZES).expect("the sizes have a pace");
    let owner = heap.owner(1).expect("an owner");
    (heap, owner)
}

fn slot(owner: Owner, slot: u32) -> Root {
    owner.slot(slot).expect("a slot")
}

/// The refusal of a call on roots in a row, of which so many commands were done.
fn refused<T: std::fmt::Debug>(answer: Result<T, RowError>, done: usize) -> Result<(), Error> {
    let refused = answer.expect_err("it is refused");
    assert_eq!(refused.done, done);
    let source = std::error::Error::source(&refused).expect("each has one");
    assert_eq!(source.to_string(), refused.error.to_string());
    Err(refused.into())
}

#[test]
fn a_frame_goes_and_comes() -> Result<(), Error> {
    let (mut heap, owner) = heap_and_owner();
    let (frame, row, again) = (slot(owner, 0), slot(owner, 1), slot(owner, 4));
    heap.alloc(frame, 4)?;
    for n in 0..3 {
        heap.alloc(slot(owner, 1 + n), n + 1)?;
    }
    heap.store_roots(frame, 0, row, 3)?;
    heap.store(frame, 3, 44)?;
    let mut values = [Value::Nil; 4];
    heap.load_roots(again, frame, 0, &mut values)?;
    assert_eq!(values[3], Value::Int(44));
    for n in 0..3 {
        assert_eq!(values[n as usize], Value::Object { fields: n + 1 });
        assert!(heap.same(slot(owner, 1 + n), slot(owner, 4 + n))?);
    }
    heap.insist_store_roots(frame, 0, again, 4)?;
    heap.drop_roots(row, 7)?;
    assert!(heap.root(again)?.is_nil());
    heap.load_roots(again, frame, 0, &mut [])?;
    Ok(())
}

#[test]
fn up_to_the_first_refusal() -> Result<(), Error> {
    let (mut heap, owner) = heap_and_owner();
    let (frame, row) = (slot(owner, 0), slot(owner, 6));
    heap.alloc(frame, 3)?;
    heap.store(frame, 0, 5)?;
    heap.store(frame, 1, 6)?;
    let no_slot = Error::NoRoot {
        root: Heap::sized(Sizes { slots: 9, ..SIZES })?
            .owner(1)?
            .slot(8)?,
        owners: 3,
        slots: 8,
    };
    let mut values = [Value::Nil; 3];
    let answer = heap.load_roots(row, frame, 0, &mut values);
    assert_eq!(refused(answer, 2), Err(no_slot));
    assert_eq!(values, [Value::Int(5), Value::Int(6), Value::Nil]);
    let mut many = [Value::Nil; 300];
    let answer = heap.load_roots(row, frame, 0, &mut many);
    assert_eq!(refused(answer, 2), Err(no_slot));
    assert_eq!(heap.root(slot(owner, 7))?, Value::Int(6));
    let no_field = Error::NoField {
        root: frame,
        field: 3,
        fields: 3,
    };
    let answer = heap.load_roots(row, frame, 2, &mut values);
    assert_eq!(refused(answer, 1), Err(no_field));
    let answer = heap.store_roots(frame, 1, slot(owner, 1), 3);
    assert_eq!(refused(answer, 2), Err(no_field));
    let answer = heap.insist_store_roots(frame, 1, row, 3);
    assert_eq!(refused(answer, 2), Err(no_slot));
    assert_eq!(refused(heap.drop_roots(row, 3), 2), Err(no_slot));
    let theirs = heap.owner(2)?.slot(0)?;
    assert_eq!(
        refused(heap.store_roots(frame, 0, theirs, 1), 0),
        Err(Error::NotYours {
            first: frame,
            second: theirs
        })
    );
    Ok(())
}

#[test]
fn a_path_comes_as_far_as_it_can() -> Result<(), Error> {
    let (mut heap, owner) = heap_and_owner();
    let (list, cell, dst) = (slot(owner, 0), slot(owner, 1), slot(owner, 2));
    for number in 1..=3 {
        heap.alloc(cell, 2)?;
        heap.store(cell, 0, number)?;
        heap.store(cell, 1, list)?;
        heap.copy(list, cell)?;
    }
    assert_eq!(heap.load_path(dst, list, &[1, 0])?, Value::Int(2));
    assert_eq!(heap.load_path(dst, list, &[])?, Value::Nil);
    assert_eq!(heap.root(dst)?, Value::Int(2));
    assert_eq!(
        refused(heap.load_path(dst, list, &[1, 2]), 1),
        Err(Error::NoField {
            root: dst,
            field: 2,
            fields: 2
        })
    );
    assert_eq!(
        refused(heap.load_path(dst, list, &[1, 1, 1, 1, 0]), 3),
        Err(Error::NotObject {
            root: dst,
            holds: Value::Nil
        })
    );
    assert_eq!(
        refused(heap.load_path(dst, list, &[9]), 0),
        Err(Error::NoField {
            root: list,
            field: 9,
            fields: 2
        })
    );
    Ok(())
}

#[test]
fn values_go_in_a_row() -> Result<(), Error> {
    let (mut heap, owner) = heap_and_owner();
    let (frame, list, again) = (slot(owner, 0), slot(owner, 1), slot(owner, 2));
    heap.alloc(frame, 4)?;
    heap.alloc(list, 2)?;
    heap.store_row(frame, 0, &values![7, Operand::Nil, list, -5])?;
    let fields: Vec<Value> = heap.fields(frame)?.collect();
    assert_eq!(
        fields,
        [Value::Int(7), Value::Nil, Value::Object { fields: 2 }, Value::Int(-5)]
    );
    heap.load_roots_untold(again, frame, 0, 4)?;
    assert_eq!(heap.root(slot(owner, 5))?, Value::Int(-5));
    heap.insist_store_row(frame, 3, &values![again])?;
    assert_eq!(heap.peek(frame, 3)?, Value::Int(7));
    heap.store_row(frame, 9, &[])?;
    Ok(())
}

#[test]
fn values_go_up_to_the_first_refusal() -> Result<(), Error> {
    let (mut heap, owner) = heap_and_owner();
    let (frame, raw) = (slot(owner, 0), slot(owner, 1));
    heap.alloc(frame, 6)?;
    heap.alloc_raw(raw, 2)?;
    let no_field = Error::NoField {
        root: frame,
        field: 6,
        fields: 6,
    };
    // More values than go at once, of which the first six have a field.
    let refused = heap.insist_store_row(frame, 0, &vec![Operand::Int(3); 40]);
    assert_eq!(refused.map_err(|row| (row.done, row.error)), Err((6, no_field)));
    assert_eq!(heap.peek(frame, 5)?, Value::Int(3));
    let refused = heap.store_row(raw, 0, &values![1, frame]);
    let raw_field = Error::RawField {
        root: raw,
        field: 1,
        value: Value::Object { fields: 6 },
    };
    assert_eq!(refused.map_err(|row| (row.done, row.error)), Err((1, raw_field)));
    assert_eq!(heap.peek(raw, 0)?, Value::Int(1));
    let refused = heap.load_roots_untold(slot(owner, 2), frame, 5, 2);
    assert_eq!(refused.map_err(|row| (row.done, row.error)), Err((1, no_field)));
    let theirs = heap.owner(2)?.slot(0)?;
    let not_yours = Error::NotYours {
        first: frame,
        second: theirs,
    };
    let refused = heap.store_row(frame, 0, &values![2, theirs]);
    assert_eq!(refused.map_err(|row| (row.done, row.error)), Err((1, not_yours)));
    assert_eq!(heap.peek(frame, 0)?, Value::Int(2));
    Ok(())
}
