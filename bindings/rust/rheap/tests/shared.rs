//! The calls on slots of owner 0 by number: each where it is done and where it is refused, and 400
//! random lists of them beside the same calls on the roots in these slots, in a heap of their own.

use rheap::{Error, Growth, Heap, Operand, Root, Shared, Sizes, Value, MAX_INT, MIN_INT};

type Done = Result<(), Error>;

const SIZES: Sizes = Sizes {
    words: 1000,
    biggest: 4,
    ratio: 32,
    owners: 2,
    slots: 4,
};

fn heap_and_slots() -> (Heap, [Shared; 3]) {
    let heap = Heap::sized(SIZES).expect("the sizes have a pace");
    let slots = [0, 1, 2].map(|slot| heap.shared(slot).expect("the heap has the slot"));
    (heap, slots)
}

#[test]
fn a_slot_is_a_root_of_owner_0() -> Done {
    let (heap, [first, second, _]) = heap_and_slots();
    assert_eq!((first.number(), second.number()), (0, 1));
    assert_eq!(first.root(), heap.owner(0)?.slot(0)?);
    assert_eq!(Root::from(second), second.root());
    assert_eq!(Operand::from(second), Operand::Root(second.root()));
    assert!(second.root().is_shared() && first < second);
    assert_eq!(second.to_string(), second.root().to_string());
    let refused = Error::NoSlot {
        owner: 0,
        slot: 4,
        slots: 4,
    };
    assert_eq!(heap.shared(4), Err(refused));
    Ok(())
}

#[test]
fn each_call() -> Done {
    let (mut heap, [object, raw, found]) = heap_and_slots();
    heap.shared_alloc(object, 2)?;
    heap.shared_alloc_raw(raw, 3)?;
    assert_eq!(heap.root(object.root())?, Value::Object { fields: 2 });
    assert_eq!(heap.root(raw.root())?, Value::Raw { fields: 3 });
    heap.shared_store(object, 0, raw)?;
    heap.shared_store(object, 1, MIN_INT)?;
    assert_eq!(
        heap.shared_load(found, object, 0)?,
        Value::Raw { fields: 3 }
    );
    assert!(heap.same(found.root(), raw.root())?);
    heap.shared_load_untold(found, object, 1)?;
    assert_eq!(heap.root(found.root())?, Value::Int(MIN_INT));
    assert_eq!(heap.shared_peek(object, 1)?, Value::Int(MIN_INT));
    heap.shared_store(object, 1, Operand::Nil)?;
    assert_eq!(heap.shared_peek(object, 1)?, Value::Nil);
    heap.shared_copy(found, object)?;
    heap.shared_drop(object)?;
    assert_eq!(heap.root(object.root())?, Value::Nil);
    assert_eq!(heap.shared_peek(found, 0)?, Value::Raw { fields: 3 });

    heap.shared_insist_alloc(object, 1)?;
    heap.shared_insist_alloc_raw(raw, 1)?;
    heap.shared_insist_store(object, 0, raw)?;
    heap.shared_insist_store(raw, 0, 7)?;
    assert_eq!(heap.shared_load(object, object, 0)?, heap.root(raw.root())?);
    assert_eq!(heap.shared_peek(object, 0)?, Value::Int(7));
    heap.shared_insist_store(raw, 0, Operand::Nil)?;
    assert_eq!(heap.shared_peek(object, 0)?, Value::Nil);
    assert_eq!(heap.stat().number, 6);
    Ok(())
}

/// With a root of another owner it is the store for that owner.
#[test]
fn what_another_owner_holds_is_stored() -> Done {
    let (mut heap, [object, ..]) = heap_and_slots();
    let theirs = heap.owner(1)?.slot(3)?;
    heap.alloc(theirs, 1)?;
    heap.shared_alloc(object, 2)?;
    heap.shared_store(object, 0, theirs)?;
    heap.shared_insist_store(object, 1, theirs)?;
    let both: Vec<Value> = heap.fields(object.root())?.collect();
    assert_eq!(both, [Value::Object { fields: 1 }; 2]);
    Ok(())
}

#[test]
fn each_refusal() -> Done {
    let (mut heap, [object, raw, empty]) = heap_and_slots();
    heap.shared_alloc(object, 2)?;
    heap.shared_alloc_raw(raw, 1)?;
    let many = Err(Error::FieldsRange { fields: 4096 });
    assert_eq!(heap.shared_alloc(object, 4096), many);
    assert_eq!(heap.shared_alloc_raw(object, 4096), many);
    assert_eq!(heap.shared_insist_alloc(object, 4096), many);
    assert_eq!(heap.shared_insist_alloc_raw(object, 4096), many);
    let none = Error::NotObject {
        root: empty.root(),
        holds: Value::Nil,
    };
    assert_eq!(heap.shared_load(object, empty, 0), Err(none));
    assert_eq!(heap.shared_load_untold(object, empty, 0), Err(none));
    assert_eq!(heap.shared_peek(empty, 0), Err(none));
    assert_eq!(heap.shared_store(empty, 0, 7), Err(none));
    assert_eq!(heap.shared_insist_store(empty, 0, object), Err(none));
    let (root, fields) = (object.root(), 2);
    let past = |field| Error::NoField {
        root,
        field,
        fields,
    };
    assert_eq!(heap.shared_load(object, object, 2), Err(past(2)));
    assert_eq!(heap.shared_load_untold(empty, object, 3), Err(past(3)));
    assert_eq!(heap.shared_peek(object, 4), Err(past(4)));
    assert_eq!(heap.shared_store(object, 5, Operand::Nil), Err(past(5)));
    assert_eq!(heap.shared_insist_store(object, 6, 7), Err(past(6)));
    let number = MAX_INT + 1;
    let range = Err(Error::IntRange { number });
    assert_eq!(heap.shared_store(object, 0, number), range);
    assert_eq!(heap.shared_insist_store(object, 0, number), range);
    let reference = Err(Error::RawField {
        root: raw.root(),
        field: 0,
        value: Value::Object { fields: 2 },
    });
    assert_eq!(heap.shared_store(raw, 0, object), reference);
    assert_eq!(heap.shared_insist_store(raw, 0, object), reference);
    assert_eq!(heap.stat().number, 0);
    Ok(())
}

/// A slot of a heap with more of them.
#[test]
fn a_slot_of_another_heap() -> Done {
    let (mut heap, [object, ..]) = heap_and_slots();
    let larger = Heap::sized(Sizes { slots: 9, ..SIZES })?;
    let none = larger.shared(8)?;
    heap.shared_alloc(object, 1)?;
    let refused = Error::NoRoot {
        root: none.root(),
        owners: 2,
        slots: 4,
    };
    assert_eq!(heap.shared_alloc(none, 1), Err(refused));
    assert_eq!(heap.shared_alloc_raw(none, 1), Err(refused));
    assert_eq!(heap.shared_insist_alloc(none, 1), Err(refused));
    assert_eq!(heap.shared_insist_alloc_raw(none, 1), Err(refused));
    assert_eq!(heap.shared_load(none, object, 0), Err(refused));
    assert_eq!(heap.shared_load_untold(object, none, 0), Err(refused));
    assert_eq!(heap.shared_peek(none, 0), Err(refused));
    assert_eq!(heap.shared_store(none, 0, object), Err(refused));
    assert_eq!(heap.shared_store(object, 0, none), Err(refused));
    assert_eq!(heap.shared_insist_store(object, 0, none), Err(refused));
    assert_eq!(heap.shared_copy(none, object), Err(refused));
    assert_eq!(heap.shared_copy(object, none), Err(refused));
    assert_eq!(heap.shared_drop(none), Err(refused));
    Ok(())
}

/// A root of another owner.
fn theirs(heap: &Heap) -> Root {
    heap.owner(1)
        .and_then(|owner| owner.slot(0))
        .expect("the heap has the root")
}

/// Random numbers, the same each time: xorshift.
struct Random(u64);

impl Random {
    fn below(&mut self, bound: u64) -> u64 {
        self.0 ^= self.0 << 13;
        self.0 ^= self.0 >> 7;
        self.0 ^= self.0 << 17;
        (self.0 >> 11) % bound
    }

    /// A slot that the heap has, or seldom one of a larger heap.
    fn slot(&mut self, heap: &Heap, larger: &Heap) -> Shared {
        let slot = self.below(u64::from(SIZES.slots)) as u32;
        match self.below(60) {
            0 => larger.shared(slot + SIZES.slots),
            _ => heap.shared(slot),
        }
        .expect("the heap has the slot")
    }

    /// What is stored; of a root, seldom that of another owner.
    fn operand(&mut self, heap: &Heap, larger: &Heap) -> Operand {
        match self.below(10) {
            0 => Operand::Nil,
            1 => Operand::Int([MIN_INT - 1, MIN_INT, MAX_INT, MAX_INT + 1][self.below(4) as usize]),
            2..=4 => Operand::Int(self.below(100) as i64 - 50),
            5 => Operand::Root(theirs(heap)),
            _ => self.slot(heap, larger).into(),
        }
    }
}

/// What a call returned, of any kind.
#[derive(Debug, PartialEq)]
enum Told {
    Done(Result<(), Error>),
    Value(Result<Value, Error>),
}

/// One random call by number, and the same on the roots in the slots.
fn twice(random: &mut Random, heap: &mut Heap, plain: &mut Heap, larger: &Heap) -> [Told; 2] {
    use Told::Done;
    let (a, b) = (random.slot(heap, larger), random.slot(heap, larger));
    let of = random.operand(heap, larger);
    let field = random.below(4) as u32;
    let (x, y) = (a.root(), b.root());
    match random.below(18) {
        0 => [heap.shared_alloc(a, field), plain.alloc(x, field)].map(Done),
        1 => [heap.shared_alloc_raw(a, field), plain.alloc_raw(x, field)].map(Done),
        2 => [
            heap.shared_insist_alloc(a, field),
            plain.insist_alloc(x, field),
        ]
        .map(Done),
        3 => [
            heap.shared_insist_alloc_raw(a, field),
            plain.insist_alloc_raw(x, field),
        ]
        .map(Done),
        4..=5 => [heap.shared_load(a, b, field), plain.load(x, y, field)].map(Told::Value),
        6 => [
            heap.shared_load_untold(a, b, field),
            plain.load_untold(x, y, field),
        ]
        .map(Done),
        7 => [heap.shared_peek(a, field), plain.peek(x, field)].map(Told::Value),
        8..=11 => [heap.shared_store(a, field, of), plain.store(x, field, of)].map(Done),
        12..=13 => [
            heap.shared_insist_store(a, field, of),
            plain.insist_store(x, field, of),
        ]
        .map(Done),
        14 => [heap.shared_copy(a, b), plain.copy(x, y)].map(Done),
        15 => [heap.shared_drop(a), plain.drop_root(x)].map(Done),
        _ => {
            // A list of another owner gets longer, so that words fill up, until it is gone.
            let list = theirs(plain);
            let is_gone = random.below(30) == 0;
            [heap, plain].map(|it| match is_gone {
                true => Done(it.drop_root(list)),
                false => Done(it.make(list, &rheap::values![field, list])),
            })
        }
    }
}

/// A heap of fixed sizes, in some of which too little room is, or one that grows.
fn opened(seed: u64) -> Heap {
    let small = Sizes {
        words: 80,
        ratio: 4,
        ..SIZES
    };
    match seed % 3 {
        0 => Heap::sized(SIZES),
        1 => Heap::sized_for(small, 5),
        _ => Heap::growing(Growth {
            at_least: 60,
            at_most: 140,
            factor: 100,
            biggest: 5,
            ratio: 32,
            owners: SIZES.owners,
            slots: SIZES.slots,
        }),
    }
    .expect("the sizes have a pace")
}

#[test]
fn random_calls_by_number_are_those_on_roots() -> Done {
    let larger = Heap::sized(Sizes { slots: 9, ..SIZES })?;
    let (mut flips, mut full, mut refused) = (0, 0, 0);
    for seed in 1..=400 {
        let (mut heap, mut plain) = (opened(seed), opened(seed));
        let mut random = Random(0x9e37_79b9_7f4a_7c15_u64.wrapping_mul(seed));
        for step in 0..300 {
            let [told, due] = twice(&mut random, &mut heap, &mut plain, &larger);
            assert_eq!(told, due, "seed {seed}, step {step}");
            assert_eq!(heap.stat(), plain.stat(), "seed {seed}, step {step}");
            if let Told::Done(Err(error)) | Told::Value(Err(error)) = told {
                refused += 1;
                full += u32::from(error.is_limit());
            }
        }
        assert_eq!(heap.dump()?, plain.dump()?, "seed {seed}");
        flips += heap.stat().flips;
    }
    // The lists reach what they are for.
    assert!(
        flips > 400 && full > 400 && refused > 20_000,
        "{refused} refused, {full} of them by a limit, {flips} flips"
    );
    Ok(())
}
