//! 200 random lists of calls, each compared call by call with a heap in plain Rust that never moves
//! or frees an object. Limits of the heap are left out of the comparison: such a call changes
//! nothing.

use rheap::{Error, Heap, Operand, Root, Sizes, Value, MAX_INT, MIN_INT};

const SIZES: Sizes = Sizes {
    words: 400,
    biggest: 8,
    ratio: 8,
    owners: 3,
    slots: 3,
};

/// What a root or a field of the plain heap holds: the number of an object, or a number.
#[derive(Clone, Copy, PartialEq)]
enum Held {
    Nil,
    Int(i64),
    Object(usize),
}

struct Object {
    raw: bool,
    fields: Vec<Held>,
}

struct Plain {
    objects: Vec<Object>,
    roots: Vec<Held>,
}

impl Plain {
    fn at(root: Root) -> usize {
        (root.owner() * SIZES.slots + root.slot()) as usize
    }

    fn held(&self, root: Root) -> Held {
        self.roots[Plain::at(root)]
    }

    fn value(&self, held: Held) -> Value {
        match held {
            Held::Nil => Value::Nil,
            Held::Int(number) => Value::Int(number),
            Held::Object(at) => {
                let object = &self.objects[at];
                let fields = object.fields.len() as u32;
                match object.raw {
                    true => Value::Raw { fields },
                    false => Value::Object { fields },
                }
            }
        }
    }

    fn mine(first: Root, second: Root) -> Result<(), Error> {
        let differ = first.owner() != second.owner();
        if differ && !first.is_shared() && !second.is_shared() {
            return Err(Error::NotYours { first, second });
        }
        Ok(())
    }

    /// The object that the root names, which has the field.
    fn object(&self, root: Root, field: u32) -> Result<usize, Error> {
        let Held::Object(at) = self.held(root) else {
            let holds = self.value(self.held(root));
            return Err(Error::NotObject { root, holds });
        };
        let fields = self.objects[at].fields.len() as u32;
        if field >= fields {
            return Err(Error::NoField {
                root,
                field,
                fields,
            });
        }
        Ok(at)
    }

    fn alloc(&mut self, dst: Root, fields: u32, raw: bool) -> Result<(), Error> {
        if fields > 4095 {
            return Err(Error::FieldsRange { fields });
        }
        let fields = vec![Held::Nil; fields as usize];
        self.roots[Plain::at(dst)] = Held::Object(self.objects.len());
        self.objects.push(Object { raw, fields });
        Ok(())
    }

    fn peek(&self, src: Root, field: u32) -> Result<Value, Error> {
        let at = self.object(src, field)?;
        Ok(self.value(self.objects[at].fields[field as usize]))
    }

    fn load(&mut self, dst: Root, src: Root, field: u32) -> Result<Value, Error> {
        Plain::mine(dst, src)?;
        let at = self.object(src, field)?;
        let held = self.objects[at].fields[field as usize];
        self.roots[Plain::at(dst)] = held;
        Ok(self.value(held))
    }

    fn store(&mut self, root: Root, field: u32, operand: Operand) -> Result<(), Error> {
        if let Operand::Root(src) = operand {
            Plain::mine(root, src)?;
        }
        let at = self.object(root, field)?;
        let held = match operand {
            Operand::Nil => Held::Nil,
            Operand::Int(number) if (MIN_INT..=MAX_INT).contains(&number) => Held::Int(number),
            Operand::Int(number) => return Err(Error::IntRange { number }),
            Operand::Root(src) => self.held(src),
        };
        if self.objects[at].raw && matches!(held, Held::Object(_)) {
            let value = self.value(held);
            return Err(Error::RawField { root, field, value });
        }
        self.objects[at].fields[field as usize] = held;
        Ok(())
    }

    /// An object with its values, which are all looked at before it is made.
    fn make(&mut self, dst: Root, fields: u32, values: &[Operand], raw: bool) -> Result<(), Error> {
        if fields > 4095 {
            return Err(Error::FieldsRange { fields });
        }
        let mut taken = vec![Held::Nil; fields as usize];
        // The call is made for the first owner that isn't owner 0.
        let mut first = dst;
        for (field, operand) in (0..).zip(values) {
            if let Operand::Root(src) = *operand {
                if first.is_shared() && !src.is_shared() {
                    first = src;
                }
                Plain::mine(first, src)?;
            }
            if field >= fields {
                return Err(Error::NoField {
                    root: dst,
                    field,
                    fields,
                });
            }
            taken[field as usize] = match *operand {
                Operand::Nil => Held::Nil,
                Operand::Int(number) if (MIN_INT..=MAX_INT).contains(&number) => Held::Int(number),
                Operand::Int(number) => return Err(Error::IntRange { number }),
                Operand::Root(src) => self.held(src),
            };
            if let (true, Held::Object(_)) = (raw, taken[field as usize]) {
                let value = self.value(taken[field as usize]);
                return Err(Error::RawField {
                    root: dst,
                    field,
                    value,
                });
            }
        }
        self.roots[Plain::at(dst)] = Held::Object(self.objects.len());
        self.objects.push(Object { raw, fields: taken });
        Ok(())
    }

    fn store_ints(&mut self, root: Root, from: u32, numbers: &[i64]) -> Result<(), Error> {
        for (field, number) in (from..).zip(numbers) {
            self.object(root, field)?;
            if !(MIN_INT..=MAX_INT).contains(number) {
                return Err(Error::IntRange { number: *number });
            }
        }
        for (field, number) in (from..).zip(numbers) {
            self.store(root, field, Operand::Int(*number))?;
        }
        Ok(())
    }

    /// The numbers of as many fields, up to the first that holds none.
    fn load_ints(&self, root: Root, from: u32, length: usize) -> Result<Vec<i64>, Error> {
        let values: Result<Vec<_>, _> = (from..)
            .take(length)
            .map(|field| self.peek(root, field))
            .collect();
        Ok(values?.into_iter().map_while(Value::int).collect())
    }

    fn copy(&mut self, dst: Root, src: Root) -> Result<(), Error> {
        Plain::mine(dst, src)?;
        self.roots[Plain::at(dst)] = self.held(src);
        Ok(())
    }

    fn same(&self, a: Root, b: Root) -> Result<bool, Error> {
        Plain::mine(a, b)?;
        Ok(self.held(a) == self.held(b))
    }
}

/// Random numbers, the same each time: xorshift.
struct Random(u64);

impl Random {
    fn below(&mut self, bound: u64) -> u64 {
        self.0 ^= self.0 << 13;
        self.0 ^= self.0 >> 7;
        self.0 ^= self.0 << 17;
        (self.0 >> 11) % bound
    }

    fn root(&mut self, heap: &Heap) -> Root {
        // Most calls stay with owners 0 and 1, since those of two other owners are refused.
        let owner = [0, 1, 1, 1, 2][self.below(5) as usize];
        let slot = self.below(u64::from(SIZES.slots)) as u32;
        heap.owner(owner)
            .and_then(|owner| owner.slot(slot))
            .expect("the heap has the root")
    }

    fn operand(&mut self, heap: &Heap) -> Operand {
        match self.below(8) {
            0 => Operand::Nil,
            1 => Operand::Int(self.below(u64::MAX) as i64),
            2 => Operand::Int([MIN_INT, MAX_INT, MIN_INT - 1, MAX_INT + 1][self.below(4) as usize]),
            3 => Operand::Int(self.below(100) as i64 - 50),
            _ => Operand::Root(self.root(heap)),
        }
    }
}

/// What was refused by a limit, which the plain heap hasn't.
fn is_limited<T>(told: &Result<T, Error>) -> bool {
    matches!(told, Err(Error::SpaceFull { .. } | Error::LogFull { .. }))
}

#[test]
fn random_calls_are_answered_as_by_a_plain_heap() {
    let mut done = 0;
    let mut refused = 0;
    let mut limited = 0;
    let mut flips = 0;
    let mut resized = 0;
    for seed in 1..=200 {
        // Every second heap is too small for what lives, so that limits are met.
        let small = Sizes {
            words: 120,
            ratio: 4,
            ..SIZES
        };
        let made = match seed % 2 {
            0 => Heap::sized(SIZES),
            _ => Heap::sized_for(small, 5),
        };
        let mut heap = made.expect("the sizes have a pace");
        let count = (SIZES.owners * SIZES.slots) as usize;
        let mut plain = Plain {
            objects: Vec::new(),
            roots: vec![Held::Nil; count],
        };
        let mut random = Random(0x9e37_79b9_7f4a_7c15_u64.wrapping_mul(seed));
        for step in 0..1000 {
            let (a, b) = (random.root(&heap), random.root(&heap));
            let field = random.below(7) as u32;
            let insists = random.below(4) == 0;
            let kind = random.below(22);
            macro_rules! compare {
                ($told:expr, $due:expr) => {{
                    let told = $told;
                    if is_limited(&told) {
                        limited += 1;
                        continue;
                    }
                    match &told {
                        Ok(_) => done += 1,
                        Err(_) => refused += 1,
                    }
                    assert_eq!(told, $due, "seed {seed}, step {step}, call {kind}");
                }};
            }
            // Every third heap is given other words now and then, in cycles too.
            if seed % 3 == 0 && step % 20 == 19 {
                let words = heap.stat().used as u32 + 100 + random.below(300) as u32;
                match heap.resize_for(words, 5, SIZES.biggest) {
                    Ok(()) => resized += 1,
                    Err(Error::InUse { .. }) => {}
                    Err(other) => panic!("seed {seed}, step {step}: {other}"),
                }
            }
            match kind {
                0..=3 => {
                    let raw = random.below(4) == 0;
                    let fields = match random.below(50) {
                        0 => 4096,
                        fields => fields as u32 % 7,
                    };
                    let told = match (raw, insists) {
                        (false, false) => heap.alloc(a, fields),
                        (true, false) => heap.alloc_raw(a, fields),
                        (false, true) => heap.insist_alloc(a, fields),
                        (true, true) => heap.insist_alloc_raw(a, fields),
                    };
                    compare!(told, plain.alloc(a, fields, raw));
                }
                4..=8 => {
                    let operand = random.operand(&heap);
                    let told = match insists {
                        false => heap.store(a, field, operand),
                        true => heap.insist_store(a, field, operand),
                    };
                    compare!(told, plain.store(a, field, operand));
                }
                9..=10 => compare!(heap.load(a, b, field), plain.load(a, b, field)),
                11 => compare!(heap.peek(a, field), plain.peek(a, field)),
                12 => compare!(heap.copy(a, b), plain.copy(a, b)),
                13 => {
                    plain.roots[Plain::at(a)] = Held::Nil;
                    compare!(heap.drop_root(a), Ok(()));
                }
                14 => compare!(heap.same(a, b), plain.same(a, b)),
                16..=17 => {
                    let mut numbers = vec![0; random.below(6) as usize];
                    for number in &mut numbers {
                        *number = match random.below(20) {
                            0 => [MIN_INT - 1, MIN_INT, MAX_INT, MAX_INT + 1]
                                [random.below(4) as usize],
                            _ => random.below(1000) as i64 - 500,
                        };
                    }
                    let from = field % 3;
                    compare!(
                        heap.store_ints(a, from, &numbers),
                        plain.store_ints(a, from, &numbers)
                    );
                }
                18 => {
                    let length = random.below(6) as usize;
                    let mut numbers = vec![7777; length];
                    let told = heap.load_ints(a, field % 3, &mut numbers).map(|read| {
                        assert!(numbers[read..].iter().all(|number| *number == 7777));
                        numbers[..read].to_vec()
                    });
                    compare!(told, plain.load_ints(a, field % 3, length));
                }
                19..=21 => {
                    let most = [70, 7][usize::from(random.below(20) != 0)];
                    let count = random.below(most);
                    let values: Vec<Operand> = (0..count).map(|_| random.operand(&heap)).collect();
                    let raw = random.below(4) == 0;
                    let fields = match random.below(20) {
                        0 => random.below(4099) as u32,
                        1 => 4096,
                        more => count as u32 + more as u32 % 3,
                    };
                    let told = match (raw, insists, fields as usize == values.len()) {
                        (false, false, true) => heap.make(a, &values),
                        (true, false, true) => heap.make_raw(a, &values),
                        (false, true, true) => heap.insist_make(a, &values),
                        (true, true, true) => heap.insist_make_raw(a, &values),
                        (false, false, false) => heap.make_of(a, fields, &values),
                        (true, false, false) => heap.make_raw_of(a, fields, &values),
                        (false, true, false) => heap.insist_make_of(a, fields, &values),
                        (true, true, false) => heap.insist_make_raw_of(a, fields, &values),
                    };
                    compare!(told, plain.make(a, fields, &values, raw));
                }
                _ => match random.below(20) {
                    0 => heap.collect().expect("epochs are left"),
                    _ => heap.increment(),
                },
            }
        }
        // What each root reaches is the same, a level deep.
        for root in heap.owners().flat_map(rheap::Owner::slots) {
            let held = plain.held(root);
            assert_eq!(heap.root(root), Ok(plain.value(held)));
            if let Held::Object(at) = held {
                let fields = heap.fields(root).expect("it names an object");
                let due = plain.objects[at]
                    .fields
                    .iter()
                    .map(|held| plain.value(*held));
                assert!(fields.eq(due), "seed {seed}, root {root}");
            }
        }
        flips += heap.stat().flips;
    }
    // The lists reach what they are for.
    assert!(
        done > 50_000 && refused > 10_000,
        "{done} done, {refused} refused"
    );
    assert!(
        flips > 200 && limited > 0 && resized > 2000,
        "{flips} flips, {limited} limited, {resized} resized"
    );
    println!("{done} done, {refused} refused, {limited} limited, {flips} flips");
}
