//! A list of numbers on a managed heap: a cell has a number and the rest of the list.

use rheap::{values, Error, Heap, Sizes, Value};

fn main() -> Result<(), Error> {
    // 4,096 words, cells of 4 words, ratio 32; owner 1 has two slots.
    let mut heap = Heap::sized(Sizes {
        words: 4096,
        biggest: 4,
        ratio: 32,
        owners: 2,
        slots: 2,
    })?;
    let owner = heap.owner(1)?;
    let (list, cell) = (owner.slot(0)?, owner.slot(1)?);

    // Puts 100,000 cells before the list, which is let go every 500: ten are left.
    for number in 0..100_000 {
        if number % 500 == 490 {
            heap.drop_root(list)?;
        }
        heap.make(list, &values![number, list])?;
    }

    // Walks the list by a second root.
    heap.copy(cell, list)?;
    while heap.root(cell)?.is_reference() {
        if let Value::Int(number) = heap.peek(cell, 0)? {
            println!("{number}");
        }
        heap.load(cell, cell, 1)?;
    }
    heap.collect()?;
    println!("{} words", heap.stat().used);
    Ok(())
}
