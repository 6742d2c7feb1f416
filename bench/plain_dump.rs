// What `bench/dump` times beside the reader and writer of dumps: the same text read into vectors
// and written to memory again by plain Rust, which looks at no limit and no order. Prints how many
// objects there are and how many bytes were written.

use std::io::{Read, Write};

enum Value {
    Nil,
    Int(i64),
    Ref(u32),
}

fn value_of(part: &str) -> Option<Value> {
    match part.strip_prefix('@') {
        Some(digits) => digits.parse().ok().map(Value::Ref),
        None if part == "nil" => Some(Value::Nil),
        None => part.parse().ok().map(Value::Int),
    }
}

fn put(text: &mut Vec<u8>, value: &Value) -> std::io::Result<()> {
    match value {
        Value::Nil => text.write_all(b"nil"),
        Value::Int(number) => write!(text, "{number}"),
        Value::Ref(number) => write!(text, "@{number}"),
    }
}

type Root = (u32, u32, Value);

// The roots, how many fields each object has, and all values in order.
fn read(input: &[u8]) -> Option<(Vec<Root>, Vec<u32>, Vec<Value>)> {
    let mut lines = std::str::from_utf8(input).ok()?.lines();
    let (mut roots, mut counts, mut values) = (Vec::new(), Vec::new(), Vec::new());
    lines.next()?;
    let many: usize = lines.next()?.strip_prefix("roots ")?.parse().ok()?;
    for _ in 0..many {
        let (root, value) = lines.next()?.split_once(' ')?;
        let (owner, slot) = root.split_once('.')?;
        roots.push((owner.parse::<u32>().ok()?, slot.parse::<u32>().ok()?, value_of(value)?));
    }
    let many: usize = lines.next()?.strip_prefix("objects ")?.parse().ok()?;
    for _ in 0..many {
        let mut parts = lines.next()?.split(' ').skip(1);
        counts.push(parts.next()?.parse::<u32>().ok()?);
        for part in parts {
            values.push(value_of(part)?);
        }
    }
    Some((roots, counts, values))
}

fn write(roots: &[Root], counts: &[u32], values: &[Value]) -> std::io::Result<Vec<u8>> {
    let mut text = Vec::new();
    write!(text, "rheap 2\nroots {}\n", roots.len())?;
    for (owner, slot, value) in roots {
        write!(text, "{owner}.{slot} ")?;
        put(&mut text, value)?;
        text.push(b'\n');
    }
    writeln!(text, "objects {}", counts.len())?;
    let mut rest = values.iter();
    for (number, count) in counts.iter().enumerate() {
        write!(text, "@{number} {count}")?;
        for value in rest.by_ref().take(*count as usize) {
            text.push(b' ');
            put(&mut text, value)?;
        }
        text.push(b'\n');
    }
    text.extend_from_slice(b"end\n");
    Ok(text)
}

fn copied(is_copied: bool) -> Option<(usize, usize)> {
    let mut input = Vec::new();
    std::io::stdin().read_to_end(&mut input).ok()?;
    let (roots, counts, values) = read(&input)?;
    let text = if is_copied { write(&roots, &counts, &values).ok()? } else { Vec::new() };
    Some((counts.len(), text.len()))
}

fn main() {
    let is_copied = std::env::args().nth(1).is_some_and(|text| text == "copy");
    match copied(is_copied) {
        Some((objects, bytes)) => println!("objects {objects} bytes {bytes}"),
        None => std::process::exit(1),
    }
}
