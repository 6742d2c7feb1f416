// What `bench/run_trace` times beside `rheap run`: a trace of commands, but `raw`, read and played
// in plain Rust, on a heap that never moves and never frees. It prints the same answers, byte for
// byte, or the first line that isn't such a command. It counts words, to refuse what has no room.

use std::io::Write;
use std::process::ExitCode;

#[derive(Clone, Copy, PartialEq)]
enum Value {
    Nil,
    Int(i64),
    Object(usize),
}

#[derive(Clone, Copy)]
struct Root {
    owner: u32,
    slot: u32,
}

#[derive(Clone, Copy)]
enum Operand {
    Nil,
    Int(i64),
    Root(Root),
}

enum Command {
    Alloc { to: Root, fields: u32 },
    Load { to: Root, object: Root, field: u32 },
    Store { object: Root, field: u32, operand: Operand },
    Copy { to: Root, from: Root },
    Same { left: Root, right: Root },
    Drop { root: Root },
}

#[derive(Debug)]
enum Refusal {
    NoRoot,
    NotYours,
    NotObject,
    NoField,
    IntRange,
    FieldsRange,
    SpaceFull { need: u64, free: u64 },
}

enum Reply {
    Done,
    Value(Value),
    Same(bool),
}

// What is left of a trace. Each part is read up to the byte that must end it.
struct Text<'a> {
    rest: &'a [u8],
}

impl<'a> Text<'a> {
    fn part(&mut self, end: u8) -> Option<&'a [u8]> {
        let at = self.rest.iter().position(|byte| *byte == end)?;
        let part = &self.rest[..at];
        self.rest = &self.rest[at + 1..];
        Some(part)
    }

    // At most 19 digits, of which the first isn't 0 if there are more.
    fn digits(&mut self, end: u8) -> Option<u64> {
        let mut number = 0u64;
        for (at, byte) in self.rest.iter().enumerate().take(20) {
            let digit = byte.wrapping_sub(b'0');
            if *byte == end && at > 0 && (at == 1 || self.rest[0] != b'0') {
                self.rest = &self.rest[at + 1..];
                return Some(number);
            }
            if digit > 9 || at == 19 {
                return None;
            }
            number = number * 10 + u64::from(digit);
        }
        None
    }

    fn number(&mut self, end: u8) -> Option<u32> {
        self.digits(end).and_then(|number| u32::try_from(number).ok())
    }

    fn root(&mut self, end: u8) -> Option<Root> {
        Some(Root { owner: self.number(b'.')?, slot: self.number(end)? })
    }

    fn whole_number(&mut self, end: u8) -> Option<i64> {
        match self.rest {
            [b'-', b'0', ..] => None,
            [b'-', rest @ ..] => {
                self.rest = rest;
                0i64.checked_sub_unsigned(self.digits(end)?)
            }
            _ => self.digits(end).and_then(|number| i64::try_from(number).ok()),
        }
    }

    fn operand(&mut self, end: u8) -> Option<Operand> {
        if self.rest.starts_with(b"nil") {
            return self.part(end).filter(|part| part.len() == 3).map(|_| Operand::Nil);
        }
        let whole = self.rest;
        if let Some(root) = self.root(end) {
            return Some(Operand::Root(root));
        }
        self.rest = whole;
        self.whole_number(end).map(Operand::Int)
    }

    // The owner and the command of the next line.
    fn command(&mut self) -> Option<(u32, Command)> {
        let owner = self.number(b' ')?;
        let command = match self.part(b' ')? {
            b"alloc" => Command::Alloc { to: self.root(b' ')?, fields: self.number(b'\n')? },
            b"load" => {
                let (to, object) = (self.root(b' ')?, self.root(b' ')?);
                Command::Load { to, object, field: self.number(b'\n')? }
            }
            b"store" => {
                let (object, field) = (self.root(b' ')?, self.number(b' ')?);
                Command::Store { object, field, operand: self.operand(b'\n')? }
            }
            b"copy" => Command::Copy { to: self.root(b' ')?, from: self.root(b'\n')? },
            b"same" => Command::Same { left: self.root(b' ')?, right: self.root(b'\n')? },
            b"drop" => Command::Drop { root: self.root(b'\n')? },
            _ => return None,
        };
        Some((owner, command))
    }

    // The heap of the first line.
    fn heap(&mut self) -> Option<Heap> {
        self.part(b' ').filter(|part| *part == b"heap")?;
        let (words, _ratio, _log) = (self.number(b' ')?, self.number(b' ')?, self.number(b' ')?);
        let (owners, slots) = (self.number(b' ')?, self.number(b'\n')?);
        let roots = vec![Value::Nil; owners as usize * slots as usize];
        let (objects, fields) = (Vec::new(), Vec::new());
        Some(Heap { words: words.into(), used: 0, owners, slots, roots, objects, fields })
    }
}

struct Object {
    first: usize,
    fields: u32,
}

struct Heap {
    words: u64,
    used: u64,
    owners: u32,
    slots: u32,
    roots: Vec<Value>,
    objects: Vec<Object>,
    fields: Vec<Value>,
}

impl Heap {
    // The places of roots that a command of the owner names.
    fn places<const N: usize>(&self, owner: u32, roots: [Root; N]) -> Result<[usize; N], Refusal> {
        let is_there = |root: &Root| root.owner < self.owners && root.slot < self.slots;
        if owner >= self.owners || !roots.iter().all(is_there) {
            return Err(Refusal::NoRoot);
        }
        if roots.iter().any(|root| root.owner != 0 && root.owner != owner) {
            return Err(Refusal::NotYours);
        }
        Ok(roots.map(|root| (root.owner * self.slots + root.slot) as usize))
    }

    // Where the field of the object at this root stands.
    fn field(&self, place: usize, field: u32) -> Result<usize, Refusal> {
        let Value::Object(at) = self.roots[place] else {
            return Err(Refusal::NotObject);
        };
        let object = &self.objects[at];
        if field >= object.fields {
            return Err(Refusal::NoField);
        }
        Ok(object.first + field as usize)
    }

    fn alloc(&mut self, to: usize, fields: u32) -> Result<Reply, Refusal> {
        if fields > 4095 {
            return Err(Refusal::FieldsRange);
        }
        let (need, free) = (u64::from(fields) + 2, self.words - self.used);
        if need > free {
            return Err(Refusal::SpaceFull { need, free });
        }
        self.used += need;
        self.roots[to] = Value::Object(self.objects.len());
        self.objects.push(Object { first: self.fields.len(), fields });
        self.fields.resize(self.fields.len() + fields as usize, Value::Nil);
        Ok(Reply::Value(self.roots[to]))
    }

    fn store(
        &mut self,
        owner: u32,
        object: Root,
        field: u32,
        operand: Operand,
    ) -> Result<Reply, Refusal> {
        let (place, value) = match operand {
            Operand::Root(from) => {
                let [place, from] = self.places(owner, [object, from])?;
                (place, self.roots[from])
            }
            Operand::Int(number) => (self.places(owner, [object])?[0], Value::Int(number)),
            Operand::Nil => (self.places(owner, [object])?[0], Value::Nil),
        };
        let at = self.field(place, field)?;
        match value {
            Value::Int(number) if !(-1 << 61..1 << 61).contains(&number) => {
                return Err(Refusal::IntRange)
            }
            _ => self.fields[at] = value,
        }
        Ok(Reply::Done)
    }

    fn run(&mut self, owner: u32, command: &Command) -> Result<Reply, Refusal> {
        match *command {
            Command::Alloc { to, fields } => {
                let [to] = self.places(owner, [to])?;
                self.alloc(to, fields)
            }
            Command::Load { to, object, field } => {
                let [to, place] = self.places(owner, [to, object])?;
                self.roots[to] = self.fields[self.field(place, field)?];
                Ok(Reply::Value(self.roots[to]))
            }
            Command::Store { object, field, operand } => self.store(owner, object, field, operand),
            Command::Copy { to, from } => {
                let [to, from] = self.places(owner, [to, from])?;
                self.roots[to] = self.roots[from];
                Ok(Reply::Value(self.roots[to]))
            }
            Command::Same { left, right } => {
                let [left, right] = self.places(owner, [left, right])?;
                Ok(Reply::Same(self.roots[left] == self.roots[right]))
            }
            Command::Drop { root } => {
                let [place] = self.places(owner, [root])?;
                self.roots[place] = Value::Nil;
                Ok(Reply::Done)
            }
        }
    }

    fn tell(&self, answer: &Result<Reply, Refusal>, out: &mut impl Write) -> std::io::Result<()> {
        match *answer {
            Ok(Reply::Done) => out.write_all(b"done\n"),
            Ok(Reply::Same(true)) => out.write_all(b"same yes\n"),
            Ok(Reply::Same(false)) => out.write_all(b"same no\n"),
            Ok(Reply::Value(Value::Nil)) => out.write_all(b"nil\n"),
            Ok(Reply::Value(Value::Int(number))) => put(out, b"int ", number),
            Ok(Reply::Value(Value::Object(at))) => {
                put(out, b"object ", self.objects[at].fields.into())
            }
            Err(Refusal::SpaceFull { need, free }) => {
                writeln!(out, "refused SpaceFull need {need} free {free}")
            }
            Err(ref refusal) => writeln!(out, "refused {refusal:?}"),
        }
    }
}

// Writes a line of these words and a number.
fn put(out: &mut impl Write, words: &[u8], number: i64) -> std::io::Result<()> {
    let (mut text, mut at, mut rest) = ([0; 20], 20, number.unsigned_abs());
    loop {
        at -= 1;
        text[at] = b'0' + (rest % 10) as u8;
        rest /= 10;
        if rest == 0 {
            break;
        }
    }
    out.write_all(words)?;
    if number < 0 {
        out.write_all(b"-")?;
    }
    out.write_all(&text[at..])?;
    out.write_all(b"\n")
}

// The heap and the commands of a trace, or the number of the first line that is neither.
fn read(text: &[u8]) -> Result<(Heap, Vec<(u32, Command)>), usize> {
    let mut text = Text { rest: text };
    let heap = text.heap().ok_or(1usize)?;
    let mut commands = Vec::new();
    while !text.rest.is_empty() {
        commands.push(text.command().ok_or(commands.len() + 2)?);
    }
    Ok((heap, commands))
}

fn play(mut heap: Heap, commands: &[(u32, Command)]) -> std::io::Result<()> {
    let mut out = std::io::BufWriter::with_capacity(65_536, std::io::stdout().lock());
    let mut refused = 0;
    for (owner, command) in commands {
        let answer = heap.run(*owner, command);
        refused += u32::from(answer.is_err());
        heap.tell(&answer, &mut out)?;
    }
    writeln!(out, "total commands {} refused {refused} flips 0 rootwords 0", commands.len())?;
    out.flush()
}

fn main() -> ExitCode {
    let path = std::env::args().nth(1).unwrap_or_default();
    let Ok(text) = std::fs::read(&path) else {
        eprintln!("plain_run: not a file that can be read: {path}");
        return ExitCode::FAILURE;
    };
    let played = match read(&text) {
        Ok((heap, commands)) => play(heap, &commands).map_err(|fault| fault.to_string()),
        Err(line) => Err(format!("line {line} is no command")),
    };
    if let Err(why) = played {
        eprintln!("plain_run: {why}");
        return ExitCode::FAILURE;
    }
    ExitCode::SUCCESS
}
