"""Tries on small texts how tools/doc reads sources and definitions, which `./rheap doc --check` does first. By itself it needs no module
that Python hasn't: `python3 tools/doc/self_check.py` prints a line for each case that fails, and its status is 1 then."""
import sys
import types

import antt
import masking
import names
import quoting
import rattle
import trials

SOURCE = '''//! What a file is about.
ghost use Rattle.rh_one.specs.Step.{step, Fine as Good};

use crate::errors::{Fault, Other as Another};

/// A row, "not // a comment".
#[derive(Clone)]
pub struct Row<A: Fn(u32) -> bool> {
    /// Its length.
    pub length: u32,
    hidden: A,
    pub ghost state: { Option ℕ },
}

/// Why not.
pub enum Why {
    /// It is full.
    Full { /** no comment */ room: u32 },
    Late(u32, Vec<u8>),
}

impl<A: Fn(u32) -> bool> Row<A> {
    /// Steps once.
    ///
    /// # Errors
    ///
    /// `Full` where it is full.
    pub fn step(&mut self, by: [u8; 4], c: char) -> Result<(), Why>
    where
        A: Copy,
        requires { by ≡ by }
        ensures state { self.new ≡ record { a = step self.old; b = 1 } }
        ensures* back { sem 𝓛 Good }
    {
        let text = "} ensures fake {";
        if c == '}' { return Err(Why::Late(1, vec![])); }
        Ok(())
    }

    fn hidden(&self) -> u32 { 1 }
}

impl<A> Drop for Row<A> {
    fn drop(&mut self) {}
}
'''
SPECS = '''-- Steps.
use Rattle.rh_two.specs.Base.{base}
pub use Rattle.rh_two.specs.Far as Near

-- one step
abbrev pub step : ℕ → ℕ
step n = base n

-- by a measure
module _ {A : Type 0}
    (f : A → ℕ) where
  -- it is fine
  pub record Fine (a : A) : Type 0 where
    pub small : f a ≡ step 0

infixl 10 ◌then◌
abbrev pub ◌then◌ : ℕ → ℕ → ℕ
n then m = step m

pub data Sort : Type 0 where
  high : Sort
  low : ℕ → Sort
'''
failed = []


def expect(what, got, due):
    if got != due:
        failed.append(f"{what}: {got!r} in place of {due!r}")


def try_sources():
    source = rattle.Source(SOURCE)
    expect("comment", source.comment, "What a file is about.")
    expect("imports", source.imports, {"step": ("Rattle.rh_one.specs.Step", "step"), "Good": ("Rattle.rh_one.specs.Step", "Fine")})
    expect("uses", source.uses, [(("crate", "errors", "Fault"), "Fault", ""), (("crate", "errors", "Other"), "Another", "")])
    row, why, own, drop = source.items
    expect("fields", [(it.name, it.visibility, it.comment) for it in row.members], [("length", "pub", "Its length."), ("hidden", "", ""), ("state", "pub", "")])
    expect("variants", [(it.name, it.comment, [part.name for part in it.members]) for it in why.members], [("Full", "It is full.", ["room"]), ("Late", "", ["", ""])])
    step, hidden = own.members
    expect("an impl", (own.name, own.trait, drop.name, drop.trait, step.visibility, hidden.visibility), ("Row", None, "Row", "Drop", "pub", ""))
    expect("clauses", [(it.kind, it.name, it.text) for it in step.clauses],
           [("requires", "", "by ≡ by"), ("ensures", "state", "self.new ≡ record { a = step self.old; b = 1 }"), ("ensures*", "back", "sem 𝓛 Good")])
    expect("a signature", step.text.split("\n")[0], "pub fn step(&mut self, by: [u8; 4], c: char) -> Result<(), Why>")
    expect("a section", step.comment.split("\n")[2], "# Errors")
    at = SOURCE.index("if c == ")
    expect("what an edit changes", trials.edited_item(source.items, at, "if c == '}'"), step)


def try_definitions():
    specs = antt.Specs("Rattle.rh_one.specs.Step", SPECS)
    expect("definitions", list(specs.definitions), ["step", "Fine", "◌then◌", "Sort"])
    expect("a comment", specs.definitions["Fine"].comment, "it is fine")
    expect("a module's line", specs.definitions["Fine"].frame, "-- by a measure\nmodule _ {A : Type 0}\n    (f : A → ℕ) where")
    expect("constructors", sorted(specs.constructors), ["high", "low"])
    expect("what is passed on", specs.passed_on, {"Near": "Rattle.rh_two.specs.Far"})
    base = antt.Specs("Rattle.rh_two.specs.Base", "-- the base\nabbrev pub base : ℕ → ℕ\nbase n = n\n")
    crates = {"rh_one": types.SimpleNamespace(name="rh_one", specs={specs.module: specs}, sources={}),
              "rh_two": types.SimpleNamespace(name="rh_two", specs={base.module: base}, sources={})}
    known = names.Names(crates)
    cited = lambda name: [it.name for _, _, it in known.in_specs(specs.definitions[name].code(), specs)]
    expect("what a definition cites", [cited("step"), cited("Fine")], [["step", "step", "base"], ["Fine", "step"]])
    expect("an operator", {it.name for _, _, it in known.in_specs("n then m", specs)}, {"◌then◌"})


def try_texts():
    expect("what isn't code", masking.masked("a // b\n'x' \"y\" <'a>"), "a     \n        <'a>")
    expect("a bracket", masking.closing("f(a[b], {c}) d", 1), 12)
    expect("an angle", masking.closing_angle("<A: Fn() -> B, C<D>> e", 0), 20)
    shown = quoting.quote('pub fn f(x: "<") // y', [(7, 8, "f")], lambda target: "#" + target)
    expect("code", shown, '<span class="k">pub</span> <span class="k">fn</span> <a href="#f">f</a>(x: <span class="s">&quot;&lt;&quot;</span>) <span class="c">// y</span>')


def faults():
    """A line for each case that fails."""
    for case in (try_sources, try_definitions, try_texts):
        case()
    return [f"tools/doc/self_check.py: {it}" for it in failed]


if __name__ == "__main__":
    sys.exit("\n".join(faults()) or 0)
