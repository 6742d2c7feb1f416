//! Runs the traces of the repository's examples, and compares the answers with those beside them,
//! which are what the program `rheap run` prints. A trace that no call runs is left out, and named.
//! examples/c/check chooses by the same rules (`way_of`).

use rheap::{run, run_paced, TraceError};
use std::fs;
use std::num::NonZeroU32;
use std::path::{Path, PathBuf};

/// Why a trace is left out that asks for `--grow`.
const GROWS: &str = "no call runs a trace on a heap that grows";

/// Why a trace is left out that asks for a view of its run, and has answers.
const VIEWED: &str = "the answers beside it are a view of the run, which no call gives";

/// A call that runs a whole trace.
#[derive(Clone, Copy)]
enum Call {
    Run,
    RunPaced(Option<NonZeroU32>),
}

/// The folder of the examples: the one that `RHEAP_EXAMPLES` names, that of the repository that the
/// crate is in, or that of the installation, which has two traces.
fn examples() -> PathBuf {
    if let Some(folder) = std::env::var_os("RHEAP_EXAMPLES") {
        return folder.into();
    }
    let here = Path::new(env!("CARGO_MANIFEST_DIR"));
    let whole = here.join("../../../examples");
    if whole.is_dir() {
        whole
    } else {
        here.join("../../doc/rheap/examples")
    }
}

/// The traces of the examples, in order of their names.
fn traces() -> Vec<PathBuf> {
    let folder = examples();
    let files = fs::read_dir(&folder).unwrap_or_else(|e| {
        let folder = folder.display();
        panic!("{folder}: {e}: set RHEAP_EXAMPLES to the examples of a clone of rheap")
    });
    let paths = files.map(|file| file.expect("a file has a path").path());
    let mut traces: Vec<PathBuf> = paths
        .filter(|path| path.extension().is_some_and(|end| end == "trace"))
        .collect();
    traces.sort();
    traces
}

/// Whether the program tells a fault of the trace, in place of answers.
fn has_fault(trace: &Path) -> bool {
    trace.with_extension("told").exists()
}

/// The call that runs a trace as its options ask, or why none does.
///
/// A call doesn't tell what a fault is. So what only tells it in another way is passed over:
/// `--explain`, and a view of a fault.
fn call_for(trace: &Path) -> Result<Call, &'static str> {
    let file = trace.with_extension("options");
    let options = fs::read_to_string(&file).unwrap_or_default();
    let mut call = Call::Run;
    let mut why = None;
    for option in options.split("--").map(str::trim) {
        match option.split_once(' ').unwrap_or((option, "")) {
            ("" | "explain", "") => {}
            ("paced", "") => call = Call::RunPaced(None),
            ("mark", mark) => {
                let mark = mark.parse().expect("a mark is a number above 0");
                call = Call::RunPaced(Some(mark));
            }
            ("grow", _) => why = why.or(Some(GROWS)),
            ("echo" | "json", "") | ("history" | "cycles", "-") => {
                why = why.or((!has_fault(trace)).then_some(VIEWED));
            }
            _ => panic!("{}: the option --{option} isn't known here", file.display()),
        }
    }
    why.map_or(Ok(call), Err)
}

/// Makes the call, and compares what it returns with what stands beside the trace.
fn play(trace: &Path, call: Call) {
    let text = fs::read(trace).expect("the trace is there");
    let got = match call {
        Call::Run => run(&text),
        Call::RunPaced(mark) => run_paced(&text, mark),
    };
    let due = if has_fault(trace) {
        Err(TraceError::Fault)
    } else {
        Ok(fs::read(trace.with_extension("answers")).expect("the answers are there"))
    };
    assert_eq!(got, due, "{}", trace.display());
}

/// What is left out is printed, and bindings/rust/check prints it again.
#[test]
fn the_examples_are_answered_as_the_program_does() {
    let (mut plain, mut paced, mut faults) = (0, 0, 0);
    for trace in traces() {
        let call = match call_for(&trace) {
            Ok(call) => call,
            Err(why) => {
                let name = trace.file_name().expect("a trace has a name");
                println!("{} is left out: {why}", name.to_string_lossy());
                continue;
            }
        };
        play(&trace, call);
        match call {
            _ if has_fault(&trace) => faults += 1,
            Call::Run => plain += 1,
            Call::RunPaced(_) => paced += 1,
        }
    }
    let is_installed = examples().join("../c.md").exists();
    assert!(
        plain >= 40 && paced >= 3 && faults >= 13
            || is_installed && (plain, paced, faults) == (1, 1, 0),
        "{plain} {paced} {faults}"
    );
}

/// Of 1024 words 160 are allocated. So less than 1 is never free, and less than 1024 after the first
/// allocation.
#[test]
fn a_mark_says_when_a_cycle_begins() {
    let mut trace = String::from("heap 1024 32 64 1 1\n");
    for _ in 0..40 {
        trace += "0 alloc 0.0 2\n";
    }
    let flips = |mark| {
        let answers = run_paced(trace.as_bytes(), NonZeroU32::new(mark)).expect("it is answered");
        let answers = String::from_utf8(answers).expect("answers are ASCII");
        let total = answers.lines().last().expect("there is a total line");
        let mut words = total.split(' ').skip_while(|word| *word != "flips");
        words.nth(1).and_then(|flips| flips.parse::<u32>().ok())
    };
    assert_eq!(flips(1), Some(0));
    assert!(flips(1024) > Some(0));
}

#[test]
fn an_empty_trace_is_a_fault() {
    assert_eq!(run(b""), Err(TraceError::Fault));
    assert_eq!(run_paced(b"", None), Err(TraceError::Fault));
    assert_eq!(
        TraceError::Fault.to_string(),
        "the trace has a fault, or no pace keeps up with it"
    );
}
