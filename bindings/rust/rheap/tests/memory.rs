//! Memory that is refused, and memory that a drop gives back. Both are tried in a process of their
//! own, whose address space `ulimit -v` bounds: this test program again, for one of its tests.

use rheap::{Error, Heap, Sizes};
use std::env;
use std::process::Command;

/// Two spaces of 16 MB, and the log.
const SIZES: Sizes = Sizes {
    words: 1 << 20,
    biggest: 4,
    ratio: 32,
    owners: 1,
    slots: 1,
};

/// Two spaces of 256 MB.
const HUGE: Sizes = Sizes {
    words: 1 << 24,
    ..SIZES
};

/// Plays the test `name`, which is ignored otherwise, in 300 MB.
fn bounded(name: &str) {
    let program = env::current_exe().expect("the program has a path");
    let played = Command::new("sh")
        .args(["-c", "ulimit -v 300000 && exec \"$@\"", "sh"])
        .arg(program)
        .args(["--exact", name, "--ignored", "--test-threads=1"])
        .output()
        .expect("sh is there");
    let said = String::from_utf8_lossy(&played.stdout).into_owned()
        + &String::from_utf8_lossy(&played.stderr);
    assert!(played.status.success(), "{said}");
    assert!(said.contains("1 passed"), "{said}");
}

#[test]
fn refused_memory_is_an_error() {
    bounded("play_refused_memory");
}

#[test]
#[ignore = "played by refused_memory_is_an_error"]
fn play_refused_memory() {
    // One space fits in the bound, two don't. If the first were kept where the second is refused, the
    // heap after these would have no room.
    for _ in 0..20 {
        let refused = Heap::sized(HUGE).unwrap_err();
        assert_eq!(refused, Error::NoMemory);
        assert!(refused.is_limit());
        assert_eq!(refused.to_string(), "memory was refused");
    }
    assert!(Heap::sized(SIZES).is_ok());
    assert_eq!(Heap::sized_for(HUGE, 1000).unwrap_err(), Error::NoMemory);
    let mut heap = Heap::sized(SIZES).expect("there is room for two small spaces");
    let before = (heap.stat(), heap.pace());
    for _ in 0..20 {
        assert_eq!(heap.resize(HUGE.words, 4), Err(Error::NoMemory));
        assert_eq!(heap.resize_for(HUGE.words, 1000, 4), Err(Error::NoMemory));
        assert_eq!((heap.stat(), heap.pace()), before);
        assert_eq!(heap.sizes(), SIZES);
    }
    heap.resize(1 << 19, 4).expect("fewer words take no memory");
}

#[test]
fn a_drop_gives_the_memory_back() {
    bounded("play_drops");
}

#[test]
#[ignore = "played by a_drop_gives_the_memory_back"]
fn play_drops() {
    let heaps: Vec<_> = (0..20).map(|_| Heap::sized(SIZES)).collect();
    assert!(heaps.iter().any(Result::is_err), "the bound is no bound");
    drop(heaps);
    for _ in 0..200 {
        assert!(Heap::sized(SIZES).is_ok());
    }
}
