//! How much stack the calls need: the least is measured, printed, and held against `slider::STACK`.
//!
//!     rust/test --test stack -- --nocapture

mod common;

use slider::*;
use std::process::Stdio;

/// A name, and a call that reaches as deep as any of its kind: did it answer what it should?
type Call = (&'static str, fn() -> bool);

const CALLS: [Call; 7] = [
    ("search", || search(Kind::Rook, Square::A1, 1, 5).is_err()),
    ("build", || Tables::build_with(1, 5, ALL_SLOTS).is_err()),
    ("build, whole", || Tables::build(1).is_ok()),
    ("build from multipliers", || Tables::from_multipliers(&[0; BLOCKS], ALL_SLOTS).is_err()),
    ("build in lent memory", || build(1, 5, &mut [0; 64], &mut [0; 64]).outcome.is_err()),
    ("audit", || audit(&[Record::default(); BLOCKS], &[]).is_err()),
    ("batch", || moves_batch(&[Record::default(); BLOCKS], &[], &[0], &[0], &[0], &mut [0], &mut [0]) == 1),
];

const PAGE: usize = 4096;

/// Does the call end well on a stack of so many pages? An overflow ends a process, so each is tried in one of its own.
fn enough(call: usize, pages: usize) -> bool {
    let mut command = common::command(std::env::current_exe().unwrap());
    command.args(["--exact", "one_call"]).env("STACK_OF", format!("{call} {pages}"));
    command.stdout(Stdio::null()).stderr(Stdio::null());
    command.status().unwrap().success()
}

#[test]
fn one_call() {
    let words = match std::env::var("STACK_OF") {
        Ok(words) => words,
        Err(_) => return, // not asked
    };
    let mut numbers = words.split(' ').map(|word| word.parse::<usize>().unwrap());
    let (call, pages) = (CALLS[numbers.next().unwrap()].1, numbers.next().unwrap());
    assert!(std::thread::Builder::new().stack_size(pages * PAGE).spawn(call).unwrap().join().unwrap());
}

/// A third of `STACK` at least is left over.
#[test]
fn least_stacks() {
    for (call, (name, _)) in CALLS.iter().enumerate() {
        let (mut too_few, mut pages) = (3, STACK / PAGE);
        assert!(enough(call, pages), "{name}: STACK is too small");
        while pages - too_few > 1 {
            let middle = (pages + too_few) / 2;
            if enough(call, middle) {
                pages = middle;
            } else {
                too_few = middle;
            }
        }
        println!("{name:24} {} KiB", pages * PAGE / 1024);
        assert!(pages * PAGE * 3 <= STACK * 2, "{name}: {pages} pages");
    }
}
