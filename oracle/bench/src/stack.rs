//! How much stack the port needs for as many open nodes as there may be.

use std::process::{Command, Stdio};
use std::thread;

use answers::Run;
use cases::around_limits;
use sheet::{Row, Tables};

/// Stacks are tried in steps of this many bytes.
const STEP: usize = 4096;

/// More rows than a token of those formulas makes on the way to their deepest node.
const ROWS_A_TOKEN: usize = 16;

/// The smallest stack, in bytes, on which a process of its own reads each formula around
/// 128 open nodes. Too small a one ends that process by a signal.
pub fn least_stack() -> usize {
    let program = std::env::current_exe().expect("this program");
    let reads = |steps: usize| {
        let mut again = Command::new(&program);
        again.args(["stack", &(steps * STEP).to_string()]);
        let status = again.stderr(Stdio::null()).status();
        status.expect("this program again").success()
    };
    let (mut too_small, mut enough) = (4, 4096);
    while enough - too_small > 1 {
        let middle = (too_small + enough) / 2;
        match reads(middle) {
            true => enough = middle,
            false => too_small = middle,
        }
    }
    enough * STEP
}

/// Reads the formulas on a stack of so many bytes; the rest of the work has its own.
pub fn read_on(bytes: usize) {
    let runs = around_limits().into_iter();
    let tables: Vec<Tables> = runs
        .filter_map(|(text, spec)| Run::of(&text, &spec).ok())
        .map(|run| run.tables)
        .collect();
    let read = move || {
        for tables in tables {
            let mut tree = vec![0; Row::WIDTH * ROWS_A_TOKEN * (tables.token_count() + 1)];
            let mut dropped = vec![0; 3 * tables.token_count()];
            let _ = port::run(&tables, &mut tree, &mut dropped);
        }
    };
    let thread = thread::Builder::new().stack_size(bytes).spawn(read);
    thread.expect("a thread").join().expect("no panic");
}
