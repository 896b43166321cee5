//! Times the port, the Rust's parser and a Vec of rows on the same tokens, and the port's
//! tokeniser and the Rust's lexer on the same text.
//!
//! `bench` prints a table with nanoseconds a token and then the ratios: of each workload
//! the worst over its sizes, and port/vec of those that move rows, each at one size. `bench
//! repeat RIVAL WORKLOAD TOKENS TIMES` runs one rival alone, for a profile. `bench stack`
//! prints how much stack the port needs. `bench tables WORKLOAD TOKENS` writes a workload's
//! tables, as a sheet has them and of any length.

use std::io::Write;
use std::process::ExitCode;
use std::time::Duration;

use answers::{with_deep_stack, Run};
use bench::{least_stack, read_on, Measured, Prepared, Rival, Workload, BINDER, WORKLOADS};

fn main() -> ExitCode {
    let words: Vec<String> = std::env::args().skip(1).collect();
    with_deep_stack(move || {
        let words: Vec<&str> = words.iter().map(String::as_str).collect();
        match words[..] {
            [] => all(Duration::from_millis(300)),
            ["quick"] => all(Duration::from_millis(30)),
            ["stack"] => stack(),
            ["stack", bytes] => bytes.parse().map_or(ExitCode::FAILURE, |bytes| {
                read_on(bytes);
                ExitCode::SUCCESS
            }),
            ["repeat", rival, name, tokens, times] => repeat(rival, name, tokens, times),
            ["tables", name, tokens] => tables(name, tokens),
            _ => {
                eprintln!("usage: bench [quick | stack | repeat RIVAL WORKLOAD TOKENS TIMES");
                eprintln!("              | tables WORKLOAD TOKENS]");
                ExitCode::FAILURE
            }
        }
    })
}

fn stack() -> ExitCode {
    let kib = least_stack() / 1024;
    println!("stack for 128 open nodes: {kib} KiB, of which a thread's own start takes a part");
    ExitCode::SUCCESS
}

/// One time to another.
type Ratio = fn(&Measured) -> f64;

/// What is printed of each workload, the worst over its sizes.
const RATIOS: [(&str, Ratio); 4] = [
    ("port/(whole - lexing)", Measured::port_to_rest),
    ("port/mitex", Measured::port_to_mitex),
    ("lex/mitex", Measured::lex_to_mitex),
    ("text/mitex", Measured::text_to_mitex),
];

/// The workloads that move rows, with the size at which each is held against the Vec. The
/// binder's ratio is the output's last line, which other pages name.
const TO_VEC: [(&str, usize); 3] = [("primes", 16_000), ("chain", 16_000), (BINDER, 10_000)];

fn all(span: Duration) -> ExitCode {
    println!(
        "nanoseconds a token, the least of many rounds: the port; mitex's parser on tokens made"
    );
    println!("before; the same with its lexer; that lexer alone; the same rows put into a Vec;");
    println!("the port's tokeniser; the port from the text to the tree");
    println!("workload   {}", Measured::HEADING);
    let measured: Vec<_> = WORKLOADS.iter().map(|w| (w, sizes(w, span))).collect();
    for (workload, measured) in &measured {
        let first = &measured[0];
        let last = &measured[measured.len() - 1];
        let growth = last.per_token(last.port) / first.per_token(first.port);
        println!("growth {} {growth:.2}", workload.name);
    }
    for (name, ratio) in RATIOS {
        for (workload, measured) in &measured {
            let worst = worst(measured, ratio);
            println!("ratio {} {name} {worst:.2}", workload.name);
        }
    }
    for (name, size) in TO_VEC {
        let of_name = measured.iter().find(|(workload, _)| workload.name == name);
        let (workload, measured) = of_name.expect("a workload of that name");
        let at = workload.sizes.iter().position(|&s| s == size);
        let ratio = measured[at.expect("a size of the workload")].port_to_vec();
        println!("ratio {name} port/vec {ratio:.2}");
    }
    ExitCode::SUCCESS
}

/// The greatest ratio over the sizes.
fn worst(measured: &[Measured], ratio: Ratio) -> f64 {
    measured.iter().map(ratio).fold(0.0, f64::max)
}

fn sizes(workload: &Workload, span: Duration) -> Vec<Measured> {
    let measure = |&tokens: &usize| {
        let measured = Prepared::new(workload, tokens).measure(span);
        println!("{:10} {measured}", workload.name);
        measured
    };
    workload.sizes.iter().map(measure).collect()
}

fn repeat(rival: &str, name: &str, tokens: &str, times: &str) -> ExitCode {
    let rival = Rival::ALL.iter().find(|(called, _)| *called == rival);
    let workload = WORKLOADS.iter().find(|workload| workload.name == name);
    match (rival, workload, tokens.parse(), times.parse()) {
        (Some(&(_, rival)), Some(workload), Ok(tokens), Ok(times)) => {
            let mut prepared = Prepared::new(workload, tokens);
            (0..times).for_each(|_| {
                prepared.once(rival);
            });
            ExitCode::SUCCESS
        }
        _ => ExitCode::FAILURE,
    }
}

fn tables(name: &str, tokens: &str) -> ExitCode {
    let workload = WORKLOADS.iter().find(|workload| workload.name == name);
    let (Some(workload), Ok(tokens)) = (workload, tokens.parse()) else {
        return ExitCode::FAILURE;
    };
    let run = Run::of(&workload.text(tokens), &workload.spec()).expect("a run");
    match std::io::stdout().write_all(&run.tables.sheet()) {
        Ok(()) => ExitCode::SUCCESS,
        Err(_) => ExitCode::FAILURE,
    }
}
