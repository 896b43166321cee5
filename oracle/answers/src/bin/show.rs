//! Shows what the Rust does with one formula.
//!
//! `show '\f xy' f=fixed2` prints the token, shape and state rows, the tree, the rows
//! in the order of writing with their places, and what was dropped, or the refusal.
//! `--room N` gives a tree buffer of N numbers. `--treelist` prints the answer alone, as
//! `treelist` does; `--sheet` writes the sheet that `treelist` reads.

use std::io::{self, Write as _};
use std::process::ExitCode;

use answers::{names, with_deep_stack, Run, Spec};
use sheet::{listing, Answer, Row, LEAF, START};
use tape::Write;

enum Wanted {
    Everything,
    Listing,
    Sheet,
}

struct Asked {
    formula: String,
    spec: Spec,
    room: usize,
    wanted: Wanted,
}

fn asked() -> Result<Asked, String> {
    let mut asked = Asked {
        formula: String::new(),
        spec: Spec::default(),
        room: usize::MAX,
        wanted: Wanted::Everything,
    };
    let mut words = std::env::args().skip(1);
    asked.formula = words.next().ok_or("usage: show FORMULA [NAME=FORM]..")?;
    while let Some(word) = words.next() {
        match word.as_str() {
            "--treelist" => asked.wanted = Wanted::Listing,
            "--sheet" => asked.wanted = Wanted::Sheet,
            "--room" => {
                let numbers = words.next().and_then(|n| n.parse::<usize>().ok());
                asked.room = Row::room(numbers.ok_or("--room wants a count of numbers")?);
            }
            _ => asked.spec.shapes.push(word.parse()?),
        }
    }
    Ok(asked)
}

fn main() -> ExitCode {
    match asked().and_then(|asked| with_deep_stack(move || show(&asked))) {
        Ok(()) => ExitCode::SUCCESS,
        Err(why) => {
            eprintln!("show: {why}");
            ExitCode::FAILURE
        }
    }
}

fn show(asked: &Asked) -> Result<(), String> {
    let run = Run::of(&asked.formula, &asked.spec).map_err(|fault| fault.to_string())?;
    let answer = run.answer(asked.room);
    match asked.wanted {
        Wanted::Everything => everything(asked, &run, &answer),
        Wanted::Listing => print!("{}", listing(&answer)),
        Wanted::Sheet => {
            let written = io::stdout().write_all(&run.tables.sheet());
            written.map_err(|error| error.to_string())?;
        }
    }
    Ok(())
}

fn everything(asked: &Asked, run: &Run, answer: &Answer) {
    tables(&asked.formula, run, &asked.spec);
    writes(&asked.formula, run);
    print!("\nanswer\n{}", listing(answer));
    if let Answer::Accepted { .. } = answer {
        println!("\ntree");
        tree(&asked.formula, run);
    }
}

fn part(formula: &str, start: u32, len: u32) -> &str {
    &formula[start as usize..(start + len) as usize]
}

fn tables(formula: &str, run: &Run, spec: &Spec) {
    println!("tokens: kind start length shape");
    for (index, t) in run.tables.tokens().enumerate() {
        let name = names::token_kind(t.kind);
        let text = part(formula, t.start, t.len);
        let row = format!("{} {} {} {}", t.kind, t.start, t.len, t.shape);
        println!("{index:5}  {row:16} {name} {text:?}");
    }
    println!("\nshapes: class form value");
    for (index, named) in spec.shapes.iter().enumerate() {
        let s = run.tables.shape(index);
        println!(
            "{:5}  {} {} {}  {}",
            index + 1,
            s.class,
            s.form,
            s.value,
            named.name
        );
    }
    println!("\nstates: next for t b p");
    for index in 0..run.tables.state_count() {
        let [t, b, p] = run.tables.state(index);
        println!("{:5}  {t} {b} {p}", index + 1);
    }
}

fn writes(formula: &str, run: &Run) {
    println!("\nrows in the order of writing: place, row");
    for (index, (write, place)) in run.writes.iter().enumerate() {
        let row = match *write {
            Write::Start { kind } => format!("start {}", names::tree_kind(kind.into())),
            Write::Wrap { kind, mark } => {
                format!("wrap {} at child {mark}", names::tree_kind(kind.into()))
            }
            Write::Leaf {
                kind,
                start,
                len,
                token,
            } => format!(
                "leaf {} {start} {len} {:?} of token {token}",
                names::tree_kind(kind.into()),
                part(formula, start as u32, len as u32)
            ),
            Write::Finish => "finish".to_owned(),
        };
        println!("{index:5}  {place:5}  {row}");
    }
    println!("\nmost nodes open: {}", run.deepest);
    if let Some(place) = run.too_deep_place() {
        println!("a 129th at place {place}");
    }
}

fn tree(formula: &str, run: &Run) {
    let mut depth = 0;
    for row in &run.rows {
        let name = names::tree_kind(row.kind);
        match row.tag {
            START => {
                println!("{:depth$}{name}", "");
                depth += 2;
            }
            LEAF => println!(
                "{:depth$}{name} {:?}",
                "",
                part(formula, row.start, row.len)
            ),
            _ => depth -= 2,
        }
    }
}
