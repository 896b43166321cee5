//! One formula held against the Rust, at some rooms.

use answers::{formula_questions, PlainRow, Run, Spec};
use cases::dice::Dice;
use sheet::{listing, Answer, Ran, Row, Tables, START};

/// A run over lent buffers: the port's, or in tests one that is wrong on purpose.
pub type Runner<'r> = &'r dyn Fn(&Tables, &mut [u32], &mut [u32]) -> Ran;

/// Whether a formula is display, inline, valid, whole.
pub type Questions = [bool; 4];

/// Who answers about a row of a tree over a text: the port, or in tests one that is wrong on
/// purpose.
pub type Asked<'a> = &'a dyn Fn(&[u8], &[u32], usize) -> Questions;

/// What is held against the Rust.
#[derive(Clone, Copy)]
pub struct Held<'h> {
    pub run: Runner<'h>,
    pub asked: Asked<'h>,
}

impl Held<'static> {
    /// The proved library.
    pub const PORT: Self = Self {
        run: &port::run,
        asked: &|text, tree, at| {
            [
                port::is_display(text, tree, at),
                port::is_inline(text, tree, at),
                port::is_valid(text, tree, at),
                port::is_whole(text, tree, at),
            ]
        },
    };
}

/// At which rooms, in rows, a formula is run.
pub enum Rooms<'d> {
    /// Every one: for small formulas, and for cutting one down.
    All,
    /// All that the formula needs, one more, and one fewer by chance.
    Some(&'d mut Dice),
}

/// Up to this many rows, every room is tried.
const SMALL: usize = 40;

impl Rooms<'_> {
    fn of(self, rows: usize) -> Vec<usize> {
        match self {
            Rooms::Some(dice) if rows > SMALL => vec![dice.below(rows), rows, rows + 1],
            _ => (0..=rows + 1).collect(),
        }
    }
}

/// What both buffers hold before a run.
const BEFORE: u32 = 0xdead_beef;

/// The kind of a formula's node.
const FORMULA: u32 = 43;

/// What was the same: how many answers, and what was answered about each formula of the tree
/// with room enough.
#[derive(Debug, Default, PartialEq, Eq)]
pub struct Same {
    pub answers: usize,
    pub formulas: Vec<Questions>,
}

/// The first difference between what is held and the Rust, with both answers, or what was the
/// same.
pub fn difference(
    run: &Run,
    text: &str,
    spec: &Spec,
    rooms: Rooms,
    held: Held,
) -> Result<Same, String> {
    let mut same = Same::default();
    for room in rooms.of(run.writes.len()) {
        same.formulas = answer_differs(run, text, spec, room, held)?;
        same.answers += 1;
    }
    Ok(same)
}

fn answer_differs(
    run: &Run,
    text: &str,
    spec: &Spec,
    room: usize,
    held: Held,
) -> Result<Vec<Questions>, String> {
    let mut tree = vec![BEFORE; Row::numbers_for(room)];
    let mut dropped = vec![BEFORE; 3 * run.tables.token_count()];
    let ran = (held.run)(&run.tables, &mut tree, &mut dropped);
    let told = Answer::of(ran, &tree, &dropped);
    let rust = run.answer(room);
    if told != rust {
        let row = rows_differ(&rust, &told);
        let (rust, told) = (listing(&rust), listing(&told));
        return Err(format!(
            "room {room}\nthe Rust: {rust}the port: {told}{row}"
        ));
    }
    buffers_differ(&told, &tree, &dropped)?;
    match &told {
        Answer::Accepted { rows, .. } => {
            texts_differ(run, text, rows, &tree)?;
            questions_differ(text, spec, rows, &tree, held.asked)
        }
        Answer::Refused { .. } => Ok(Vec::new()),
    }
}

/// The first row that differs, as a listing has no line for a finish.
fn rows_differ(rust: &Answer, told: &Answer) -> String {
    let (Answer::Accepted { rows: rust, .. }, Answer::Accepted { rows: told, .. }) = (rust, told)
    else {
        return String::new();
    };
    let mut pairs = rust.iter().zip(told).enumerate();
    match pairs.find(|(_, (rust, told))| rust != told) {
        Some((at, (rust, told))) => {
            format!("row {at} of the Rust: {rust:?}\nrow {at} of the port: {told:?}")
        }
        None => String::new(),
    }
}

/// Behind the rows all is as it was; a refusal leaves zeros.
fn buffers_differ(told: &Answer, tree: &[u32], dropped: &[u32]) -> Result<(), String> {
    let (from, left) = match told {
        Answer::Accepted { rows, dropped } => {
            ([Row::WIDTH * rows.len(), 3 * dropped.len()], BEFORE)
        }
        Answer::Refused { .. } => ([0, 0], 0),
    };
    let [tree, dropped] = [&tree[from[0]..], &dropped[from[1]..]];
    match tree.iter().chain(dropped).all(|&number| number == left) {
        true => Ok(()),
        false => Err(format!("the buffers don't hold {left} where they should")),
    }
}

/// The plain build's rows have no places but texts: the port's question gives the same.
fn texts_differ(run: &Run, text: &str, rows: &[Row], tree: &[u32]) -> Result<(), String> {
    let plain = run
        .plain
        .as_ref()
        .map_err(|end| format!("the Rust: {end:?}"))?;
    let of_row = |(at, row): (usize, &Row)| {
        let part = port::leaf_text(text.as_bytes(), tree, at);
        (
            row.tag,
            row.kind,
            String::from_utf8_lossy(part).into_owned(),
        )
    };
    let told: Vec<PlainRow> = rows.iter().enumerate().map(of_row).collect();
    match told == *plain {
        true => Ok(()),
        false => Err(format!("the Rust: {plain:?}\nthe port: {told:?}")),
    }
}

fn questions_differ(
    text: &str,
    spec: &Spec,
    rows: &[Row],
    tree: &[u32],
    asked: Asked,
) -> Result<Vec<Questions>, String> {
    let starts = |(at, row): (usize, &Row)| (row.tag == START && row.kind == FORMULA).then_some(at);
    let formulas: Vec<usize> = rows.iter().enumerate().filter_map(starts).collect();
    if formulas.is_empty() {
        return Ok(Vec::new());
    }
    let ask = |at: usize| asked(text.as_bytes(), tree, at);
    let told: Vec<Questions> = formulas.into_iter().map(ask).collect();
    let rust = formula_questions(text, spec);
    match told == rust {
        true => Ok(told),
        false => Err(format!(
            "display, inline, valid, whole: {rust:?}\nthe port: {told:?}"
        )),
    }
}
