//! The recorded list.

use std::collections::HashSet;

use answers::{Fault, Run, Spec};
use sheet::{Answer, Row, SHEET_BYTES, TREE_ROWS};

use crate::arguments::in_every_scope;
use crate::dice::Dice;
use crate::limits::{many_arguments, nestings};
use crate::named::{comment_formulas, paper_formulas, FULL_ROOM};
use crate::parts::{shapes_of_kinds, used_shapes, usual_shapes};
use crate::stream::by_chance;
use crate::{sequences, Case};

/// The size that the list in the repository may have.
pub const MOST_BYTES: usize = 3_400_000;

/// The seed of the list in the repository.
pub const SEED: u64 = 20_240_117;

/// All cases in their order: the named formulas, then the generators' cases.
pub fn recorded_list(seed: u64) -> Vec<Case> {
    let mut list = List::default();
    for formula in paper_formulas().iter().chain(&comment_formulas()) {
        let run = formula.run().expect("a named formula has an answer");
        list.push(&run, formula.room);
    }
    let mut dice = Dice::new(seed);
    list.add_short_sequences();
    list.add_rooms(&mut dice);
    list.add_limits(&mut dice);
    list.add_by_chance(&mut dice);
    list.cases
}

#[derive(Default)]
struct List {
    cases: Vec<Case>,
    seen: HashSet<(Vec<u8>, u32)>,
}

impl List {
    /// Adds a formula with its used shapes, unless it is there already, is too large
    /// for `treelist`, or lies outside the domain.
    fn add(&mut self, text: &str, spec: &Spec) -> bool {
        match self.run(text, spec) {
            Some(run) => self.add_with_room(&run, FULL_ROOM),
            None => false,
        }
    }

    fn run(&self, text: &str, spec: &Spec) -> Option<Run> {
        let run = used_shapes(text, spec).and_then(|spec| Run::of(text, &spec));
        match run {
            Ok(run) => Some(run),
            Err(Fault::Lexer(_)) => None,
            Err(fault) => panic!("{text:?}: {fault}"),
        }
    }

    fn add_with_room(&mut self, run: &Run, room: u32) -> bool {
        let sheet = run.tables.sheet();
        let fits = sheet.len() <= SHEET_BYTES && run.writes.len() <= TREE_ROWS;
        let adds = fits && !self.seen.contains(&(sheet, room));
        if adds {
            self.push(run, room);
        }
        adds
    }

    fn push(&mut self, run: &Run, room: u32) {
        self.seen.insert((run.tables.sheet(), room));
        self.cases.push(Case::of(run, room));
    }

    /// Every sequence of two parts or fewer, every part in every scope, and commands
    /// that are kinds of their own with a shape.
    fn add_short_sequences(&mut self) {
        for text in (0..=2).flat_map(sequences::all).chain(in_every_scope()) {
            self.add(&text, &usual_shapes());
        }
        for kind in [
            "\\if",
            "\\else",
            "\\fi",
            "\\right",
            "\\@ifstar",
            "\\left",
            "\\iffalse",
        ] {
            for (before, after) in [("", "12"), ("{}", "[1]2"), ("1_", "{}_"), ("^1", "\\fi3")] {
                self.add(&format!("{before}{kind}{after}"), &shapes_of_kinds());
            }
        }
    }

    /// Short formulas at every room up to what they need: one row short at every row.
    fn add_rooms(&mut self, dice: &mut Dice) {
        for formula in paper_formulas() {
            let run = formula.run().expect("a named formula has an answer");
            if run.writes.len() <= MOST_ROOMS {
                self.add_every_room(&run);
            }
        }
        let mut formulas = 0;
        while formulas < ROOM_FORMULAS {
            let (text, spec) = by_chance(dice, 8);
            let Some(run) = self.run(&text, &spec) else {
                continue;
            };
            if (8..=MOST_ROOMS).contains(&run.writes.len()) {
                self.add_every_room(&run);
                formulas += 1;
            }
        }
    }

    /// Room for every count of rows, and one number less each time, which makes a row less.
    fn add_every_room(&mut self, run: &Run) {
        for rows in 0..=run.writes.len() {
            let room = (Row::WIDTH * rows) as u32;
            for room in [room.saturating_sub(1), room] {
                self.add_with_room(run, room);
            }
        }
    }

    fn add_limits(&mut self, dice: &mut Dice) {
        for text in nestings() {
            if dice.once_in(5) {
                self.add(&text, &usual_shapes());
            }
        }
        for (text, spec) in many_arguments() {
            if dice.once_in(3) {
                self.add(&text, &spec);
            }
        }
    }

    fn add_by_chance(&mut self, dice: &mut Dice) {
        for (count, most) in BY_CHANCE {
            let mut added = 0;
            while added < count {
                let (text, spec) = by_chance(dice, most);
                added += usize::from(self.add(&text, &spec));
            }
        }
        self.add_refused(dice);
    }

    /// Refusals 5 and 6 are rare by chance, so they are looked for.
    fn add_refused(&mut self, dice: &mut Dice) {
        let mut wanted = [0, 0, 0, 0, 0, 60, 60];
        while wanted.iter().any(|&left| left > 0) {
            let (text, spec) = by_chance(dice, 40);
            let Some(run) = self.run(&text, &spec) else {
                continue;
            };
            if let Answer::Refused { number, .. } = run.answer(TREE_ROWS) {
                let left = wanted.get_mut(number as usize).filter(|left| **left > 0);
                if let Some(left) = left {
                    *left -= usize::from(self.add_with_room(&run, FULL_ROOM));
                }
            }
        }
    }
}

/// How many formulas by chance are recorded at every room, and of how many rows at most.
const ROOM_FORMULAS: usize = 80;
const MOST_ROOMS: usize = 24;

/// How many formulas by chance, of how many parts at most.
const BY_CHANCE: [(usize, usize); 4] = [(3_000, 8), (1_200, 30), (60, 200), (12, 1_200)];
