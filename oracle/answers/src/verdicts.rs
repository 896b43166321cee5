//! Verdict tables for glob shapes, made by asking `glob_match_prefix`.

use std::cell::RefCell;
use std::collections::HashMap;
use std::rc::Rc;

use mitex_glob::glob_match_prefix;
use sheet::State;

use crate::{Form, Spec};

/// What the matcher is told of an argument: a term, a bracket, a parenthesis.
const LETTERS: [char; 3] = ['t', 'b', 'p'];

/// How many letters ahead two strings are compared before they share a state. Without
/// a star nothing longer than the glob is accepted, so that its own length is enough.
fn look_ahead(glob: &str) -> usize {
    if glob.contains('*') {
        5
    } else {
        glob.len() + 1
    }
}

/// The tables of all globs of a specification, one behind the other.
#[derive(Debug, Default, Clone, PartialEq, Eq)]
pub struct Verdicts {
    pub states: Vec<State>,
    firsts: HashMap<String, u32>,
}

impl Verdicts {
    pub fn of(spec: &Spec) -> Self {
        let mut verdicts = Self::default();
        for shape in &spec.shapes {
            if let Form::Glob(glob) = &shape.form {
                verdicts.add(glob);
            }
        }
        verdicts
    }

    /// The first state of a glob's table.
    pub fn first(&self, glob: &str) -> u32 {
        self.firsts[glob]
    }

    /// What the table says of a string, all of whose shorter prefixes were accepted.
    pub fn verdict(&self, glob: &str, path: &str) -> bool {
        let mut state = self.first(glob);
        for letter in path.chars() {
            let column = LETTERS.iter().position(|&l| l == letter);
            state = self.states[state as usize - 1][column.expect("t, b or p")];
            if state == 0 {
                return false;
            }
        }
        true
    }

    fn add(&mut self, glob: &str) {
        let base = self.states.len() as u32;
        if !self.firsts.contains_key(glob) {
            self.firsts.insert(glob.to_owned(), base + 1);
            let moved = |next: u32| if next == 0 { 0 } else { base + next };
            let table = table(glob);
            self.states.extend(table.iter().map(|row| row.map(moved)));
        }
    }
}

thread_local! {
    /// Tables that were made before: formulas by the thousand have the same globs.
    static MADE: RefCell<HashMap<String, Rc<[State]>>> = RefCell::default();
}

fn table(glob: &str) -> Rc<[State]> {
    let made = MADE.with_borrow(|made| made.get(glob).cloned());
    made.unwrap_or_else(|| {
        let table: Rc<[State]> = made_table(glob).into();
        MADE.with_borrow_mut(|made| made.insert(glob.to_owned(), table.clone()));
        table
    })
}

/// A glob's table by itself, its first state 1. Each state has a string that leads to
/// it; another string that promises the same leads to the same state.
fn made_table(glob: &str) -> Vec<State> {
    let ahead = look_ahead(glob);
    let mut known = HashMap::from([(outlook(glob, "", ahead), 1)]);
    let mut strings = vec![String::new()];
    let mut states = Vec::new();
    while let Some(string) = strings.get(states.len()).cloned() {
        let mut row = [0; 3];
        for (next, letter) in row.iter_mut().zip(LETTERS) {
            let longer = format!("{string}{letter}");
            if glob_match_prefix(glob, &longer) {
                let fresh = strings.len() as u32 + 1;
                *next = *known.entry(outlook(glob, &longer, ahead)).or_insert(fresh);
                if *next == fresh {
                    strings.push(longer);
                }
            }
        }
        states.push(row);
    }
    states
}

/// The verdicts on all strings that begin with this one, some letters ahead. A string
/// that is not accepted is never made longer: the parser doesn't ask again.
fn outlook(glob: &str, string: &str, ahead: usize) -> Vec<bool> {
    let mut verdicts = Vec::new();
    if ahead > 0 {
        for letter in LETTERS {
            let longer = format!("{string}{letter}");
            let accepted = glob_match_prefix(glob, &longer);
            verdicts.push(accepted);
            if accepted {
                verdicts.extend(outlook(glob, &longer, ahead - 1));
            }
        }
    }
    verdicts
}
