//! What a list of cases reaches.

use std::collections::{BTreeMap, BTreeSet};
use std::fmt;

use answers::names;
use model::Slip;
use sheet::{Answer, Row, LEAF, START};

use crate::Case;

type Table = BTreeMap<String, usize>;

/// For each thing the number of cases in which it comes.
#[derive(Debug, Default, PartialEq, Eq)]
pub struct Counts {
    pub cases: usize,
    pub token_kinds: Table,
    pub forms: Table,
    pub scopes: Table,
    pub reasons: Table,
    pub answers: Table,
    /// For each slip the number of cases whose answer it changes.
    pub slips: Table,
}

impl Counts {
    pub fn of(cases: &[Case]) -> Self {
        let mut counts = Self::default();
        cases.iter().for_each(|case| counts.add(case));
        counts
    }

    fn add(&mut self, case: &Case) {
        self.cases += 1;
        let kinds = case.tables.tokens().map(|token| token.kind);
        add_all(&mut self.token_kinds, kinds.map(token_name));
        add_all(&mut self.forms, forms(case));
        let told = Slip::named().filter(|&slip| tells(case, slip));
        add_all(&mut self.slips, told.map(|slip| format!("{slip:?}")));
        match &case.answer {
            Answer::Refused { number, .. } => {
                add_all(&mut self.answers, [format!("refused {number}")]);
            }
            Answer::Accepted { rows, dropped } => {
                add_all(&mut self.answers, ["accepted".to_owned()]);
                add_all(&mut self.scopes, scopes(rows));
                let reasons = dropped.iter().map(|d| format!("dropped for {}", d.reason));
                add_all(&mut self.reasons, reasons);
            }
        }
    }
}

fn add_all(table: &mut Table, names: impl IntoIterator<Item = String>) {
    let names: BTreeSet<String> = names.into_iter().collect();
    names
        .into_iter()
        .for_each(|name| *table.entry(name).or_default() += 1);
}

fn tells(case: &Case, slip: Slip) -> bool {
    model::answer(&case.tables, case.room as usize, Some(slip)) != case.answer
}

fn token_name(kind: u32) -> String {
    format!("{kind:2} {}", names::token_kind(kind))
}

/// The forms of the shapes that tokens have and that their kinds take.
fn forms(case: &Case) -> Vec<String> {
    let taken = |kind: u32, class: u32| match class {
        1 => matches!(kind, 26 | 35 | 36 | 37 | 39),
        _ => kind == 27,
    };
    let mut forms = Vec::new();
    for token in case.tables.tokens().filter(|token| token.shape > 0) {
        let shape = case.tables.shape(token.shape as usize - 1);
        if taken(token.kind, shape.class) {
            let form = names::form(shape.form);
            forms.push(format!("class {} {} {form}", shape.class, shape.form));
        } else {
            forms.push("a shape that is not looked at".to_owned());
        }
    }
    forms
}

fn scopes(rows: &[Row]) -> Vec<String> {
    let mut scopes = Vec::new();
    for (row, next) in rows.iter().zip(&rows[1..]) {
        let name = match (row.tag, row.kind) {
            (START, 44) => "Root",
            (START, 43) if next.tag == LEAF && next.kind == 14 => "Dollar",
            (START, 43) => "Cmd",
            (START, 36) => "Environment",
            (START, 37) => "LR",
            (START, 32) => "Curly",
            (START, 33) => "Bracket",
            (START, 34) => "Paren",
            _ => continue,
        };
        scopes.push(name.to_owned());
    }
    scopes
}

impl fmt::Display for Counts {
    fn fmt(&self, f: &mut fmt::Formatter<'_>) -> fmt::Result {
        writeln!(f, "{:6}  cases", self.cases)?;
        let tables = [
            ("answer", &self.answers),
            ("scope (accepted cases)", &self.scopes),
            ("form", &self.forms),
            ("dropped (accepted cases)", &self.reasons),
            ("token kind", &self.token_kinds),
            ("slip that it tells", &self.slips),
        ];
        for (name, table) in tables {
            writeln!(f, "\nby {name}")?;
            for (thing, count) in table {
                writeln!(f, "{count:6}  {thing}")?;
            }
        }
        Ok(())
    }
}
