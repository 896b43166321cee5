//! One formula read by both builds.

use mitex_parser_recorded::Parser;
use mitex_spec::CommandSpec;
use sheet::{Answer, Dropped, Row, Tables, LEAF};
use tape::{MarkBeforeNode, Tape, Write};

use crate::fault::{message, End, Fault};
use crate::layout::layout;
use crate::plain::{self, plain_tree, PlainRow, Tree};
use crate::quiet::catch;
use crate::{token_rows, Spec, Verdicts};

/// What the Rust does with a formula.
#[derive(Debug)]
pub struct Run {
    pub tables: Tables,
    /// The plain build's own tree, or how it panicked.
    pub plain: Tree,
    pub end: End,
    /// The first token not wholly read when it ended.
    pub end_place: usize,
    /// The rows in the order of writing, each with its place.
    pub writes: Vec<(Write, usize)>,
    /// The tree and what was dropped; empty where there is no tree.
    pub rows: Vec<Row>,
    pub dropped: Vec<Dropped>,
    /// The greatest number of open nodes, root counted.
    pub deepest: usize,
    /// How many rows stood when a 129th node was opened.
    pub too_deep: Option<usize>,
}

impl Run {
    pub fn of(text: &str, spec: &Spec) -> Result<Self, Fault> {
        let tokens = token_rows(text, spec)?;
        let verdicts = Verdicts::of(spec);
        let plain = plain_tree(text, spec)?;
        let (end, tape) = recorded(text, spec.command_spec())?;
        check_verdicts(&verdicts, &tape)?;
        let rows = match end {
            End::Whole => layout(&tape.writes),
            _ => Vec::new(),
        };
        check_builds(text, &plain, end, &rows)?;
        if end == End::Whole && tape.place() != tokens.len() {
            return Err(Fault::Builds("tokens are left over".to_owned()));
        }
        Ok(Self {
            tables: Tables::new(
                text.as_bytes(),
                &tokens,
                &spec.rows(&verdicts),
                &verdicts.states,
            ),
            plain,
            end,
            end_place: tape.place(),
            rows,
            dropped: match end {
                End::Whole => dropped(&tape),
                _ => Vec::new(),
            },
            deepest: tape.deepest,
            too_deep: tape.too_deep,
            writes: tape.writes,
        })
    }

    /// The answer with room for that many rows. What comes first in time decides; at
    /// one opening 6 comes before 7 before 8.
    pub fn answer(&self, room: usize) -> Answer {
        let stopped = match self.end {
            End::Whole => None,
            End::GreedyEnvironment => Some((self.writes.len(), 5)),
            End::MarkBeforeNode => Some((self.writes.len(), 6)),
        };
        let too_deep = self.too_deep.map(|row| (row, 7));
        let no_room = (room < self.writes.len()).then_some((room, 8));
        match [stopped, too_deep, no_room].into_iter().flatten().min() {
            Some((row, number)) => Answer::Refused {
                number,
                place: self.place_of(row) as u32,
            },
            None => Answer::Accepted {
                rows: self.rows.clone(),
                dropped: self.dropped.clone(),
            },
        }
    }

    /// The place of the first opening that makes 129 open nodes.
    pub fn too_deep_place(&self) -> Option<usize> {
        self.too_deep.map(|row| self.place_of(row))
    }

    /// The place of a row by its number in the order of writing, or of the end.
    fn place_of(&self, row: usize) -> usize {
        self.writes
            .get(row)
            .map_or(self.end_place, |&(_, place)| place)
    }
}

fn recorded(text: &str, spec: CommandSpec) -> Result<(End, Tape), Fault> {
    tape::lay_in(text);
    let result = catch(|| {
        Parser::new(text, spec).parse();
    });
    let tape = tape::take_out();
    let end = match result {
        Ok(()) => End::Whole,
        Err(panic) if panic.is::<MarkBeforeNode>() => End::MarkBeforeNode,
        Err(panic) => match message(&*panic).as_str() {
            plain::GREEDY => End::GreedyEnvironment,
            other => return Err(Fault::Parser(format!("recorded: {other}"))),
        },
    };
    Ok((end, tape))
}

fn check_verdicts(verdicts: &Verdicts, tape: &Tape) -> Result<(), Fault> {
    for asked in &tape.asked {
        if verdicts.verdict(&asked.glob, &asked.path) != asked.verdict {
            return Err(Fault::Verdict(format!("{} on {}", asked.glob, asked.path)));
        }
    }
    Ok(())
}

fn check_builds(text: &str, plain: &Tree, end: End, rows: &[Row]) -> Result<(), Fault> {
    let same = match plain {
        Ok(plain) => {
            let told: Vec<PlainRow> = rows.iter().map(|row| with_text(text, row)).collect();
            end == End::Whole && *plain == told
        }
        Err(plain) => *plain == end,
    };
    match same {
        true => Ok(()),
        false => Err(Fault::Builds(format!(
            "plain {plain:?}, recorded {end:?} {rows:?}"
        ))),
    }
}

fn with_text(text: &str, row: &Row) -> PlainRow {
    let part = match row.tag {
        LEAF => &text[row.start as usize..(row.start + row.len) as usize],
        _ => "",
    };
    (row.tag, row.kind, part.to_owned())
}

fn dropped(tape: &Tape) -> Vec<Dropped> {
    let row = |v: &tape::Vanished| Dropped {
        token: v.token as u32,
        reason: v.reason,
        leaves: v.leaves as u32,
    };
    tape.vanished.iter().map(row).collect()
}
