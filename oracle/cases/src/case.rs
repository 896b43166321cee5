//! A recorded case and its bytes.

use answers::Run;
use sheet::{Answer, Bytes, Dropped, Row, Tables, Unread, LEAF};

/// Tables, a room, and the whole answer to expect.
#[derive(Debug, Clone, PartialEq, Eq)]
pub struct Case {
    pub tables: Tables,
    /// The length of the tree buffer in numbers.
    pub room: u32,
    pub answer: Answer,
}

impl Case {
    pub fn of(run: &Run, room: u32) -> Self {
        Self {
            tables: run.tables.clone(),
            room,
            answer: run.answer(Row::room(room as usize)),
        }
    }

    fn bytes(&self) -> Vec<u8> {
        let mut bytes = Bytes::default();
        bytes.section(&self.tables.sheet());
        bytes.u32(self.room);
        match &self.answer {
            Answer::Refused { number, place } => {
                bytes.u32(*number);
                bytes.u32(*place);
            }
            Answer::Accepted { rows, dropped } => {
                bytes.u32(0);
                bytes.u32(rows.len() as u32);
                bytes.u32(dropped.len() as u32);
                rows.iter().for_each(|row| write_row(&mut bytes, row));
                dropped.iter().for_each(|d| write_dropped(&mut bytes, d));
            }
        }
        bytes.0
    }
}

fn write_row(bytes: &mut Bytes, row: &Row) {
    bytes.u8(64 * row.tag + row.kind);
    bytes.u16(row.token);
    if row.tag == LEAF {
        bytes.u16(row.start);
        bytes.u16(row.len);
    }
}

fn write_dropped(bytes: &mut Bytes, dropped: &Dropped) {
    bytes.u16(dropped.token);
    bytes.u8(dropped.reason);
    bytes.u32(dropped.leaves);
}

/// The list's bytes: case after case, each behind its length.
pub fn write_list(cases: &[Case]) -> Vec<u8> {
    let mut list = Bytes::default();
    cases.iter().for_each(|case| list.section(&case.bytes()));
    list.0
}

/// The cases of a list's bytes, which must be whole.
pub fn read_list(bytes: &[u8]) -> Vec<Case> {
    let mut list = Unread(bytes);
    let mut cases = Vec::new();
    while !list.0.is_empty() {
        let mut case = Unread(list.section().expect("a whole list"));
        cases.push(read_case(&mut case).expect("a whole case"));
        assert!(case.0.is_empty(), "a case ends where its length says");
    }
    cases
}

fn read_case(bytes: &mut Unread) -> Option<Case> {
    Some(Case {
        tables: Tables::of_sheet(bytes.section()?)?,
        room: bytes.number(4)?,
        answer: read_answer(bytes)?,
    })
}

fn read_answer(bytes: &mut Unread) -> Option<Answer> {
    let number = bytes.number(4)?;
    if number > 0 {
        let place = bytes.number(4)?;
        return Some(Answer::Refused { number, place });
    }
    let (rows, dropped) = (bytes.number(4)?, bytes.number(4)?);
    Some(Answer::Accepted {
        rows: (0..rows).map(|_| read_row(bytes)).collect::<Option<_>>()?,
        dropped: (0..dropped)
            .map(|_| read_dropped(bytes))
            .collect::<Option<_>>()?,
    })
}

fn read_row(bytes: &mut Unread) -> Option<Row> {
    let first = bytes.number(1)?;
    let (tag, kind) = (first / 64, first % 64);
    let token = bytes.number(2)?;
    let width = if tag == LEAF { 2 } else { 0 };
    Some(Row {
        tag,
        kind,
        start: bytes.number(width)?,
        len: bytes.number(width)?,
        token,
    })
}

fn read_dropped(bytes: &mut Unread) -> Option<Dropped> {
    Some(Dropped {
        token: bytes.number(2)?,
        reason: bytes.number(1)?,
        leaves: bytes.number(4)?,
    })
}
