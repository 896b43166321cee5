//! One formula made ready for all rivals, with buffers as large and as warm for each.

use std::hint::black_box;
use std::time::Duration;

use answers::Run;
use mitex_lexer::Lexer;
use mitex_parser::Parser;
use mitex_parser_prepared::Parser as PreparedParser;
use mitex_spec::CommandSpec;
use sheet::{Row, Tables};

use crate::clock::{least, time};
use crate::from_text::FromText;
use crate::insertions::{insert_all, insertions, Insertion, Numbers};
use crate::measured::Measured;
use crate::workloads::Workload;

#[derive(Debug, Clone, Copy, PartialEq, Eq)]
pub enum Rival {
    Port,
    /// The Rust's parser on tokens that were made before.
    Mitex,
    /// The Rust's parser with its lexer.
    Whole,
    Lexing,
    Vec,
    /// The port's tokeniser.
    Tokenising,
    /// The port from the text to the tree: its tokeniser, shape numbers from a list that was
    /// made before, and its run.
    FromText,
}

impl Rival {
    pub const ALL: [(&'static str, Rival); 7] = [
        ("port", Rival::Port),
        ("mitex", Rival::Mitex),
        ("whole", Rival::Whole),
        ("lexing", Rival::Lexing),
        ("vec", Rival::Vec),
        ("lex", Rival::Tokenising),
        ("text", Rival::FromText),
    ];
}

pub struct Prepared {
    text: &'static str,
    spec: CommandSpec,
    tables: Tables,
    tree: Vec<u32>,
    dropped: Vec<u32>,
    insertions: Vec<Insertion>,
    rows: Vec<Numbers>,
    from_text: FromText,
}

impl Prepared {
    /// The formula of about so many tokens. All rivals give the same rows.
    pub fn new(workload: &Workload, tokens: usize) -> Self {
        let (text, spec) = (workload.text(tokens), workload.spec());
        // The prepared tokens are parts of it and stay.
        let text: &'static str = text.leak();
        let run = Run::of(text, &spec).unwrap_or_else(|fault| panic!("{}: {fault}", workload.name));
        let mut prepared = Self {
            spec: spec.command_spec(),
            insertions: insertions(&run.writes),
            tree: vec![0; Row::WIDTH * run.writes.len()],
            dropped: vec![0; 3 * run.tables.token_count()],
            rows: Vec::with_capacity(run.writes.len()),
            from_text: FromText::new(&run.tables),
            tables: run.tables,
            text,
        };
        let counts = port::run(&prepared.tables, &mut prepared.tree, &mut prepared.dropped);
        assert_eq!(counts.map(|counts| counts.rows), Ok(run.rows.len()));
        insert_all(&mut prepared.rows, &prepared.insertions);
        assert_eq!(prepared.tree, prepared.rows.concat(), "{}", workload.name);
        let told = run.rows.iter().map(|row| row.numbers());
        assert!(told.eq(prepared.rows.iter().copied()));
        prepared.check_rust();
        prepared.check_text();
        prepared
    }

    /// The Rust gives the same tree from tokens that were made before.
    fn check_rust(&self) {
        prepared_lexer::prepare(self.text, self.spec.clone());
        let green = Parser::new(self.text, self.spec.clone()).parse();
        let prepared = PreparedParser::new("", self.spec.clone()).parse();
        assert_eq!(green, prepared);
    }

    /// The port gives the same tokens and the same tree from the text.
    fn check_text(&mut self) {
        let expected = std::mem::take(&mut self.tree);
        self.tree = vec![0; expected.len()];
        let counts = self.from_text.run(&mut self.tree, &mut self.dropped);
        assert_eq!(counts.map(|counts| counts.rows), Ok(self.insertions.len()));
        assert!(self.from_text.tables == self.tables && self.tree == expected);
    }

    /// The least times of all rivals.
    pub fn measure(&mut self, span: Duration) -> Measured {
        let [port, mitex, whole, lexing, vec, tokenising, from_text] =
            least(span, Rival::ALL.map(|(_, rival)| rival), |rival| {
                self.once(rival)
            });
        Measured {
            tokens: self.tables.token_count(),
            rows: self.insertions.len(),
            port,
            mitex,
            whole,
            lexing,
            vec,
            tokenising,
            from_text,
        }
    }

    /// How long a rival takes once.
    pub fn once(&mut self, rival: Rival) -> Duration {
        match rival {
            Rival::Port => time(|| port::run(&self.tables, &mut self.tree, &mut self.dropped)),
            Rival::Mitex => time(|| PreparedParser::new("", self.spec.clone()).parse()),
            Rival::Whole => time(|| Parser::new(self.text, self.spec.clone()).parse()),
            Rival::Lexing => time(|| lex(self.text, self.spec.clone())),
            Rival::Vec => time(|| insert_all(&mut self.rows, &self.insertions)),
            Rival::Tokenising => time(|| self.from_text.tokenise()),
            Rival::FromText => time(|| self.from_text.run(&mut self.tree, &mut self.dropped)),
        }
    }
}

fn lex(text: &str, spec: CommandSpec) {
    let mut lexer = Lexer::<()>::new(text, spec);
    while let Some(token) = lexer.eat() {
        black_box(token);
    }
}
