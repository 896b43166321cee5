//! Lists, groups, commands, environments, attachments and skipped bodies.

use crate::kinds::*;
use crate::matcher::Matcher;
use crate::reader::{List, Reader};
use crate::refusal::{refuse, Step};
use crate::slip::Slip;
use crate::stops::Scope;

impl Reader<'_, '_> {
    pub fn list(&mut self, scope: Scope) -> Step {
        let around = self.list;
        let mut before = self.rows.mark();
        self.list = List {
            scope,
            start: Some(before),
            last: None,
        };
        while self.kind().is_some_and(|kind| !self.stops(kind)) {
            if self.content(true)? {
                self.list.last = Some(before);
            }
            before = self.rows.mark();
        }
        self.list = around;
        Ok(())
    }

    pub fn group(&mut self, scope: Scope) -> Step {
        let (node, closer) = scope.group();
        self.start(node)?;
        self.eat()?;
        self.list(scope)?;
        if self.kind() == Some(closer) {
            self.eat()?;
        }
        self.finish()
    }

    /// Reads an item and says whether it is attachable. A Word is taken as a text, or
    /// as one character only.
    pub fn content(&mut self, whole_words: bool) -> Step<bool> {
        let Some(kind) = self.kind() else {
            return Ok(true);
        };
        match kind {
            UNDERSCORE | CARET => self.attach(true).and(Ok(false)),
            LINE_BREAK..=LINE_COMMENT | AMPERSAND | NEW_LINE | HASH..=AT_SIGN | ERROR => {
                self.eat().and(Ok(false))
            }
            APOSTROPHE => self.attach(false).and(Ok(false)),
            DOLLAR => self.group(Scope::Dollar).and(Ok(false)),
            BEGIN_MATH => self.group(Scope::Cmd).and(Ok(false)),
            GENERIC | OTHER_IF | ELSE | END_IF | RIGHT => self.command(),
            _ => self.plain_content(kind, whole_words).and(Ok(true)),
        }
    }

    /// The items that are always attachable.
    fn plain_content(&mut self, kind: u32, whole_words: bool) -> Step {
        match kind {
            LEFT_CURLY => self.group(Scope::Curly),
            RIGHT_CURLY | MACRO_ARG | END_ENVIRONMENT | END_MATH => self.error(),
            LEFT_BRACKET | LEFT_PAREN | RIGHT_BRACKET | RIGHT_PAREN => self.eat(),
            TILDE | SLASH | DITTO | SEMICOLON | ERROR_BEGIN | ERROR_END => self.eat(),
            WORD if !whole_words => self.eat_char(),
            WORD | COMMA => self.text(),
            BEGIN_ENVIRONMENT => self.environment(),
            IF_FALSE => self.skipped(TREE_BLOCK_COMMENT),
            IF_TYPST => self.skipped(TREE_TYPST_CODE),
            LEFT => self.left_right(),
            _ => unreachable!("content has a case for every kind"),
        }
    }

    fn error(&mut self) -> Step {
        self.start(TREE_ERROR)?;
        self.eat()?;
        self.finish()
    }

    fn text(&mut self) -> Step {
        let goes_on = |kind| is_trivia(kind) || kind == WORD || kind == COMMA;
        self.start(TREE_TEXT)?;
        self.eat()?;
        while self.kind().is_some_and(goes_on) {
            self.eat()?;
        }
        self.finish()
    }

    fn command(&mut self) -> Step<bool> {
        let shape = self.shape(1);
        let form = shape.map_or(0, |shape| shape.form);
        match shape {
            Some(shape) if form == 5 || form == 6 => {
                let mark = match shape.form {
                    5 => self.list.last.or(self.list.start),
                    _ => self.list.start.take(),
                };
                match mark {
                    Some(mark) => self.wrap(TREE_CMD, mark)?,
                    None => self.start(TREE_CMD)?,
                }
            }
            _ => self.start(TREE_CMD)?,
        }
        self.eat()?;
        let matcher = shape.and_then(|shape| self.matcher(shape));
        if let Some(matcher) = matcher {
            self.arguments(matcher)?;
        }
        self.finish()?;
        self.write_held()?;
        Ok(form != 5 && matcher != Some(Matcher::Greedy))
    }

    /// The matcher of a shape that takes arguments behind its token. Fixed 0 takes
    /// none, while range 0 has a matcher that accepts nothing.
    fn matcher(&self, shape: sheet::Shape) -> Option<Matcher> {
        match shape.form {
            0 | 5 => None,
            1 if shape.value == 0 => None,
            2 if shape.value == 0 && self.slips(Slip::RangeZeroIsNone) => None,
            _ => Some(Matcher::of(shape)),
        }
    }

    fn environment(&mut self) -> Step {
        self.start(TREE_ENV)?;
        self.start(TREE_BEGIN)?;
        let shape = self.shape(2);
        self.eat()?;
        match shape.and_then(|shape| self.matcher(shape)) {
            Some(Matcher::Greedy) => return refuse(5, self.at),
            Some(matcher) => self.arguments(matcher)?,
            None => {}
        }
        self.finish()?;
        self.write_held()?;
        self.list(Scope::Environment)?;
        if self.kind() == Some(END_ENVIRONMENT) {
            self.start(TREE_END)?;
            self.eat()?;
            self.finish()?;
        }
        self.finish()
    }

    fn left_right(&mut self) -> Step {
        self.start(TREE_LR)?;
        self.clause_lr()?;
        self.list(Scope::Lr)?;
        if self.kind() == Some(RIGHT) {
            self.clause_lr()?;
        }
        self.finish()
    }

    fn clause_lr(&mut self) -> Step {
        self.start(TREE_CLAUSE_LR)?;
        self.eat()?;
        self.eat_trivia()?;
        match self.kind() {
            Some(GENERIC) => self.eat_as(TREE_COMMAND_SYM)?,
            Some(WORD) => self.eat_char()?,
            Some(kind) if !is_command(kind) && kind != DOLLAR => self.eat()?,
            _ => {}
        }
        self.finish()
    }

    /// A body that is skipped: its opener and its closer are dropped.
    fn skipped(&mut self, node: u32) -> Step {
        self.start(node)?;
        self.drop(2);
        let mut nested = 0;
        while let Some(kind) = self.kind() {
            match kind {
                END_IF if nested == 0 => {
                    self.drop(3);
                    break;
                }
                END_IF => nested -= 1,
                IF_FALSE => nested += 1,
                IF_TYPST | OTHER_IF if !self.slips(Slip::OnlyIfFalseNests) => nested += 1,
                _ => {}
            }
            self.eat()?;
        }
        self.finish()
    }

    fn attach(&mut self, script: bool) -> Step {
        match self.list.last {
            Some(mark) => self.wrap(TREE_ATTACH, mark)?,
            None if script => self.start(TREE_ATTACH)?,
            None => return self.eat(),
        }
        self.eat()?;
        if script {
            self.eat_trivia()?;
            let stopped = self.kind() == Some(RIGHT_CURLY) && self.slips(Slip::CurlyStopsScript);
            if !stopped {
                self.content(false)?;
            }
        }
        self.finish()
    }
}
