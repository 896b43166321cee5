//! Arguments behind a command or a `\begin`.

use crate::kinds::*;
use crate::matcher::{Letter, Matcher, Verdict};
use crate::reader::Reader;
use crate::refusal::Step;
use crate::slip::Slip;
use crate::stops::Scope;

impl Reader<'_, '_> {
    pub fn arguments(&mut self, matcher: Matcher) -> Step {
        let greedy = matcher == Matcher::Greedy;
        if greedy {
            self.start(TREE_ARGUMENT)?;
        }
        let before = self.list.last.take();
        let last = before.filter(|_| self.slips(Slip::SaveLastFirst));
        let start = self.list.start.take();
        if greedy {
            self.list.start = Some(self.rows.mark());
            self.greedy_arguments()?;
            self.finish()?;
        } else {
            self.single_arguments(matcher)?;
        }
        self.list.start = start;
        self.list.last = last;
        Ok(())
    }

    fn greedy_arguments(&mut self) -> Step {
        while let Some(kind) = self.kind() {
            let before = self.rows.mark();
            let attachable = match kind {
                AMPERSAND => return Ok(()),
                NEW_LINE if self.list.scope == Scope::Environment => return Ok(()),
                LEFT_BRACKET | LEFT_PAREN => self.eat().and(Ok(true))?,
                _ if self.stops(kind) => return Ok(()),
                _ => self.content(true)?,
            };
            if attachable {
                self.list.last = Some(before);
            }
        }
        Ok(())
    }

    fn single_arguments(&mut self, mut matcher: Matcher) -> Step {
        'arguments: while let Some(kind) = self.kind() {
            match kind {
                LINE_BREAK..=LINE_COMMENT => self.hold(),
                AMPERSAND | CARET | UNDERSCORE => break,
                WORD => {
                    let word = self.at;
                    while self.at == word {
                        let Verdict::Whole(next) = matcher.verdict(Letter::Term, self.tables)
                        else {
                            break 'arguments;
                        };
                        matcher = next;
                        self.argument(Self::eat_char)?;
                    }
                }
                LEFT_CURLY | LEFT_BRACKET | LEFT_PAREN => {
                    let letter = Letter::of_opener(kind);
                    match matcher.verdict(letter, self.tables) {
                        Verdict::NotAccepted => break,
                        Verdict::Whole(next) => {
                            matcher = next;
                            self.argument(|this| this.group(scope_of(letter)))?;
                        }
                        Verdict::Bare(next) => {
                            matcher = next;
                            self.argument(Self::eat)?;
                        }
                    }
                }
                _ if self.stops(kind) => break,
                _ => {
                    let Verdict::Whole(next) = matcher.verdict(Letter::Term, self.tables) else {
                        break;
                    };
                    matcher = next;
                    self.argument(|this| this.content(true).and(Ok(())))?;
                }
            }
        }
        Ok(())
    }

    /// An accepted argument drops what is held and stands in a node of its own.
    fn argument(&mut self, read: impl FnOnce(&mut Self) -> Step) -> Step {
        self.drop_held();
        self.start(TREE_ARGUMENT)?;
        read(self)?;
        self.finish()
    }
}

fn scope_of(letter: Letter) -> Scope {
    match letter {
        Letter::Term => Scope::Curly,
        Letter::Bracket => Scope::Bracket,
        Letter::Paren => Scope::Paren,
    }
}
