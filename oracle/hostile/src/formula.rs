//! Any bytes as a formula's text, and any count of numbers lent for its tokens.

use cases::dice::Dice;
use sheet::{Token, Tokenised};

use crate::buffers::{Around, Lent};

/// A tokeniser over lent numbers: the port's, or in tests one that is wrong on purpose.
pub type Tokeniser<'t> = &'t dyn Fn(&[u8], &mut [u32]) -> Tokenised;

/// The text has no room behind its end, so that a read past it can be seen.
#[derive(Debug, Clone, PartialEq, Eq)]
pub struct Formula {
    pub text: Box<[u8]>,
    /// So many numbers are lent.
    pub lent: usize,
}

/// What a tokeniser has a rule for; single bytes of every value are put between.
const PARTS: [&[u8]; 33] = [
    br"\begin{a}",
    br"\end{b*}",
    br"\begin{*a}",
    br"\begin {a}",
    br"\begin{",
    br"\end{}",
    br"\begin",
    br"\end{*",
    br"\iffalse",
    br"\ifstar",
    br"\ifx",
    br"\fi",
    br"\left",
    br"\right(",
    br"\frac",
    br"\@a",
    br"\\",
    br"\(",
    br"\]",
    br"\",
    b"\\\n",
    b"%c",
    b"%\r\n",
    b"$$$",
    b" \t\x0b\x0c",
    b"\r\n\n",
    b"ab1",
    b"\x00\x1f\x7f",
    b"{a}",
    b"{",
    b"}",
    b"*",
    b"_",
];

/// One text in so many lies around the limits: those are large.
const LARGE: usize = 5_000;

impl Formula {
    pub fn by_chance(dice: &mut Dice) -> Self {
        if dice.once_in(LARGE) {
            return Self::around_limits(dice);
        }
        let count = dice.length(60);
        let any = dice.once_in(2);
        let mut text = Vec::new();
        for _ in 0..count {
            match dice.below(4) {
                0 if any => text.push(dice.below(256) as u8),
                0 | 1 => text.push(dice.below(128) as u8),
                _ => text.extend(PARTS[dice.below(PARTS.len())]),
            }
        }
        Self::lending(dice, text)
    }

    /// As many bytes or tokens as are allowed, or some more or less.
    pub fn around_limits(dice: &mut Dice) -> Self {
        let mut text = match dice.once_in(2) {
            true => vec![b'a'; 65_533 + dice.below(5)],
            false => vec![b','; 16_382 + dice.below(5)],
        };
        let at = dice.below(text.len());
        match dice.below(4) {
            0 => text[at] = dice.below(256) as u8,
            1 => text[at] = b';',
            _ => {}
        }
        Self::lending(dice, text)
    }

    /// A text with some count of numbers, mostly about as many as its tokens need.
    fn lending(dice: &mut Dice, text: Vec<u8>) -> Self {
        let mut numbers = vec![0; Token::WIDTH * text.len()];
        let tokens = model::tokenise(&text, &mut numbers, None).unwrap_or(text.len());
        let needed = Token::WIDTH * tokens;
        let lent = match dice.below(8) {
            0 => 0,
            1 => dice.below(needed + 9),
            2..=4 => (needed + dice.below(9)).saturating_sub(Token::WIDTH),
            5 => numbers.len() + dice.below(5),
            _ => needed,
        };
        Self {
            text: text.into(),
            lent,
        }
    }

    /// What comes of it, or how the tokeniser differs from the model. The dice fill the
    /// lent numbers.
    pub fn difference(
        &self,
        dice: &mut Dice,
        around: Around,
        tokenise: Tokeniser,
    ) -> Result<Tokenised, String> {
        let before = Lent::new(dice, self.lent, around);
        let (came, after) = self.run(&before, tokenise);
        let (modelled, expected) = self.run(&before, &|text, numbers| {
            model::tokenise(text, numbers, None)
        });
        if came != modelled {
            return Err(format!("the model: {modelled:?}\nthe port: {came:?}"));
        }
        if after != expected {
            return Err(format!("{came:?}, but other numbers than the model's"));
        }
        // Whatever the model does: behind the rows all is as it was, and so is all after a
        // refusal.
        let written = Token::WIDTH * came.unwrap_or(0);
        match before.lent()[written..] == after.lent()[written..] {
            true => Ok(came),
            false => Err(format!("{came:?}, but numbers that should not be so")),
        }
    }

    fn run(&self, before: &Lent, tokenise: Tokeniser) -> (Tokenised, Lent) {
        let mut numbers = before.clone();
        let came = tokenise(&self.text, numbers.lent_mut());
        (came, numbers)
    }

    /// The formula with bytes and lent numbers left out as long as it still differs. Long
    /// parts are tried first.
    pub fn smallest(mut self, differs: &dyn Fn(&Self) -> bool) -> Self {
        let mut size = self.text.len().max(self.lent);
        while size > 0 {
            let smaller = self.smaller(size).find(|next| differs(next));
            match smaller {
                Some(next) => self = next,
                None => size /= 2,
            }
        }
        self
    }

    /// The formulas with so many bytes or lent numbers less.
    fn smaller(&self, size: usize) -> impl Iterator<Item = Self> + '_ {
        let text = &self.text;
        let without = move |at: usize| Self {
            text: [&text[..at], &text[at + size..]].concat().into(),
            lent: self.lent,
        };
        let starts = (0..)
            .step_by(size)
            .take_while(move |at| at + size <= text.len());
        let fewer = self.lent.checked_sub(size).map(|lent| Self {
            text: text.clone(),
            lent,
        });
        starts.map(without).chain(fewer)
    }
}
