//! What was compared, counted.

use std::fmt;

use answers::Spec;
use cases::smallest;

use crate::held::{difference, Held, Known, Same};
use crate::listed::Listed;
use crate::parts::SHAPES;

pub struct Tally {
    pub texts: usize,
    pub differ: usize,
    /// Texts with a difference that is told.
    as_listed: usize,
    /// Tokens with such a difference, by kind.
    kinds: [usize; Listed::ALL.len()],
    tokens: usize,
    longest: usize,
    refused: usize,
    /// The lexer panicked on these: they are no cases.
    outside: usize,
    named: Known,
    nameless: Known,
}

impl Default for Tally {
    fn default() -> Self {
        Self {
            texts: 0,
            differ: 0,
            as_listed: 0,
            kinds: [0; Listed::ALL.len()],
            tokens: 0,
            longest: 0,
            refused: 0,
            outside: 0,
            named: Known::new(SHAPES.parse().expect("shapes")),
            nameless: Known::new(Spec::default()),
        }
    }
}

impl Tally {
    /// Compares a text, and prints a difference that is not told with the smallest text that
    /// shows it.
    pub fn text(&mut self, text: &str, nameless: bool, held: Held) {
        let known = match nameless {
            true => &self.nameless,
            false => &self.named,
        };
        match difference(text, known, held) {
            Err(_) => self.outside += 1,
            Ok(Ok(same)) => self.same(same),
            Ok(Err(_)) => {
                println!("{}", cut_down(text, &known.spec, held));
                self.texts += 1;
                self.differ += 1;
            }
        }
    }

    fn same(&mut self, same: Same) {
        self.texts += 1;
        self.tokens += same.tokens;
        self.longest = self.longest.max(same.tokens);
        self.refused += usize::from(same.refused);
        self.as_listed += usize::from(!same.told.is_empty());
        same.told
            .into_iter()
            .for_each(|kind| self.kinds[kind as usize] += 1);
    }

    /// How often a difference of this kind came.
    pub fn told(&self, kind: Listed) -> usize {
        self.kinds[kind as usize]
    }
}

/// The smallest text that still differs, with both tokens.
pub(crate) fn cut_down(text: &str, spec: &Spec, held: Held) -> String {
    let says = |text: &str, spec: &Spec| {
        let known = Known::new(spec.clone());
        difference(text, &known, held).ok()?.err()
    };
    let (text, spec) = smallest(text, spec, |text, spec| says(text, spec).is_some());
    let said = says(&text, &spec).unwrap_or_default();
    format!("differs: {text:?} with {spec}\n{said}")
}

impl fmt::Display for Tally {
    fn fmt(&self, f: &mut fmt::Formatter<'_>) -> fmt::Result {
        let [tokens, longest] = [self.tokens, self.longest];
        writeln!(f, "{tokens} tokens, at most {longest} in one")?;
        writeln!(f, "{} texts refused for their size", self.refused)?;
        writeln!(f, "the lexer panicked on {} more", self.outside)?;
        writeln!(f, "tokens that differ as listed:")?;
        for kind in Listed::ALL {
            writeln!(f, "{:10}  {}", self.told(kind), kind.says())?;
        }
        let [texts, differ, as_listed] = [self.texts, self.differ, self.as_listed];
        write!(
            f,
            "{texts} texts, {differ} differ, {as_listed} differ as listed"
        )
    }
}
