//! Lent buffers, and what lies around them.

use cases::dice::Dice;

/// What stands before and behind a buffer.
#[derive(Debug, Clone, Copy, PartialEq, Eq)]
pub enum Around {
    /// Numbers that must stay: a run that writes past an end is seen.
    Canaries,
    /// Nothing: a tool that watches memory sees a run that reads past an end, too.
    Nothing,
}

/// A buffer of numbers by chance.
#[derive(Debug, Clone, PartialEq, Eq)]
pub struct Lent {
    numbers: Box<[u32]>,
    around: usize,
}

impl Lent {
    pub fn new(dice: &mut Dice, len: usize, around: Around) -> Self {
        let around = match around {
            Around::Canaries => 16,
            Around::Nothing => 0,
        };
        let fill = dice.number() as u32;
        Self {
            numbers: (0..len + 2 * around)
                .map(|at| fill.wrapping_mul(2 * at as u32 + 1) | 1)
                .collect(),
            around,
        }
    }

    /// What is lent.
    pub fn lent(&self) -> &[u32] {
        &self.numbers[self.around..self.numbers.len() - self.around]
    }

    pub fn lent_mut(&mut self) -> &mut [u32] {
        let end = self.numbers.len() - self.around;
        &mut self.numbers[self.around..end]
    }
}
