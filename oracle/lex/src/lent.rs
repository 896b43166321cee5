//! The rows of a text, with more numbers lent than they need, with as many and with fewer.

use sheet::{Refusal, Token, Tokenised};

use crate::held::Tokeniser;

/// What lent numbers hold before.
const BEFORE: u32 = 0xdead_beef;

/// A text's rows, or its refusal with room for all rows that it may have; and as an error what
/// is wrong with the lent numbers.
pub(crate) fn rows(
    text: &[u8],
    tokenise: Tokeniser,
) -> Result<Result<Vec<Token>, Refusal>, String> {
    // Each token has a byte or more, so this is room for all; what is over is less than a row,
    // or a row and more.
    let lent = Token::WIDTH * text.len() + 1 + text.len() % 7;
    let (came, numbers) = lend(text, lent, tokenise);
    let count = match came {
        Ok(count) => count,
        Err(refusal) => {
            kept(&numbers, 0, came)?;
            return Ok(Err(refusal));
        }
    };
    let needed = Token::WIDTH * count;
    kept(&numbers, needed, came)?;
    let (again, exact) = lend(text, needed, tokenise);
    if again != came || exact != numbers[..needed] {
        return Err(format!(
            "{came:?}, and with {needed} numbers lent {again:?} or other rows"
        ));
    }
    fewer(text, needed, tokenise)?;
    Ok(Ok(exact
        .chunks_exact(Token::WIDTH)
        .map(Token::of)
        .collect()))
}

/// So many numbers lent, and what they hold afterwards.
fn lend(text: &[u8], numbers: usize, tokenise: Tokeniser) -> (Tokenised, Vec<u32>) {
    let mut numbers = vec![BEFORE; numbers];
    let came = tokenise(text, &mut numbers);
    (came, numbers)
}

/// One row less is refused, whether or not some numbers are left over, and nothing written.
fn fewer(text: &[u8], needed: usize, tokenise: Tokeniser) -> Result<(), String> {
    if needed == 0 {
        return Ok(());
    }
    let lent = needed - 1 - text.len() % Token::WIDTH;
    let (came, numbers) = lend(text, lent, tokenise);
    if came
        != Err(Refusal {
            number: 1,
            place: 0,
        })
    {
        return Err(format!("with {lent} numbers lent of {needed}: {came:?}"));
    }
    kept(&numbers, 0, came)
}

/// From there on all is as it was.
fn kept(numbers: &[u32], from: usize, came: Tokenised) -> Result<(), String> {
    match numbers.get(from..) {
        Some(later) if later.iter().all(|&number| number == BEFORE) => Ok(()),
        _ => Err(format!(
            "{came:?}, but numbers from {from} on are not as they were"
        )),
    }
}
