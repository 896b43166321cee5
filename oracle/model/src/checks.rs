//! Refusals 1 to 4: what is judged before reading.

use sheet::{Shape, Tables, Token};

use crate::kinds;
use crate::refusal::{refuse, Step};

pub(crate) const TEXT: usize = 65_535;
pub(crate) const TOKENS: usize = 16_384;
const SHAPES: usize = 4_096;
const STATES: usize = 4_096;

pub(crate) fn check(tables: &Tables, dropped: usize) -> Step {
    if !sizes_fit(tables) {
        return refuse(1, 0);
    }
    if dropped < 3 * tables.token_count() {
        return refuse(2, 0);
    }
    if let Some(place) = tables.tokens().position(|token| !token_fits(tables, token)) {
        return refuse(3, place);
    }
    let shapes = tables.shape_count();
    let mut shape_rows = (0..shapes).map(|index| tables.shape(index));
    if let Some(place) = shape_rows.position(|shape| !shape_fits(tables, shape)) {
        return refuse(4, place);
    }
    let states = tables.state_count();
    let too_high = |index: &usize| tables.state(*index).iter().any(|&s| s as usize > states);
    match (0..states).find(too_high) {
        Some(index) => refuse(4, shapes + index),
        None => Ok(()),
    }
}

fn sizes_fit(tables: &Tables) -> bool {
    let whole = |numbers: &[u32], width: usize, rows: usize| {
        numbers.len() % width == 0 && numbers.len() / width <= rows
    };
    tables.text.len() <= TEXT
        && whole(&tables.tokens, 4, TOKENS)
        && whole(&tables.shapes, 3, SHAPES)
        && whole(&tables.states, 3, STATES)
}

fn token_fits(tables: &Tables, token: Token) -> bool {
    let (start, len) = (token.start as usize, token.len as usize);
    if token.kind > kinds::LAST || start + len > tables.text.len() {
        return false;
    }
    if token.shape as usize > tables.shape_count() {
        return false;
    }
    let text = &tables.text[start..start + len];
    token.kind != kinds::WORD || (!text.is_empty() && std::str::from_utf8(text).is_ok())
}

fn shape_fits(tables: &Tables, shape: Shape) -> bool {
    let value = match shape.form {
        0 | 3 | 5 | 6 => shape.value == 0,
        1 | 2 => shape.value <= 255,
        4 => (1..=tables.state_count()).contains(&(shape.value as usize)),
        _ => false,
    };
    let class = match shape.form {
        5 | 6 => shape.class == 1,
        _ => (1..=2).contains(&shape.class),
    };
    value && class
}
