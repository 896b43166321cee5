//! A formula cut down.

use answers::Spec;

use crate::used_shapes;

/// The text with characters left out as long as it still differs, and the shapes that are
/// left in use. Long parts are tried first: one by one a long text would take minutes.
pub fn smallest(text: &str, spec: &Spec, differs: impl Fn(&str, &Spec) -> bool) -> (String, Spec) {
    let mut chars: Vec<char> = text.chars().collect();
    let mut size = chars.len();
    while size > 0 {
        chars = without_parts(chars, size, |text| differs(text, spec));
        size /= 2;
    }
    let text: String = chars.into_iter().collect();
    match used_shapes(&text, spec) {
        Ok(used) if differs(&text, &used) => (text, used),
        _ => (text, spec.clone()),
    }
}

/// The characters with parts of that size left out as long as the rest still differs.
fn without_parts(mut chars: Vec<char>, size: usize, differs: impl Fn(&str) -> bool) -> Vec<char> {
    let mut at = 0;
    while at + size <= chars.len() {
        let mut shorter = chars.clone();
        shorter.drain(at..at + size);
        if differs(&shorter.iter().collect::<String>()) {
            chars = shorter;
            at = 0;
        } else {
            at += size;
        }
    }
    chars
}
