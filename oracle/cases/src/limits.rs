//! Formulas around the two limits that a formula can reach: 128 open nodes, and 255
//! arguments.

use answers::Spec;

use crate::parts::usual_shapes;

/// What opens nodes when it is repeated, and how many nodes one opens.
const OPENERS: [(&str, usize); 10] = [
    ("{", 1),
    ("\\(", 1),
    ("$\\(", 2),
    ("\\left(", 1),
    ("\\begin{k}", 1),
    ("_", 1),
    ("\\g{", 3),
    ("\\s[", 3),
    ("\\d{", 3),
    ("1^{", 2),
];

/// What stands at the bottom.
const TAILS: [&str; 9] = [
    "",
    "1",
    "1_",
    "1'",
    "\\l",
    "2\\l",
    "1\\o 2",
    "\\f12",
    "\\iffalse 1\\fi}",
];

/// Formulas that open from a few nodes under the limit to a few over it.
pub fn nestings() -> Vec<String> {
    let mut formulas = Vec::new();
    for (opener, nodes) in OPENERS {
        for tail in TAILS {
            for repeated in 123 / nodes..=129 / nodes {
                formulas.push(opener.repeat(repeated) + tail);
            }
        }
    }
    formulas
}

/// All formulas of this file with their shapes.
pub fn all() -> Vec<(String, Spec)> {
    let nestings = nestings().into_iter().map(|text| (text, usual_shapes()));
    nestings.chain(many_arguments()).collect()
}

/// Formulas with a command that takes about as many arguments as a shape may ask for.
pub fn many_arguments() -> Vec<(String, Spec)> {
    let mut formulas = Vec::new();
    for form in ["fixed254", "fixed255", "range255"] {
        for count in [253, 254, 255, 256, 257] {
            let word = format!("\\a{}", "0".repeat(count));
            let groups = format!("\\a{}", "{}".repeat(count));
            let blanks = format!("\\a{}_2", " 1".repeat(count));
            let brackets = format!("\\a{}", "[".repeat(count));
            for text in [word, groups, blanks, brackets] {
                let mut spec = usual_shapes();
                spec.shapes
                    .push(format!("a={form}").parse().expect("a shape"));
                formulas.push((text, spec));
            }
        }
    }
    formulas
}
