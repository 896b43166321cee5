//! The formulas that are timed.

use answers::Spec;

/// A formula that grows by repeating a unit.
pub struct Workload {
    pub name: &'static str,
    shapes: &'static str,
    first: &'static str,
    unit: fn() -> String,
    /// The tokens of a unit.
    tokens: usize,
    /// About so many tokens each.
    pub sizes: &'static [usize],
}

const SIZES: &[usize] = &[1_000, 4_000, 16_000];

/// The name of the list with a script on nearly each item.
pub const BINDER: &str = "binder";

pub const WORKLOADS: [Workload; 8] = [
    Workload {
        name: BINDER,
        shapes: "",
        first: "",
        unit: || "a_1 b^2 c_3 d^4 e_5 f^6 g_7 h^8 i_9 j ".to_owned(),
        tokens: 38,
        sizes: &[1_000, 4_000, 10_000, 16_000],
    },
    Workload {
        name: "fractions",
        shapes: "frac=fixed2",
        first: "",
        unit: || r"\frac{1}{2} \frac 12 \frac{\frac{1}{2}}{3} ".to_owned(),
        tokens: 26,
        sizes: SIZES,
    },
    Workload {
        name: "groups",
        shapes: "",
        first: "",
        unit: || format!("{}1{}", "{".repeat(120), "}".repeat(120)),
        tokens: 241,
        sizes: SIZES,
    },
    Workload {
        name: "words",
        shapes: "f=fixed12",
        first: "",
        unit: || r"\f abcdefghijkl ".to_owned(),
        tokens: 4,
        sizes: SIZES,
    },
    Workload {
        name: "plain",
        shapes: "",
        first: "",
        unit: || "ab cd, 12 ef; ".to_owned(),
        tokens: 10,
        sizes: SIZES,
    },
    Workload {
        name: "skipped",
        shapes: "",
        first: "",
        unit: || r"\iffalse a b c d \if e f\fi g h {i j}\fi k ".to_owned(),
        tokens: 30,
        sizes: SIZES,
    },
    // Each script wraps all that stands before it.
    Workload {
        name: "chain",
        shapes: "",
        first: "a",
        unit: || "_b".to_owned(),
        tokens: 2,
        sizes: SIZES,
    },
    // Each prime wraps the whole group before it, with the primes in between.
    Workload {
        name: "primes",
        shapes: "",
        first: "",
        unit: || format!("{{{}}}{}", "a,".repeat(1_500), "'".repeat(998)),
        tokens: 4_000,
        sizes: &[4_000, 8_000, 16_000],
    },
];

impl Workload {
    pub fn text(&self, tokens: usize) -> String {
        self.first.to_owned() + &(self.unit)().repeat(tokens / self.tokens)
    }

    pub fn spec(&self) -> Spec {
        self.shapes.parse().expect("shapes of a workload")
    }
}
