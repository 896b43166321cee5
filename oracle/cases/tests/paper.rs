//! The formulas of document 01 come out as it says, with the fifth number of document 02.

use cases::{inside_a_wrap, notation, paper_formulas, Case, Formula};
use sheet::{listing, Answer};

/// An answer in one line: rows and tree and what was dropped, or the refusal.
fn told(formula: &Formula) -> String {
    match formula.case().expect("an answer").answer {
        Answer::Refused { number, place } => format!("refused {number} at {place}"),
        Answer::Accepted { rows, dropped } => {
            let tree = notation(&formula.text, &rows);
            let dropped = dropped
                .iter()
                .map(|d| format!(" ({},{},{})", d.token, d.reason, d.leaves));
            format!("{} {tree}{}", rows.len(), dropped.collect::<String>())
        }
    }
}

/// The formula of that text and shapes, and room if one is given.
fn find(text: &str, shapes: &str) -> Formula {
    let mut formulas = paper_formulas().into_iter();
    formulas
        .find(|formula| formula.text == text && formula.shapes == shapes)
        .expect("a formula of the paper")
}

fn check(text: &str, shapes: &str, answer: &str) {
    assert_eq!(told(&find(text, shapes)), answer, "{text} with {shapes}");
}

#[test]
fn small_formulas() {
    check("", "", "2 Root[]");
    check("'", "", "3 Root[']");
    check("a_b", "", "11 Root[Attach[Arg[Text[a]] _ b]]");
    check(
        "a_^b",
        "",
        "16 Root[Attach[Attach[Arg[Arg[Text[a]] _] ^ b]]]",
    );
    check(
        "{a_}",
        "",
        "16 Root[Curly[{ Attach[Arg[Text[a]] _ Error[}]]]]",
    );
}

#[test]
fn room_of_54_and_55_numbers() {
    let run = find("a_b", "").run().expect("an answer");
    let refused = Answer::Refused {
        number: 8,
        place: 3,
    };
    assert_eq!(Case::of(&run, 54).answer, refused);
    let enough = Case::of(&run, 55).answer;
    assert!(matches!(enough, Answer::Accepted { .. }));
}

#[test]
fn arguments_in_scripts() {
    let no_arg = "23 Root[Attach[Arg[Text[a]] _ Cmd[\\f Arg[1] Arg[2]]] Attach[^ c]]";
    check("a_\\f12^c", "f=fixed2", no_arg);
    let arg = "19 Root[Attach[Arg[Attach[Arg[Text[a]] _ Cmd[\\z]]] ^ c]]";
    check("a_\\z^c", "", arg);
}

#[test]
fn range_0_is_not_form_0() {
    let cleared = "17 Root[Attach[Arg[Text[a]] _ Cmd[\\e]] Attach[^ c]]";
    check("a_\\e^c", "e=range0", cleared);
    let kept = "19 Root[Attach[Arg[Attach[Arg[Text[a]] _ Cmd[\\e]]] ^ c]]";
    check("a_\\e^c", "e=fixed0", kept);
    check("a_\\e^c", "e=none", kept);
}

#[test]
fn wraps_at_marks() {
    check("{x}{a}_\\o b", "o=infix", "refused 6 at 7");
    let inside = "25 Root[Attach[Cmd[Arg[Arg[Curly[{ Text[a] }]] _] \\o Arg[␣ Text[b]]]]]";
    check("{a}_\\o b", "o=infix", inside);
    check("__\\l", "l=left1", "refused 6 at 2");
    let before = "20 Root[Attach[Attach[Cmd[Arg[Arg[Arg[Text[a]] _] ^] \\l]]]]";
    check("a_^\\l", "l=left1", before);
}

#[test]
fn greedy_commands() {
    let whole = "15 Root[Cmd[\\d Arg[␣ Text[1] \\\\ Text[2]]]]";
    check("\\d 1\\\\2", "d=greedy", whole);
    let stopped = "23 Root[Env[Begin[k] Cmd[\\d Arg[␣ Text[1]]] \\\\ Text[2] End[k]]]";
    check("\\begin{k}\\d 1\\\\2\\end{k}", "d=greedy", stopped);
}

#[test]
fn skipped_bodies() {
    let nested = "16 Root[BlockComment[␣ a \\if ␣ b \\fi ␣ c] ␣ Text[d]] (0,2,0) (9,3,8)";
    check("\\iffalse a\\if b\\fi c\\fi d", "", nested);
    check("\\iffalse a", "", "6 Root[BlockComment[␣ a]] (0,2,0)");
}

#[test]
fn brackets_by_shape() {
    let groups = "23 Root[Cmd[\\s Arg[Bracket[[ Text[3] ]]] Arg[Curly[{ Text[a] }]]]]";
    check("\\s[3]{a}", "s=glob:{,b}t", groups);
    let alone = "19 Root[Cmd[\\s Arg[[]] Text[3] ] Curly[{ Text[a] }]]";
    check("\\s[3]{a}", "s=fixed1", alone);
}

#[test]
fn greedy_environments() {
    check("\\begin{h}", "h=env-greedy", "refused 5 at 1");
    let skipped = "5 Root[BlockComment[h]] (0,2,0)";
    check("\\iffalse\\begin{h}", "h=env-greedy", skipped);
}

#[test]
fn nesting() {
    let deep = |count| find(&"{".repeat(count), "");
    let accepted = deep(127).run().expect("an answer");
    assert_eq!((accepted.deepest, accepted.rows.len()), (128, 2 + 3 * 127));
    assert_eq!(accepted.too_deep, None);
    assert_eq!(told(&deep(128)), "refused 7 at 127");
    let inner = find(&("{".repeat(126) + "a_"), "");
    assert_eq!(told(&inner), "refused 7 at 127");
}

#[test]
fn refusals_inside_a_wrap() {
    for formula in inside_a_wrap() {
        let answer = told(&formula);
        assert!(
            formula.said.ends_with(&answer),
            "{}: {answer}",
            formula.said
        );
    }
}

#[test]
fn as_many_arguments_as_a_shape_may_ask_for() {
    let formula = find(&format!("\\f {}", "x".repeat(256)), "f=fixed255");
    let tree = told(&formula);
    let expected = format!(
        "773 Root[Cmd[\\f{}] Text[x]] (1,1,1)",
        " Arg[x]".repeat(255)
    );
    assert_eq!(tree, expected);
}

#[test]
fn places_of_rows() {
    let run = find("\\f xy", "f=fixed2").run().expect("an answer");
    let places: Vec<usize> = run.writes.iter().map(|&(_, place)| place).collect();
    assert_eq!(places, [0, 0, 0, 2, 2, 2, 2, 2, 3, 3, 3]);
}

#[test]
fn fifth_numbers() {
    let check = |text: &str, shapes: &str, expected: &[u32]| {
        let run = find(text, shapes).run().expect("an answer");
        let tokens: Vec<u32> = run.rows.iter().map(|row| row.token).collect();
        assert_eq!(tokens, expected, "{text}");
    };
    check("a_b", "", &[0, 1, 1, 0, 0, 1, 1, 1, 2, 3, 3]);
    let infix = [0, 1, 1, 0, 0, 1, 1, 1, 2, 2, 3, 3, 4, 4, 4, 4];
    check("x\\o y", "o=infix", &infix);
    check("\\f xy", "f=fixed2", &[0, 0, 0, 2, 2, 2, 2, 2, 3, 3, 3]);
    check("\\f x &", "f=fixed2", &[0, 0, 0, 2, 2, 3, 4, 3, 4, 5]);
    // The start of a skipped body is made before its opener is dropped.
    check("\\iffalse a", "", &[0, 0, 1, 2, 3, 3]);
}

#[test]
fn classes_that_do_not_fit() {
    let begin = "14 Root[Env[Begin[f] Curly[{ Text[1] }]]]";
    check("\\begin{f}{1}", "f=fixed1", begin);
    check(
        "\\m{1}",
        "m=env-fixed1",
        "12 Root[Cmd[\\m] Curly[{ Text[1] }]]",
    );
}

#[test]
fn arguments_of_environments() {
    let end = "12 Root[Env[Begin[m Arg[Error[m]]]]] (1,1,1)";
    check("\\begin{m} \\end{m}", "m=env-fixed1", end);
}

const TREELIST: &str = "\
ok 11 2
0 44 0
1 35 0
2 27 0 5 0
2 28 2
3 13 6 1 2
2 28 4
3 13 8 1 4
d 1 1 1
d 3 1 2
";

#[test]
fn treelist_line_by_line() {
    let case = find("\\frac 1 2", "frac=fixed2").case().expect("an answer");
    assert_eq!(listing(&case.answer), TREELIST);
    assert_eq!(case.tables.sheet().len(), 118);
    let tokens = [
        26, 0, 5, 1, 1, 5, 1, 0, 21, 6, 1, 0, 1, 7, 1, 0, 21, 8, 1, 0,
    ];
    assert_eq!(case.tables.tokens, tokens);
    assert_eq!(case.tables.shapes, [1, 1, 2]);
    assert!(case.tables.states.is_empty());
}
