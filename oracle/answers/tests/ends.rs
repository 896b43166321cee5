//! The ways in which the Rust ends are told apart, and so are its lexer's.

use answers::{with_deep_stack, End, Fault, Run, Spec, Verdicts};
use sheet::{Answer, LEAF};

fn run(text: &str, shapes: &str) -> Result<Run, Fault> {
    Run::of(text, &shapes.parse::<Spec>().expect("shapes"))
}

#[test]
fn a_panic_of_the_lexer_is_its_own() {
    let fault = run("\\begin%\n%\n\u{3000}{a}", "").expect_err("the lexer panics");
    assert!(matches!(fault, Fault::Lexer(_)), "{fault}");
}

#[test]
fn refusal_5_is_the_parser_s_assertion() {
    let run = run("1\\begin{h}2", "h=env-greedy").expect("an answer");
    assert_eq!((run.end, run.end_place), (End::GreedyEnvironment, 2));
}

#[test]
fn refusal_6_is_rowan_s_assertion() {
    let run = run("{1}{2}_\\o", "o=infix").expect("an answer");
    assert_eq!((run.end, run.end_place), (End::MarkBeforeNode, 7));
}

#[test]
fn too_little_room_comes_before_5() {
    let run = run("\\begin{h}", "h=env-greedy").expect("an answer");
    let refused = |number, place| Answer::Refused { number, place };
    assert_eq!(run.answer(3), refused(8, 0));
    assert_eq!(run.answer(4), refused(5, 1));
}

#[test]
fn seven_comes_before_eight() {
    let refused = |number, place| Answer::Refused { number, place };
    let run = run(&"{".repeat(128), "").expect("an answer");
    let rows = run.too_deep.expect("a 129th node");
    assert_eq!(run.too_deep_place(), Some(127));
    assert_eq!(run.answer(rows), refused(7, 127));
    assert_eq!(run.answer(rows - 1), refused(8, 126));
}

#[test]
fn six_comes_before_seven_and_eight() {
    let run = run(&("{".repeat(126) + "&_\\l"), "l=left1").expect("an answer");
    assert_eq!(run.deepest, 128, "the wrap would open a 129th node");
    let refused = |number, place| Answer::Refused { number, place };
    assert_eq!(run.answer(run.writes.len()), refused(6, 128));
    assert_eq!(run.answer(run.writes.len() - 1), refused(8, 127));
}

#[test]
fn held_trivia_that_is_left_counts_as_read() {
    let run = run("\\f {1} %c\n_", "f=fixed2").expect("an answer");
    let places: Vec<usize> = run.writes.iter().map(|&(_, place)| place).collect();
    // The command's finish, the three held leaves, and of the script the wrap's two
    // openings, its inner finish and the underscore.
    assert_eq!(places[12..], [8, 8, 8, 8, 8, 8, 8, 8, 9, 9]);
}

#[test]
fn a_leaf_of_held_trivia_has_its_own_token() {
    let run = run("\\f {1} %c\n_", "f=fixed2").expect("an answer");
    let leaves = run.rows.iter().filter(|row| row.tag == LEAF);
    let tokens: Vec<u32> = leaves.map(|leaf| leaf.token).collect();
    // Token 1, the blank before the argument, is dropped.
    assert_eq!(tokens, [0, 2, 3, 4, 5, 6, 7, 8]);
}

#[test]
fn the_characters_of_a_word_have_its_token() {
    let run = run("\\f xyz", "f=fixed2").expect("an answer");
    let tokens: Vec<u32> = run.rows.iter().map(|row| row.token).collect();
    // Root, command, \f; three rows of each argument; the command's finish. All of these
    // from the first argument on have the Word, of which `z` is left: Text, then Root.
    assert_eq!(tokens, [0, 0, 0, 2, 2, 2, 2, 2, 2, 2, 2, 2, 3, 3]);
}

#[test]
fn a_wrap_s_openings_and_inner_finish_have_the_token_that_meets_it() {
    let run = run("{1}_2", "").expect("an answer");
    let tokens: Vec<u32> = run.rows.iter().map(|row| row.token).collect();
    // Root; Attach and Arg; the group; Arg's finish, `_`, `2`; Attach's finish, Root's.
    assert_eq!(tokens, [0, 3, 3, 0, 0, 1, 1, 2, 2, 3, 3, 3, 4, 5, 5]);
}

#[test]
fn verdicts_of_the_paper_s_glob() {
    let spec: Spec = "s=glob:{,b}t".parse().expect("shapes");
    let verdicts = Verdicts::of(&spec);
    assert_eq!(verdicts.first("{,b}t"), 1);
    assert_eq!(verdicts.states, [[2, 3, 0], [0, 0, 0], [2, 0, 0]]);
}

#[test]
fn as_many_nodes_as_a_text_opens() {
    let deep = "{".repeat(3_000);
    let deepest = with_deep_stack(move || run(&deep, "").map(|run| run.deepest));
    assert_eq!(deepest, Ok(3_001));
}

#[test]
fn shapes_are_written_as_they_are_read() {
    let shapes = "z=none f*=fixed2 r=range0 d=greedy s=glob:{,b}t l=left1 o=infix m=env-fixed1";
    let spec: Spec = shapes.parse().expect("shapes");
    assert_eq!(spec.to_string(), shapes);
    assert!("m=env-left1".parse::<Spec>().is_err());
    assert!("f=fixed256".parse::<Spec>().is_err());
}
