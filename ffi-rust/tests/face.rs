//! The recorded list through the static library, and the questions.
use cartglaze::{is_display, is_inline, is_leaf, is_valid, is_whole, leaf_text, run, Answer, Tables, TREE_ROW};

/// Big-endian numbers out of bytes, from a place on.
struct Bytes<'a>(&'a [u8]);

impl<'a> Bytes<'a> {
    fn take(&mut self, count: usize) -> &'a [u8] {
        let (taken, rest) = self.0.split_at(count);
        self.0 = rest;
        taken
    }

    fn number(&mut self, bytes: usize) -> u32 {
        self.take(bytes).iter().fold(0, |n, &b| n << 8 | u32::from(b))
    }

    fn section(&mut self) -> &'a [u8] {
        let length = self.number(4) as usize;
        self.take(length)
    }

    fn table(&mut self) -> Vec<u32> {
        let mut bytes = Bytes(self.section());
        let mut numbers = Vec::new();
        while !bytes.0.is_empty() {
            numbers.push(bytes.number(4));
        }
        numbers
    }
}

/// What the buffers hold before a run, so that what is not written can be told.
const BEFORE: u32 = u32::MAX;

/// A recorded row of the tree: tag and kind in a byte, the token in two, a leaf's start and length in two each.
fn tree_row(case: &mut Bytes) -> [u32; TREE_ROW] {
    let mark = case.number(1);
    let (tag, kind) = (mark / 64, mark % 64);
    let token = case.number(2);
    if tag == 1 {
        [tag, kind, case.number(2), case.number(2), token]
    } else {
        [tag, kind, 0, 0, token]
    }
}

/// Replays one case of the list; whether it agrees.
fn agrees(mut case: Bytes) -> bool {
    let mut sheet = Bytes(case.section());
    assert_eq!(sheet.number(1), 1, "a sheet's version");
    let text = sheet.section();
    let (tokens, shapes, states) = (sheet.table(), sheet.table(), sheet.table());
    let room = case.number(4) as usize;
    let number = case.number(4) as usize;

    let mut tree = vec![BEFORE; room];
    let mut dropped = vec![BEFORE; tokens.len() / 4 * 3];
    let answer = run(Tables { text, tokens: &tokens, shapes: &shapes, states: &states }, &mut tree, &mut dropped);

    let (expected, mut expected_tree, mut expected_dropped) = if number != 0 {
        let place = case.number(4) as usize;
        (Answer::Refused { number, place }, vec![0; room], vec![0; dropped.len()])
    } else {
        let rows = case.number(4) as usize;
        let count = case.number(4) as usize;
        let tree_rows: Vec<u32> = (0..rows).flat_map(|_| tree_row(&mut case)).collect();
        let dropped_rows = (0..count).flat_map(|_| [case.number(2), case.number(1), case.number(4)]).collect();
        (Answer::Accepted { rows, dropped: count }, tree_rows, dropped_rows)
    };
    assert!(case.0.is_empty(), "a case's end");
    expected_tree.resize(room, BEFORE);
    expected_dropped.resize(dropped.len(), BEFORE);
    answer == expected && tree == expected_tree && dropped == expected_dropped
}

#[test]
fn recorded_list() {
    let list = std::fs::read(concat!(env!("CARGO_MANIFEST_DIR"), "/../crates/cases/data/cases.bin")).unwrap();
    let mut list = Bytes(&list);
    let (mut cases, mut differences) = (0, 0);
    while !list.0.is_empty() {
        cases += 1;
        differences += usize::from(!agrees(Bytes(list.section())));
    }
    println!("{cases} cases, {differences} differences");
    assert_eq!((cases, differences), (12_238, 0));
}

#[test]
fn nothing_is_a_root() {
    let mut tree = [7; 2 * TREE_ROW];
    let answer = run(Tables { text: b"", tokens: &[], shapes: &[], states: &[] }, &mut tree, &mut []);
    assert_eq!(answer, Answer::Accepted { rows: 2, dropped: 0 });
    assert_eq!(tree, [0, 44, 0, 0, 0, 2, 44, 0, 0, 0]);
}

/// The token of each row of an accepted run.
fn tokens_of(tables: Tables) -> Vec<u32> {
    let mut tree = [7; 20 * TREE_ROW];
    let mut dropped = [0; 20];
    let Answer::Accepted { rows, .. } = run(tables, &mut tree, &mut dropped) else { panic!("refused") };
    tree.chunks(TREE_ROW).take(rows).map(|row| row[TREE_ROW - 1]).collect()
}

/// A leaf has its own token, another row the first one not wholly read: `x\o y` wraps at token 1, and in `\f x &` blank 3 is left behind its command.
#[test]
fn tokens_of_rows() {
    let infix = Tables { text: br"x\o y", tokens: &[21, 0, 1, 0, 26, 1, 2, 1, 1, 3, 1, 0, 21, 4, 1, 0], shapes: &[1, 6, 0], states: &[] };
    assert_eq!(tokens_of(infix), [0, 1, 1, 0, 0, 1, 1, 1, 2, 2, 3, 3, 4, 4, 4, 4]);
    let held = [26, 0, 2, 1, 1, 2, 1, 0, 21, 3, 1, 0, 1, 4, 1, 0, 12, 5, 1, 0];
    let held = Tables { text: br"\f x &", tokens: &held, shapes: &[1, 1, 2], states: &[] };
    assert_eq!(tokens_of(held), [0, 0, 0, 2, 2, 3, 4, 3, 4, 5]);
}

#[test]
fn questions() {
    // `$$a$$` and `\(a\)`: a start of kind 43, three leaves, the finish.
    let leaves = |first, last, size| [[1, first, 0, size, 0], [1, 13, size, 1, 1], [1, last, size + 1, size, 2]].concat();
    let tree = |first, last, size| [&[0, 43, 0, 0, 0][..], &leaves(first, last, size), &[2, 43, 0, 0, 3]].concat();
    let (display, inline) = (tree(14, 14, 2), tree(15, 16, 2));
    assert_eq!((is_display(b"$$a$$", &display, 0), is_inline(b"$$a$$", &display, 0), is_valid(b"$$a$$", &display, 0)), (true, false, true));
    assert_eq!(
        (is_display(br"\(a\)", &inline, 0), is_inline(br"\(a\)", &inline, 0), is_valid(br"\(a\]", &inline, 0)),
        (false, true, false)
    );
    assert!(!is_display(b"$$a$$", &display, 1));
    assert!(is_leaf(b"$$a$$", &display, 2) && !is_leaf(b"$$", &display, 2) && !is_leaf(b"$$a$$", &display, 9));

    // The part is the caller's own.
    let text = b"$$a$$";
    let part = leaf_text(text, &display, 2);
    assert_eq!((part, part.as_ptr()), (&text[2..3], text[2..].as_ptr()));
    assert_eq!(leaf_text(text, &display, 0).as_ptr_range(), text[..0].as_ptr_range());
}

/// Whether the formula that begins a text is valid and whole: its tokens, each a kind and a length, are read, and the root's first child is asked
/// about.
fn asked(text: &[u8], kinds: &[[u32; 2]]) -> (bool, bool) {
    let mut start = 0;
    let mut tokens = Vec::new();
    for &[kind, length] in kinds {
        tokens.extend([kind, start, length, 0]);
        start += length;
    }
    assert_eq!(start as usize, text.len());
    let (mut tree, mut dropped) = ([0; 20 * TREE_ROW], [0; 12]);
    let answer = run(Tables { text, tokens: &tokens, shapes: &[], states: &[] }, &mut tree, &mut dropped);
    assert!(matches!(answer, Answer::Accepted { .. }), "{answer:?}");
    (is_valid(text, &tree, 1), is_whole(text, &tree, 1))
}

#[test]
fn whole_is_stricter_than_valid() {
    assert_eq!(asked(b"$a$", &[[22, 1], [21, 1], [22, 1]]), (true, true));
    assert_eq!(asked(br"$\iffalse\fi$", &[[22, 1], [33, 8], [37, 3], [22, 1]]), (true, true));
    // One token is both ends.
    assert_eq!(asked(b"$", &[[22, 1]]), (true, false));
    // A script, a brace that is left open and a skipped body have the closer inside.
    assert_eq!(asked(b"$a_$", &[[22, 1], [21, 1], [20, 1], [22, 1]]), (true, false));
    assert_eq!(asked(b"${a$", &[[22, 1], [3, 1], [21, 1], [22, 1]]), (true, false));
    assert_eq!(asked(br"\(\iffalse\)\fi", &[[29, 2], [33, 8], [30, 2], [37, 3]]), (true, false));
    // It ends before the closer.
    assert_eq!(asked(b"$a", &[[22, 1], [21, 1]]), (false, false));
}
