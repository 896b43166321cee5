//! Slips of a tokeniser, as switches.

/// A slip in cutting a text into tokens. A tokeniser with a slip is wrong on purpose: a
/// comparison is good if it tells each of them from the rules.
#[derive(Debug, Clone, Copy, PartialEq, Eq)]
pub enum TokenSlip {
    /// The shortest match for a Word: one byte.
    ShortWord,
    /// `$$` is two tokens.
    OneDollar,
    /// CR LF and no more is one LineBreak.
    OneBreak,
    /// A vertical tab is a Word's byte.
    VerticalTabInWord,
    /// A comment takes the line break behind it.
    CommentTakesBreak,
    /// `\` before a white byte stands alone, as the repository's lexer has it.
    BlankIsNoName,
    /// `\` with a white byte is a Word: wrong only where the repository's lexer differs too.
    BlankNameIsWord,
    /// `\ifstar` is Generic, as the repository's lexer has it.
    IfStarIsGeneric,
    /// `\iffalsex` is `\iffalse` and more.
    SpellingInFront,
    /// `\begin{}` is 27.
    EmptyName,
    /// A name in braces ends behind its first `*`, as the repository's lexer has it.
    OneStar,
    /// `\begin {a}` is 27.
    BlankBeforeBrace,
    /// The text of 27 and 28 has the braces around it.
    TextHasBraces,
    /// A buffer that is a row too short is written full and taken.
    RowShort,
    /// What there is room for is written before too little room is refused.
    WritesFirst,
    /// The limit of tokens is one higher.
    OneTokenMore,
    /// The limit of bytes is one higher.
    OneByteMore,
    /// Of the bytes over 127 the second is told.
    SecondByte,
    /// The size is judged before the bytes.
    SizeFirst,
}

impl TokenSlip {
    /// The slips that show on ASCII text.
    pub const IN_ASCII: [TokenSlip; 17] = [
        TokenSlip::ShortWord,
        TokenSlip::OneDollar,
        TokenSlip::OneBreak,
        TokenSlip::VerticalTabInWord,
        TokenSlip::CommentTakesBreak,
        TokenSlip::BlankIsNoName,
        TokenSlip::BlankNameIsWord,
        TokenSlip::IfStarIsGeneric,
        TokenSlip::SpellingInFront,
        TokenSlip::EmptyName,
        TokenSlip::OneStar,
        TokenSlip::BlankBeforeBrace,
        TokenSlip::TextHasBraces,
        TokenSlip::RowShort,
        TokenSlip::WritesFirst,
        TokenSlip::OneTokenMore,
        TokenSlip::OneByteMore,
    ];

    /// The slips that show with bytes over 127 alone.
    pub const IN_OTHER_BYTES: [TokenSlip; 2] = [TokenSlip::SecondByte, TokenSlip::SizeFirst];
}
