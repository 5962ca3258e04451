//! The words of the text form and what the numbers behind them may be. A new kind of block, status code or operand is a line here.

/// A kind of block: its number, its word, its operands, one letter each, and what stands for the last operand where it is left out.
///
/// f facility, s storage, q queue, l list, b block, c status code, v server of the code before it, u units of the storage before it,
/// r relation, t term; the letters of `NUMBERS` are plain numbers.
pub struct Kind {
    pub number: u32,
    pub word: &'static str,
    pub operands: &'static str,
    pub left_out: Option<u32>,
}

const fn kind(
    number: u32,
    word: &'static str,
    operands: &'static str,
    left_out: Option<u32>,
) -> Kind {
    Kind {
        number,
        word,
        operands,
        left_out,
    }
}

pub const KINDS: &[Kind] = &[
    kind(GENERATE, "GENERATE", "ly", Some(0)),
    kind(ADVANCE, "ADVANCE", "l", None),
    kind(TERMINATE, "TERMINATE", "a", Some(0)),
    kind(SEIZE, "SEIZE", "f", None),
    kind(RELEASE, "RELEASE", "f", None),
    kind(6, "ENTER", "su", Some(1)),
    kind(7, "LEAVE", "su", Some(1)),
    kind(WAITIF_STATUS, "WAITIF", "cv", None),
    kind(WAITIF_COMPARISON, "WAITIF", "trt", None),
    kind(IF, "IF", "trtb", None),
    kind(GOTO, "GOTO", "b", None),
    kind(LET, "LET", "pt", None),
    kind(13, "PRIORITY", "y", None),
    kind(SPLIT, "SPLIT", "nb", None),
    kind(15, "ARRIVE", "q", None),
    kind(16, "DEPART", "q", None),
    kind(WAITIF_JOINED, "WAITIF", "cvg", None),
    kind(ASSEMBLE, "ASSEMBLE", "m", None),
    kind(PREEMPT, "PREEMPT", "f", None),
    kind(RETURN, "RETURN", "f", None),
];

/// Kinds that are asked for by name.
pub const GENERATE: u32 = 1;
pub const ADVANCE: u32 = 2;
pub const TERMINATE: u32 = 3;
pub const SEIZE: u32 = 4;
pub const RELEASE: u32 = 5;
pub const WAITIF_STATUS: u32 = 8;
pub const WAITIF_COMPARISON: u32 = 9;
pub const IF: u32 = 10;
pub const GOTO: u32 = 11;
pub const LET: u32 = 12;
pub const SPLIT: u32 = 14;
pub const WAITIF_JOINED: u32 = 17;
pub const ASSEMBLE: u32 = 18;
pub const PREEMPT: u32 = 19;
pub const RETURN: u32 = 20;

/// The kind with this number.
pub fn kind_of(number: u32) -> Option<&'static Kind> {
    KINDS.iter().find(|kind| kind.number == number)
}

/// A plain number as an operand: its letter, its range and what it is.
pub struct Number {
    pub letter: char,
    pub low: u32,
    pub high: u32,
    pub what: &'static str,
}

const fn number(letter: char, low: u32, high: u32, what: &'static str) -> Number {
    Number {
        letter,
        low,
        high,
        what,
    }
}

pub const NUMBERS: &[Number] = &[
    number('a', 0, 65_535, "what the counter falls by"),
    number('y', 0, 127, "a priority"),
    number('p', 1, 4, "a parameter"),
    number('n', 1, 255, "the number of copies"),
    number('g', 1, 7, "how many blocks it goes back"),
    number('m', 2, 255, "how many of a family gather"),
];

/// The plain number behind a letter.
pub fn number_of(letter: char) -> Option<&'static Number> {
    NUMBERS.iter().find(|number| number.letter == letter)
}

/// A status code, 1 U first: its word, whether its server is a facility, and a comparison of terms that says the same.
pub struct Code {
    pub word: &'static str,
    pub facility: bool,
    pub term: &'static str,
    pub holds: &'static str,
}

const fn code(word: &'static str, facility: bool, term: &'static str, holds: &'static str) -> Code {
    Code {
        word,
        facility,
        term,
        holds,
    }
}

pub const CODES: &[Code] = &[
    code("U", true, "f$", "= 1"),
    code("NU", true, "f$", "= 0"),
    code("E", false, "s$", "= 0"),
    code("NE", false, "s$", "> 0"),
    code("F", false, "r$", "= 0"),
    code("NF", false, "r$", "> 0"),
];

/// The status code with this number.
pub fn code_of(number: u32) -> Option<&'static Code> {
    CODES.get((number as usize).wrapping_sub(1))
}

/// The relations, 1 = first.
pub const RELATIONS: &[&str] = &["=", "<>", "<", "<=", ">", ">="];

/// The relation with this number.
pub fn relation_of(number: u32) -> Option<&'static str> {
    RELATIONS.get((number as usize).wrapping_sub(1)).copied()
}

/// A tag of a term: its number, the letter before `$` where it has one, and what the number after it is (letters as for operands; k a
/// constant, o nothing but 0, w a value).
pub struct Tag {
    pub number: u32,
    pub letter: &'static str,
    pub of: char,
}

const fn tag(number: u32, letter: &'static str, of: char) -> Tag {
    Tag { number, letter, of }
}

pub const CONSTANT: u32 = 0;
pub const MINUS_CONSTANT: u32 = 1;
pub const PARAMETER: u32 = 2;
pub const CLOCK: u32 = 3;
pub const ENTRIES: u32 = 4;
pub const VALUE: u32 = 9;
pub const COMPARISON: u32 = 10;
pub const BRACKET: u32 = 11;

pub const TAGS: &[Tag] = &[
    tag(CONSTANT, "", 'k'),
    tag(MINUS_CONSTANT, "", 'k'),
    tag(PARAMETER, "", 'p'),
    tag(CLOCK, "", 'o'),
    tag(ENTRIES, "n", 'b'),
    tag(5, "q", 'q'),
    tag(6, "s", 's'),
    tag(7, "r", 's'),
    tag(8, "f", 'f'),
    tag(VALUE, "v", 'w'),
];

/// The tag of a simple term with this number.
pub fn tag_of(number: u32) -> Option<&'static Tag> {
    TAGS.iter().find(|tag| tag.number == number)
}

/// Words that begin a declaration.
pub const DECLARATIONS: &[&str] = &[
    "FACILITY", "STORAGE", "QUEUE", "LIST", "VALUE", "COUNTER", "EDITION",
];

/// What a letter names, in words.
pub fn thing(letter: char) -> &'static str {
    match letter {
        'f' => "facility",
        's' => "storage",
        'q' => "queue",
        'l' => "list",
        'w' => "value",
        'b' => "label",
        _ => "number",
    }
}

fn same(a: &str, b: &str) -> bool {
    a.eq_ignore_ascii_case(b)
}

pub fn is_block(word: &str) -> bool {
    KINDS.iter().any(|kind| same(kind.word, word))
}

/// Words that begin a statement name nothing else.
pub fn is_reserved(word: &str) -> bool {
    is_block(word) || DECLARATIONS.iter().any(|d| same(d, word))
}

/// The word among these that is nearest to a misspelt one, if one is near.
pub fn nearest<'a>(word: &str, among: impl Iterator<Item = &'a str>) -> Option<&'a str> {
    let word = word.to_lowercase();
    let most = if word.len() < 4 { 1 } else { 2 };
    among
        .map(|other| (distance(&word, &other.to_lowercase()), other))
        .filter(|(far, _)| *far <= most)
        .min_by_key(|(far, _)| *far)
        .map(|(_, other)| other)
}

/// How many letters must be changed, added, dropped or swapped with their neighbour.
fn distance(a: &str, b: &str) -> usize {
    let (a, b): (Vec<char>, Vec<char>) = (a.chars().collect(), b.chars().collect());
    let mut rows = vec![(0..=b.len()).collect::<Vec<usize>>()];
    for i in 1..=a.len() {
        let mut row = vec![i];
        for j in 1..=b.len() {
            let change = rows[i - 1][j - 1] + usize::from(a[i - 1] != b[j - 1]);
            let mut least = change.min(rows[i - 1][j] + 1).min(row[j - 1] + 1);
            if i > 1 && j > 1 && a[i - 1] == b[j - 2] && a[i - 2] == b[j - 1] {
                least = least.min(rows[i - 2][j - 2] + 1);
            }
            row.push(least);
        }
        rows.push(row);
    }
    rows[a.len()][b.len()]
}
