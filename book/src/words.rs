//! The words of a line, and what a single word means.

use crate::fault::Reason;
use crate::grammar::{is_name, Symbol, KINDS};

/// What is written between the two marks of a range.
const RANGE: &str = "..";
/// What is written between a left side and its places.
pub const ARROW: &str = "->";
/// The same as one character.
pub const SHORT_ARROW: &str = "\u{2192}";
/// What is written between places and a length.
pub const COLON: &str = ":";

/// The words of a line without its comment. Arrows and colons are words of their own, also without blanks around them.
pub fn words(line: &str) -> Vec<&str> {
    let mut words = Vec::new();
    let mut rest = line.trim_start_matches(is_blank);
    while !rest.is_empty() && !rest.starts_with('#') {
        let (word, after) = rest.split_at(word_end(rest));
        words.push(word);
        rest = after.trim_start_matches(is_blank);
    }
    words
}

/// Where the word at the front ends: before a blank, `#`, an arrow or a colon, or after it if it is one of the last two. The character
/// after a quote that begins the word, or that follows `..` in it, belongs to the word, whatever it is: so `' '`, `'#'` and `' '..':'` are
/// words.
fn word_end(line: &str) -> usize {
    if let Some(word) = sign(line) {
        return word.len();
    }
    let mut chars = line.char_indices();
    while let Some((at, c)) = chars.next() {
        match c {
            '\'' if at == 0 || line[..at].ends_with(RANGE) => drop(chars.next()),
            '#' | ' ' | '\t' => return at,
            _ if sign(&line[at..]).is_some() => return at,
            _ => (),
        }
    }
    line.len()
}

/// The arrow or the colon at the front.
fn sign(line: &str) -> Option<&'static str> {
    [ARROW, SHORT_ARROW, COLON].into_iter().find(|word| line.starts_with(word))
}

fn is_blank(c: char) -> bool {
    c == ' ' || c == '\t'
}

/// A kind: a decimal number from 0 to 31.
pub fn kind(word: &str) -> Result<u8, Reason> {
    if !is_digits(word) {
        return Err(Reason::NotAKind(word.to_string()));
    }
    match word.parse() {
        Ok(kind) if kind < KINDS => Ok(kind),
        _ => Err(Reason::KindOver(word.to_string())),
    }
}

/// A place: a kind, a mark or a range.
pub fn place(word: &str) -> Result<Symbol, Reason> {
    match word.as_bytes() {
        [b'\'' | b'=', _, _, b'.', b'.', ..] => range(word),
        [b'\'' | b'=', ..] => Ok(Symbol::Terminal(mark(word.as_bytes(), word, Reason::NotAMark)?)),
        [b'0'..=b'9', ..] if is_digits(word) => Ok(Symbol::Nonterminal(kind(word)?)),
        _ => Err(Reason::NotAPlace(word.to_string())),
    }
}

/// A range: two marks with `..` between them. The first mark and the points are five bytes.
fn range(word: &str) -> Result<Symbol, Reason> {
    let (first, rest) = word.as_bytes().split_at(3);
    let low = mark(first, word, Reason::NotARange)?;
    let high = mark(&rest[RANGE.len()..], word, Reason::NotARange)?;
    match low > high {
        true => Err(Reason::RangeReversed(word.to_string())),
        false => Ok(Symbol::Range(low, high)),
    }
}

/// A mark: `'A'` or `=41`. If it is none, the reason is `no` with the word to which it belongs.
fn mark(mark: &[u8], word: &str, no: fn(String) -> Reason) -> Result<u8, Reason> {
    let digit = |byte: u8| char::from(byte).to_digit(16).map(|digit| digit as u8);
    match *mark {
        [b'\'', b'\'' | b'\\', b'\''] => Err(Reason::NotInQuotes(word.to_string())),
        [b'\'', mark @ b' '..=b'~', b'\''] => Ok(mark),
        [b'=', high, low] => match (digit(high), digit(low)) {
            (Some(high), Some(low)) => Ok(16 * high + low),
            _ => Err(no(word.to_string())),
        },
        _ => Err(no(word.to_string())),
    }
}

/// A length in hundredths of a millimetre, from a word in millimetres.
pub fn length(word: &str) -> Result<i16, Reason> {
    let unsigned = word.strip_prefix(['+', '-']).unwrap_or(word);
    let (whole, decimals) = unsigned.split_once('.').unwrap_or((unsigned, "0"));
    if !is_digits(whole) || !is_digits(decimals) || decimals.len() > 2 {
        return Err(Reason::NotALength(word.to_string()));
    }
    let hundredths = 100 * number(whole) + number(decimals) * if decimals.len() == 1 { 10 } else { 1 };
    let signed = if word.starts_with('-') { -hundredths } else { hundredths };
    i16::try_from(signed).map_err(|_| Reason::LengthOver(word.to_string()))
}

/// A year: a decimal number from 0 to 65,535.
pub fn year(word: &str) -> Result<u16, Reason> {
    if !is_digits(word) {
        return Err(Reason::NotAYear(word.to_string()));
    }
    u16::try_from(number(word)).map_err(|_| Reason::YearOver(word.to_string()))
}

/// A name: one to eight capitals and digits.
pub fn letters(word: &str) -> Result<String, Reason> {
    match is_name(word) {
        true => Ok(word.to_string()),
        false => Err(Reason::NotAName(word.to_string())),
    }
}

/// How many of a rule's places come before its name: a decimal number, at most all of them.
pub fn places_before(word: &str, places: usize) -> Result<usize, Reason> {
    let before = if is_digits(word) { usize::try_from(number(word)).ok() } else { None };
    before.filter(|before| *before <= places).ok_or_else(|| Reason::NotAfter(word.to_string()))
}

/// The number that the digits write. If there are too many digits, a number that is out of every range here.
fn number(digits: &str) -> i64 {
    i64::from(digits.parse::<u32>().unwrap_or(u32::MAX))
}

fn is_digits(word: &str) -> bool {
    !word.is_empty() && word.bytes().all(|byte| byte.is_ascii_digit())
}
