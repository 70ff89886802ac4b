//! Names of rules (request U4 of document 02): where they are in a book, why one is refused, and the lookup.

use super::lent::{offset, same, Lent};
use super::Comparison;
use crate::lister::grammar::{commands, Grammar};
use crate::lister::names::{bare, lookup};
use crate::reader::{Answer, RULES};

/// How many rules of a random book are looked up at most.
const MOST: usize = 20;

impl Comparison<'_> {
    /// Looks up the names of a book, which has this grammar if it loads. Of the random books all rules are looked up, up to
    /// twenty, of other bytes a few; and numbers past the last rule.
    pub(super) fn lookups(&mut self, book: &[u8], grammar: Option<&Grammar>, name: &str) -> Result<(), String> {
        let count = grammar.map_or(0, |grammar| grammar.rules.len());
        let mut numbers = vec![self.rng.below(4), self.rng.below(RULES), count];
        if name == "load" {
            numbers.extend((0..count.min(MOST)).map(|rule| if count <= MOST { rule } else { self.rng.below(count) }));
            numbers.extend([count + 1, RULES, 255, 256, 256 + self.rng.below(4), 65_536, 1 << 32, usize::MAX]);
        }
        for rule in numbers {
            self.lookup(book, grammar, rule).map_err(|what| format!("name of rule {rule}: {what}"))?;
        }
        Ok(())
    }

    /// Looks up one name. Both numbers are written with a name only.
    fn lookup(&mut self, book: &[u8], grammar: Option<&Grammar>, rule: usize) -> Result<(), String> {
        let (lent, found) = (Lent::of(book, 0x60), (offset(&mut self.rng), offset(&mut self.rng)));
        let (before, (mut at, mut length)) = (lent.clone(), found);
        let answer = self.reader.name(lent.part(), rule, &mut at, &mut length);
        lent.against(&before, "the book's bytes")?;
        let due = lookup(book, rule);
        let (due_answer, due_part) = due.map_or((Answer::No, found), |part| (Answer::Yes, part));
        same("answer, offset and length", (answer, at, length), (due_answer, due_part.0, due_part.1))?;
        // Checks the lister itself: the part is the name in the grammar, after a 60.
        let name = grammar.and_then(|grammar| grammar.rule(rule)?.name);
        same("the lister's part", due.map(|(at, n)| &book[at..at + n]), name.as_ref().map(bare))?;
        if let Some((at, n)) = due {
            same("the lister's part comes after a 60", book[at - 1], 0x60)?;
            if book[..at].windows(n).any(|bytes| *bytes == book[at..at + n]) {
                self.counts.add("name: the same bytes before it");
            }
        }
        self.counts.add(match (due, grammar) {
            (Some((_, 8)), _) => "name: found, without filling",
            (Some(_), _) => "name: found",
            (None, None) => "name: the book does not load",
            (None, Some(grammar)) if rule < grammar.rules.len() => "name: a rule without one",
            _ => "name: no such rule",
        });
        Ok(())
    }

    /// Counts where the names of a loaded book are: before, between or after the places of their rules.
    pub(super) fn named_places(&mut self, book: &[u8], name: &str) {
        let commands = commands(book);
        for (number, at) in commands.iter().enumerate().filter(|(_, at)| book[**at] == 0x60) {
            let place = |at: Option<&usize>| at.is_some_and(|at| matches!(book[*at], 0x30 | 0x40 | 0x41));
            let where_ = match (place(commands.get(number - 1)), place(commands.get(number + 1))) {
                (false, false) => "of a rule without places",
                (false, true) => "before the places",
                (true, true) => "between places",
                (true, false) => "after the places",
            };
            self.counts.add(&format!("{name}: a name {where_}"));
            self.counts.add(&format!("{name}: a name of {}", bare(&book[at + 1..at + 9].try_into().unwrap()).len()));
        }
    }

    /// Counts why a book is refused at a command 60.
    pub(super) fn why_named(&mut self, book: &[u8], number: u8, at: usize) {
        match number {
            17 => {
                let (why, earlier) = (why(&book[at + 1..at + 9]), names_before(book, at));
                self.counts.add(&match why {
                    Some(why) => format!("refused 17: {why}"),
                    None if earlier.last() == Some(&&book[at + 1..at + 9]) => {
                        "refused 17: the previous name".to_string()
                    }
                    None => "refused 17: an earlier name".to_string(),
                });
            }
            3 if book[at] == 0x60 => {
                let cut = if at + 9 > book.len() { ", cut short" } else { "" };
                let opened = commands(book).iter().any(|other| *other < at && matches!(book[*other], 0x20 | 0x21));
                let which = match (at, opened) {
                    (0, _) => "first",
                    (_, false) => "before any rule",
                    _ => "again",
                };
                self.counts.add(&format!("refused 3: a name {which}{cut}"));
            }
            1 if commands(book).last().is_some_and(|last| book[*last] == 0x60 && last + 9 > book.len()) => {
                self.counts.add("refused 1: inside a name");
            }
            _ => (),
        }
    }
}

/// The names given before this offset.
fn names_before(book: &[u8], at: usize) -> Vec<&[u8]> {
    let named = commands(book).into_iter().filter(|other| *other < at && book[*other] == 0x60);
    named.map(|other| &book[other + 1..other + 9]).collect()
}

/// Why eight bytes are no name; None if they are one.
fn why(bytes: &[u8]) -> Option<&'static str> {
    let letter = |byte: &u8| matches!(byte, b'A'..=b'Z' | b'0'..=b'9');
    let last = bytes.iter().rposition(letter);
    match bytes {
        b"        " => Some("an empty name"),
        [0, 0, 0, 0, 0, 0, 0, 0] => Some("zeros"),
        _ if bytes.iter().any(|byte| !letter(byte) && *byte != b' ') => Some("another byte"),
        _ if bytes[..last.unwrap_or(0)].contains(&b' ') => Some("a blank before a letter"),
        _ => None,
    }
}
