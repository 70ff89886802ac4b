//! Random books within the sizes of document 01, and random spellings of their texts.

use outside_tests::books::{filled, Draft, Rng, Sym};

/// A random book: any start, 0 to 128 rules of 0 to 8 places, any kind, mark, range, length, years and name.
pub fn draft(rng: &mut Rng) -> Draft {
    let mut draft = Draft::new(rng.below(32) as u8);
    let rules = match rng.below(6) {
        0 => rng.pick(&[0, 1, 127, 128]),
        1 => rng.within(0, 128),
        _ => rng.below(12),
    };
    for _ in 0..rules {
        let length = match rng.below(4) {
            0 => rng.pick(&[i16::MIN, i16::MAX, -100, -99, -1, 0, 1, 99, 100]),
            1 => rng.within(0, 300) as i16 - 150,
            _ => rng.draw() as i16,
        };
        let left = rng.below(32) as u8;
        let places = (0..rng.below(9)).map(|_| symbol(rng)).collect();
        draft.rules.push((left, length, places));
        if rng.one_in(3) {
            let (one, other) = (rng.draw() as u16, rng.draw() as u16);
            let (one, other) = rng.pick(&[(one, other), (one, one), (0, u16::MAX), (1998, 2007), (255, 256)]);
            draft.years.insert(draft.rules.len() - 1, (one.min(other), one.max(other)));
        }
        if rng.one_in(3) {
            name(rng, &mut draft);
        }
    }
    draft
}

/// Names the last rule, unless an earlier one has the name. The name comes before, between or after the places.
fn name(rng: &mut Rng, draft: &mut Draft) {
    let any = b"ABCDEFGHIJKLMNOPQRSTUVWXYZ0123456789".map(char::from);
    let letters: String = (0..rng.pick(&[1, 2, 2, 3, 5, 7, 8, 8])).map(|_| rng.pick(&any)).collect();
    let places = draft.rules[draft.rules.len() - 1].2.len();
    let after = rng.within(0, places);
    let after = rng.pick(&[0, after, places, places]);
    if draft.names.values().all(|(other, _)| *other != filled(&letters)) {
        draft.names.insert(draft.rules.len() - 1, (filled(&letters), after));
    }
}

fn symbol(rng: &mut Rng) -> Sym {
    match rng.below(6) {
        0..=2 => Sym::N(rng.below(32) as u8),
        3 | 4 => Sym::T(rng.draw() as u8),
        _ => {
            let (one, other) = (rng.draw() as u8, rng.draw() as u8);
            let (one, other) =
                rng.pick(&[(one, other), (one, one), (0, 255), (b'0', b'9'), (b' ', b'#'), (b'\'', b'\\')]);
            Sym::R(one.min(other), one.max(other))
        }
    }
}

/// A text of the book in a random spelling, wherever there is more than one.
pub fn spelt(rng: &mut Rng, draft: &Draft) -> String {
    let mut text = rng.pick(&["", "", "\u{feff}"]).to_string();
    let start = kind(rng, draft.start);
    let statement = format!("start{}{start}", blanks(rng));
    line(rng, &mut text, &statement);
    for (number, (left, length, places)) in draft.rules.iter().enumerate() {
        let mut words = vec![kind(rng, *left), sign(rng, &["->", "\u{2192}"])];
        for (at, place) in places.iter().enumerate() {
            words.push(if at > 0 { blanks(rng) } else { String::new() });
            words.push(match *place {
                Sym::N(k) => kind(rng, k),
                Sym::T(t) => mark(rng, t),
                Sym::R(low, high) => format!("{}..{}", mark(rng, low), mark(rng, high)),
            });
        }
        if places.is_empty() {
            words.push("-".to_string());
        }
        words.extend([sign(rng, &[":"]), millimetres(rng, *length)]);
        if let Some((first, last)) = draft.years.get(&number) {
            words.extend([
                blanks(rng),
                "years".to_string(),
                blanks(rng),
                year(rng, *first),
                blanks(rng),
                year(rng, *last),
            ]);
        }
        if let Some((name, after)) = draft.names.get(&number) {
            let letters = String::from_utf8_lossy(name).trim_end().to_string();
            words.extend([blanks(rng), "name".to_string(), blanks(rng), letters]);
            if *after < places.len() || rng.one_in(2) {
                words.extend([blanks(rng), "after".to_string(), blanks(rng), kind(rng, *after as u8)]);
            }
        }
        line(rng, &mut text, &words.concat());
    }
    if rng.one_in(4) {
        text.truncate(text.trim_end_matches(['\r', '\n']).len());
    }
    text
}

/// What separates two words.
fn blanks(rng: &mut Rng) -> String {
    rng.pick(&[" ", " ", "\t", "  \t "]).to_string()
}

/// An arrow or a colon, with and without blanks around it.
fn sign(rng: &mut Rng, signs: &[&'static str]) -> String {
    let around = ["", "", " ", "\t "];
    [rng.pick(&around), rng.pick(signs), rng.pick(&around)].concat()
}

/// Adds a line with a statement, with blanks and comments, and with empty lines before it.
fn line(rng: &mut Rng, text: &mut String, statement: &str) {
    let end = rng.pick(&["\n", "\n", "\r\n"]);
    let comment = rng.pick(&["#", "# start 1", "#0 -> 1 : 2", "# 'é', \u{2028}", "##'"]);
    for _ in 0..rng.pick(&[0, 0, 0, 1, 3]) {
        *text += rng.pick(&["", "", " \t", "\t"]);
        *text += rng.pick(&["", comment]);
        *text += end;
    }
    *text += rng.pick(&["", "", " ", "\t "]);
    *text += statement;
    *text += rng.pick(&["", "", " ", "\t\t"]);
    *text += rng.pick(&["", comment]);
    *text += end;
}

fn kind(rng: &mut Rng, kind: u8) -> String {
    format!("{}{kind}", rng.pick(&["", "", "0", "000"]))
}

fn year(rng: &mut Rng, year: u16) -> String {
    format!("{}{year}", rng.pick(&["", "", "0", "000"]))
}

fn mark(rng: &mut Rng, mark: u8) -> String {
    match rng.below(3) {
        0 if (b' '..=b'~').contains(&mark) && !b"'\\".contains(&mark) => format!("'{}'", char::from(mark)),
        1 => format!("={mark:02x}"),
        _ => format!("={mark:02X}"),
    }
}

fn millimetres(rng: &mut Rng, length: i16) -> String {
    let hundredths = i32::from(length).abs();
    let (whole, tenth, hundredth) = (hundredths / 100, hundredths / 10 % 10, hundredths % 10);
    let decimals = match (tenth, hundredth) {
        (0, 0) => rng.pick(&["", ".0", ".00"]).to_string(),
        (_, 0) if rng.one_in(2) => format!(".{tenth}"),
        _ => format!(".{tenth}{hundredth}"),
    };
    let sign = match length {
        ..0 => "-",
        0 => rng.pick(&["", "+", "-"]),
        _ => rng.pick(&["", "+"]),
    };
    format!("{sign}{}{whole}{decimals}", rng.pick(&["", "", "0", "00"]))
}
