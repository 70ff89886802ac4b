//! The plain side against a naive reading of the definitions, on small random grammars: each column as a fixpoint
//! over every way to cut a span, over filled and spoilt charts; each offered row against explicit trees.

use super::packed::Packed;
use super::recognizer::{fill, write_column, Recognizer};
use super::{checker, enumerator, flat, listing, loader, names, words, Grammar, Refusal, Rule, Symbol, CHART};
use crate::books;
use crate::random::Random;

/// A or B, or once in three times a range: of one byte, A to B, or all bytes.
fn terminal(random: &mut Random) -> Symbol {
    let mark = b'A' + random.below(2) as u8;
    match random.below(9) {
        0 => Symbol::Range(mark, mark),
        1 => Symbol::Range(b'A', b'B'),
        2 => Symbol::Range(0, 255),
        _ => Symbol::Terminal(mark),
    }
}

fn fits(symbol: &Symbol, mark: u8) -> bool {
    match *symbol {
        Symbol::Nonterminal(_) => false,
        Symbol::Terminal(m) => m == mark,
        Symbol::Range(low, high) => (low..=high).contains(&mark),
    }
}

fn small_grammar(random: &mut Random) -> Grammar {
    let kinds = 1 + random.below(5) as u8;
    let mut g = Grammar::ZERO;
    g.count = 1 + random.below(12);
    let cap = 1 + random.below(4);
    for rule in &mut g.rules[..g.count] {
        *rule = Rule { left: random.below(kinds as usize) as u8, count: random.below(cap + 1), ..Rule::ZERO };
        for place in &mut rule.places[..rule.count] {
            *place = if random.below(3) == 0 {
                terminal(random)
            } else {
                Symbol::Nonterminal(random.below(kinds as usize) as u8)
            };
        }
    }
    g
}

/// Whether the places cut a..b, each piece a fitting mark or a kind in its cell.
fn cuts(places: &[Symbol], a: usize, b: usize, w: &[u8], chart: &[u32]) -> bool {
    match places {
        [] => a == b,
        [Symbol::Nonterminal(k), rest @ ..] => {
            (a..=b).any(|c| chart[65 * a + c] >> k & 1 == 1 && cuts(rest, c, b, w, chart))
        }
        [place, rest @ ..] => a < b && fits(place, w[a]) && cuts(rest, a + 1, b, w, chart),
    }
}

fn naive_column(g: &Grammar, w: &[u8], n: usize, chart: &mut [u32]) {
    for i in 0..=n {
        chart[65 * i + n] = 0;
    }
    loop {
        let mut changed = false;
        for i in 0..=n {
            for rule in &g.rules[..g.count] {
                let bit = 1 << rule.left;
                if chart[65 * i + n] & bit == 0 && cuts(&rule.places[..rule.count], i, n, w, chart) {
                    chart[65 * i + n] |= bit;
                    changed = true;
                }
            }
        }
        if !changed {
            return;
        }
    }
}

#[test]
fn fill_is_the_naive_fixpoint() {
    let mut random = Random::new(1);
    let mut bits = 0u64;
    for _ in 0..4000 {
        let g = small_grammar(&mut random);
        let w: Vec<u8> = (0..random.below(8)).map(|_| b'A' + random.below(2) as u8).collect();
        let mut naive = [0u32; CHART];
        (0..=w.len()).for_each(|n| naive_column(&g, &w[..n], n, &mut naive));
        let p = Packed::new(&g, 0);
        let mut chart = [7u32; CHART + 3];
        fill(&p, &w, &mut chart);
        assert!(chart[..CHART] == naive && chart[CHART..] == [7; 3], "{g:?} {w:?}");
        bits += naive.iter().map(|x| x.count_ones() as u64).sum::<u64>();
    }
    assert!(bits > 20_000, "{bits}");
}

#[test]
fn a_column_over_a_spoilt_chart_is_the_naive_one() {
    let mut random = Random::new(2);
    for _ in 0..1500 {
        let g = small_grammar(&mut random);
        let n = random.below(7);
        let w: Vec<u8> = (0..n).map(|_| b'A' + random.below(2) as u8).collect();
        let mut chart: Vec<u32> = (0..CHART).map(|_| (random.draw() & random.draw() & 31) as u32).collect();
        let mut naive = chart.clone();
        naive_column(&g, &w, n, &mut naive);
        write_column(&Packed::new(&g, 0), &w, n, &mut chart);
        assert!(chart == naive, "{g:?} {w:?}");
    }
}

/// Lists readings by explicit trees, unless that takes too many steps.
struct Lister<'a> {
    g: &'a Grammar,
    w: &'a [u8],
    steps: usize,
}

impl Lister<'_> {
    /// The codes of the trees of kind k over from..to below the ancestors `above` (kind and span of each).
    fn trees(&mut self, k: u8, from: usize, to: usize, above: &[(u8, usize, usize)]) -> Vec<Vec<u16>> {
        if above.contains(&(k, from, to)) {
            return vec![];
        }
        let above = [above, &[(k, from, to)]].concat();
        let g = self.g;
        let mut out = vec![];
        for (r, rule) in g.rules[..g.count].iter().enumerate().filter(|(_, rule)| rule.left == k) {
            for row in self.rows(&rule.places[..rule.count], from, to, &above) {
                out.push([vec![(to - from) as u16, r as u16], row].concat());
            }
        }
        out
    }

    fn rows(&mut self, places: &[Symbol], from: usize, to: usize, above: &[(u8, usize, usize)]) -> Vec<Vec<u16>> {
        self.steps += 1;
        if self.steps > 20_000 {
            return vec![];
        }
        match places {
            [] if from == to => vec![vec![]],
            [] => vec![],
            [Symbol::Nonterminal(k), rest @ ..] => {
                let mut out = vec![];
                for mid in from..=to {
                    let heads = self.trees(*k, from, mid, above);
                    let tails = if heads.is_empty() { vec![] } else { self.rows(rest, mid, to, above) };
                    self.steps += heads.len() * tails.len();
                    for head in heads.iter().take(500) {
                        out.extend(tails.iter().take(500).map(|tail| [head.clone(), tail.clone()].concat()));
                    }
                }
                out
            }
            [place, rest @ ..] if from < to && fits(place, self.w[from]) => self.rows(rest, from + 1, to, above),
            _ => vec![],
        }
    }
}

#[test]
fn readings_are_checked_yes_and_damaged_rows_as_trees_say() {
    let mut random = Random::new(3);
    let (mut yes, mut no, mut empty, mut skipped) = (0, 0, 0, 0);
    for _ in 0..2000 {
        let g = small_grammar(&mut random);
        let w: Vec<u8> = (0..random.below(4)).map(|_| b'A' + random.below(2) as u8).collect();
        let mut lister = Lister { g: &g, w: &w, steps: 0 };
        let list = lister.trees(0, 0, w.len(), &[]);
        if lister.steps > 20_000 {
            skipped += 1;
            continue;
        }
        let mut chart = [0u32; CHART];
        for e in list.iter().filter(|e| e.len() <= 1024).take(20) {
            assert_eq!(checker::check(&g, &w, 0, e, &mut chart), Ok(true), "{g:?} {w:?} {e:?}");
            yes += 1;
            empty += w.is_empty() as u32;
            let mut f = e.clone();
            let at = random.below(f.len());
            f[at] = random.below(6) as u16;
            let listed = list.contains(&f);
            assert_eq!(checker::check(&g, &w, 0, &f, &mut chart), Ok(listed), "{g:?} {w:?} {f:?}");
            no += !listed as u32;
        }
    }
    assert!(
        yes > 2000 && no > 1000 && empty > 400 && skipped < 1000,
        "{yes} yes, {no} no, {empty} empty, {skipped} skipped"
    );
}

#[test]
fn the_first_reading_is_the_smallest_of_the_list() {
    let mut random = Random::new(5);
    let (mut handed, mut none, mut empty, mut skipped) = (0, 0, 0, 0);
    for _ in 0..4000 {
        let g = small_grammar(&mut random);
        let w: Vec<u8> = (0..random.below(5)).map(|_| b'A' + random.below(2) as u8).collect();
        let mut lister = Lister { g: &g, w: &w, steps: 0 };
        let list = lister.trees(0, 0, w.len(), &[]);
        if lister.steps > 20_000 {
            skipped += 1;
            continue;
        }
        let due = list.iter().filter(|e| e.len() <= 1024).min();
        let (p, mut chart, mut out) = (Packed::new(&g, 0), [0u32; CHART], [7u16; 1026]);
        fill(&p, &w, &mut chart);
        let got = enumerator::first_filled(&p, 0, &w, &chart, &mut out);
        match due {
            Some(e) => {
                assert_eq!(got, Ok(Some(e.len() / 2)), "{g:?} {w:?}");
                assert!(out[..e.len()] == e[..], "{g:?} {w:?}");
                handed += 1;
                empty += w.is_empty() as u32;
            }
            None => {
                assert_eq!(got, if list.is_empty() { Ok(None) } else { Err(Refusal::OnlyLargerTrees) }, "{g:?} {w:?}");
                none += 1;
            }
        }
        assert!(out[due.map_or(0, Vec::len)..].iter().all(|&number| number == 7), "{g:?} {w:?}");
    }
    assert!(handed > 800 && none > 500 && empty > 100 && skipped < 1500, "{handed} {none} {empty} {skipped}");
}

#[test]
fn each_reading_follows_the_one_before_it_in_the_list() {
    let mut random = Random::new(6);
    let (mut moved, mut last, mut empty, mut counted) = (0, 0, 0, 0);
    for _ in 0..4000 {
        let g = small_grammar(&mut random);
        let w: Vec<u8> = (0..random.below(6)).map(|_| b'A' + random.below(2) as u8).collect();
        let mut lister = Lister { g: &g, w: &w, steps: 0 };
        let mut list = lister.trees(0, 0, w.len(), &[]);
        if lister.steps > 20_000 || list.len() >= 500 {
            continue; // not all of them are listed
        }
        let tree = !list.is_empty();
        list.retain(|e| e.len() <= 1024);
        list.sort();
        let (p, mut chart) = (Packed::new(&g, 0), [0u32; CHART]);
        fill(&p, &w, &mut chart);
        let due = if tree && list.is_empty() { Err(Refusal::OnlyLargerTrees) } else { Ok(Some(list.len())) };
        assert_eq!(enumerator::count_filled(&p, 0, &w, &chart), due, "{g:?} {w:?}");
        counted += due.is_ok() as u32;
        for (at, e) in list.iter().enumerate().take(40) {
            let mut out = [7u16; 1026];
            let got = enumerator::next_filled(&p, 0, &w, e, &chart, &mut out);
            let due = list.get(at + 1).map_or(&[][..], |next| next);
            assert_eq!(got, Ok((!due.is_empty()).then_some(due.len() / 2)), "{g:?} {w:?} {e:?}");
            assert!(
                out[..due.len()] == *due && out[due.len()..].iter().all(|&number| number == 7),
                "{g:?} {w:?} {e:?}"
            );
            (moved, last) = (moved + !due.is_empty() as u32, last + due.is_empty() as u32);
            empty += w.is_empty() as u32;
        }
        let got = enumerator::next_filled(&p, 0, &w, &[w.len() as u16, 200], &chart, &mut [7; 1024]);
        assert_eq!(got, Err(Refusal::NotADerivation));
    }
    assert!(moved > 2500 && last > 600 && empty > 300 && counted > 2000, "{moved} {last} {empty} {counted}");
}

#[test]
fn readings_are_counted_up_to_4096() {
    let count =
        |book: &[u8], n: usize| enumerator::count(&loader::load(book).unwrap(), &vec![b'A'; n], 0, &mut [0; CHART]);
    assert_eq!(
        [1, 2, 3, 9, 10, 64].map(|n| count(&books::pairs(), n).unwrap()),
        [1, 1, 2, 1430, 4862, 0].map(|n| (1..=4096).contains(&n).then_some(n))
    );
    assert_eq!((count(&books::boundary(false), 12), count(&books::boundary(true), 12)), (Ok(Some(4096)), Ok(None)));
    assert_eq!((count(&books::deepest().0, 16), count(&books::bush().0, 1)), (Ok(Some(1)), Ok(Some(1))));
    assert_eq!((count(&books::unit_graph(), 1), count(&books::pairs(), 0)), (Ok(Some(1)), Ok(Some(0))));
    assert_eq!(count(&books::pairs(), 65), Err(Refusal::InputLength));
    assert_eq!(count(&books::deepest().0, 17), Err(Refusal::OnlyLargerTrees));
    let (book, reading) = books::last_of_many();
    let g = loader::load(&book).unwrap();
    assert_eq!(enumerator::next(&g, &[b'A'; 64], 0, &reading, &mut [0; CHART], &mut [7; 1024]), Ok(None));
}

#[test]
fn the_limit_of_512_parts_decides_what_is_first() {
    let first = |book: &[u8], n: usize| {
        let (g, mut chart, mut out) = (loader::load(book).unwrap(), [0; CHART], [7; 1024]);
        enumerator::first(&g, &vec![b'A'; n], 0, &mut chart, &mut out).map(|n| n.map(|n| out[..2 * n].to_vec()))
    };
    for (book, input, reading) in [books::deepest(), books::bush()] {
        assert_eq!(first(&book, input.len()), Ok(Some(reading)));
    }
    assert_eq!(first(&books::deepest().0, 17), Err(Refusal::OnlyLargerTrees));
    assert_eq!(first(&books::wide(false), 64), Err(Refusal::OnlyLargerTrees));
    assert_eq!(first(&books::wide(true), 64).unwrap().unwrap().len(), 2 * 73);
    let expensive = [&[1, 1, 1, 3, 1, 5][..], &[&[0, 6][..], &[0, 7].repeat(8)].concat().repeat(7)].concat();
    assert_eq!(first(&books::forbidden(), 8), Ok(Some([&[8, 0][..], &expensive.repeat(7), &[1, 4]].concat())));
}

#[test]
fn lengths_round_halves_to_the_even_tenth() {
    let (sums, tenths) = ([4625, 4635, 5, -25, 24, -4, -35, 26, -26], [462, 464, 0, -2, 2, 0, -4, 3, -3]);
    assert_eq!(sums.map(checker::rounded), tenths);
}

#[test]
fn faulty_books_have_the_numbers_and_offsets_of_the_design() {
    let fault = |b: &[u8]| loader::load(b).map(|_| ()).map_err(|(r, at)| (u32::from(r.number()), at));
    assert_eq!(fault(&[]), Err((1, 0)));
    assert_eq!(fault(&[0x10]), Err((1, 1)));
    assert_eq!(fault(&[0x50]), Err((3, 0)));
    assert_eq!(fault(&[0x10, 0x20]), Err((4, 0)));
    assert_eq!(fault(&[0x10, 0, 0x10]), Err((3, 2)));
    assert_eq!(fault(&[0x10, 0, 0x20, 0xff]), Err((1, 4)));
    assert_eq!(fault(&[0x10, 0, 0x50, 0]), Err((7, 3)));
    assert_eq!((fault(&[0x10, 0, 0x60]), fault(&[0x10, 0, 0x70])), (Err((3, 2)), Err((2, 2))));
    let rule = |more: &[u8]| fault(&[&[0x10, 0, 0x20, 0, 0, 0], more].concat());
    assert_eq!(fault(&[0x10, 0, 0x41, 0x30, 0x39]), Err((3, 2)));
    assert_eq!((rule(&[0x41]), rule(&[0x41, 0xFF])), (Err((1, 7)), Err((1, 8))));
    assert_eq!((rule(&[0x41, 0x39, 0x30]), rule(&[0x41, 0x30, 0x39, 0x50])), (Err((16, 6)), Ok(())));
    let ninth = |more: &[u8]| rule(&[&[0x40, 0x41].repeat(8), more].concat());
    assert_eq!(ninth(&[0x41, 0x39, 0x30]), Err((16, 22)));
    assert_eq!((ninth(&[0x41, 0x30, 0x39]), ninth(&[0x41, 0x39])), (Err((6, 22)), Err((1, 24))));
    assert_eq!(fault(&[0x10, 0, 0x50]), Ok(()));
}

#[test]
fn faulty_names_have_the_numbers_and_offsets_of_the_design() {
    let fault = |b: &[u8]| loader::load(b).map(|_| ()).map_err(|(r, at)| (u32::from(r.number()), at));
    let rule = |more: &[u8]| fault(&[b"\x10\x00\x20\x00\x00\x00", more].concat());
    assert_eq!((fault(b"\x60"), fault(b"\x10\x00\x60SEAL    ")), (Err((3, 0)), Err((3, 2))));
    assert_eq!((rule(b"\x60SEAL   "), rule(b"\x60seal   ")), (Err((1, 14)), Err((1, 14))));
    for name in [b"        ", b"\0\0\0\0\0\0\0\0", b"SEAL\0\0\0\0", b" SEAL   ", b"SEA L   ", b"seal    ", b"SEAL/:@["]
    {
        assert_eq!(rule(&[&[0x60][..], name].concat()), Err((17, 6)), "{name:?}");
    }
    for name in [b"A       ", b"09AZ    ", b"SEALSEAL"] {
        let named = [&[0x60][..], name].concat();
        assert_eq!(rule(&[&named[..], &[0x50]].concat()), Ok(()), "{name:?}");
        assert_eq!(rule(&[&named[..], &[0x60]].concat()), Err((3, 15)), "a second name");
        let next = [0x20, 0, 0, 0];
        assert_eq!(rule(&[&named[..], &next, &next, &named].concat()), Err((17, 23)), "an earlier name");
    }
}

/// The bytes of a rule, cut at each byte and with each byte changed: the grammar, or the fault, is that of the book with the rule.
#[test]
fn a_learnt_rule_is_that_of_the_joined_book() {
    let front = books::named(b"\x10\x00\x20\x00\x64\x00\x40A\x20\x00\xc8\x00\x40B\x50");
    let front = &front[..front.len() - 1];
    let g = loader::load(&[front, b"\x50"].concat()).unwrap();
    let rule = b"\x21\x00\x64\x00\x01\x00\x02\x00\x40A\x60RULE0002\x30\x00\x41AB";
    let mut seen = [0; 3];
    let mut compared = |bytes: &[u8]| {
        let mut state = Recognizer { bytes: [65; 64], count: 3, year: 1, points: [4; 8] };
        let mut chart = vec![7; CHART];
        match state.learn(&g, bytes, &mut chart) {
            Ok((longer, complete)) => {
                assert_eq!(Ok(&longer), loader::load(&[front, bytes, b"\x50"].concat()).as_ref(), "{bytes:02x?}");
                let mut due = vec![7; CHART];
                fill(&Packed::new(&longer, 1), b"AAA", &mut due);
                assert_eq!((chart, complete), (due.clone(), due[3] & 1 == 1));
                assert_eq!((state.count, state.year, state.points, state.bytes[3..] == [0; 61]), (3, 1, [4; 8], true));
                seen[0] += 1;
            }
            Err((Refusal::NotOneRule, at)) => {
                let opens = bytes.get(at).is_some_and(|byte| matches!(byte, 0x20 | 0x21));
                assert!(if at == 0 { !opens } else { opens || matches!(bytes[at], 0x10 | 0x50) }, "{bytes:02x?}");
                seen[1] += 1;
            }
            Err((refusal, at)) => {
                let end: &[u8] = if refusal == Refusal::UnexpectedEnd { b"" } else { b"\x50" };
                let joined = [front, bytes, end].concat();
                assert_eq!(loader::load(&joined), Err((refusal, front.len() + at)), "{bytes:02x?}");
                seen[2] += 1;
            }
        }
    };
    (0..=rule.len()).for_each(|cut| compared(&rule[..cut]));
    for at in 0..rule.len() {
        for byte in [0, 1, b' ', b'1', b'A', 0x10, 0x20, 0x21, 0x30, 0x40, 0x50, 0x60, 0xff] {
            compared(&[&rule[..at], &[byte], &rule[at + 1..]].concat());
        }
    }
    assert!(seen.iter().all(|&times| times > 15), "{seen:?}");
}

#[test]
fn texts_and_names_are_those_of_request_u4() {
    let book = b"\x10\x00\x20\x00\xf8\x11\x30\x01\x60BODY    \x30\x01\x20\x01\x00\x00\x20\x01\x19\x00\x40A\x50";
    let g = loader::load(book).unwrap();
    let text = |reading: &[u16]| {
        let mut text = [0; 40];
        let bytes = words::words(&g, b"A", 0, reading, &mut [0; CHART], &mut text).unwrap();
        String::from_utf8(text[..bytes].to_vec()).unwrap()
    };
    assert_eq!(text(&[1, 0, 0, 1, 1, 2]), "BODY(#001(),#002(=41))");
    assert_eq!(text(&[1, 0, 1, 2, 0, 1]), "BODY(#002(=41),#001())");
    let refused =
        |reading: &[u16], room: usize| words::words(&g, b"A", 0, reading, &mut [0; CHART], &mut vec![0; room]);
    assert_eq!(
        (refused(&[1, 0, 0, 1, 1, 2], 21), refused(&[], 0)),
        (Err(Refusal::TextTooLong), Err(Refusal::NotADerivation))
    );
    assert_eq!([0, 1, 2, 3].map(|r| names::lookup(book, r)), [Some(9..13), None, None, None]);
    assert_eq!(names::lookup(&book[..20], 0), None);
}

#[test]
fn check_8_judges_names() {
    let g = loader::load(&books::named(&books::full())).unwrap();
    let with = |r: usize, name: names::Name, count: usize| {
        let mut g = g.clone();
        (g.rules[r].name, g.count) = (name, count);
        g.valid()
    };
    assert!(g.valid() && with(5, names::NONE, 128) && with(127, *b"SEAL    ", 128));
    assert!(!with(5, g.rules[127].name, 128) && !with(127, g.rules[0].name, 128) && with(127, g.rules[0].name, 127));
    assert!(!with(5, *b"SEAL\0\0\0\0", 128) && !with(5, *b"        ", 128) && with(5, *b"        ", 5));
}

/// Whether kind k has an empty tree of at most this height.
fn has_empty_tree(g: &Grammar, k: u8, height: u8) -> bool {
    let low = |place: &Symbol| matches!(place, Symbol::Nonterminal(k) if has_empty_tree(g, *k, height - 1));
    let mut rules = g.rules[..g.count].iter().filter(|rule| rule.left == k);
    height > 0 && rules.any(|rule| rule.places[..rule.count].iter().all(low))
}

#[test]
fn the_depth_is_the_height_of_the_highest_of_the_lowest_empty_trees() {
    let mut random = Random::new(7);
    let mut seen = [0; 6];
    for _ in 0..4000 {
        // no tree of a kind needs to be higher than there are kinds
        let g = small_grammar(&mut random);
        let due = (0..5).filter_map(|k| (1..=5).find(|height| has_empty_tree(&g, k, *height))).max().unwrap_or(0);
        assert_eq!(loader::nullable_depth(&g, loader::nullable_set(&g)), due, "{g:?}");
        seen[usize::from(due)] += 1;
    }
    assert!(seen[0] > 500 && seen[1] > 1000 && seen[2] > 300 && seen[3] > 25, "{seen:?}");
    let depth = |book: &[u8]| loader::load(book).unwrap().depth;
    assert_eq!((depth(&books::chain(&[&[]])), depth(&books::pairs())), (32, 0));
}

#[test]
fn the_flat_row_is_read_as_it_was_written() {
    let mut random = Random::new(4);
    for _ in 0..200 {
        let mut g = small_grammar(&mut random);
        g.rules[0].length = random.draw() as i16;
        g.rules[0].name = random.draw().to_le_bytes();
        let mut row = [9u16; flat::FLAT];
        flat::write(&g, &mut row);
        assert_eq!(flat::read(&row), g);
    }
}

fn text(book: &[u8], plate: &[u8]) -> String {
    text_in(book, plate, 0)
}

fn text_in(book: &[u8], plate: &[u8], year: u16) -> String {
    let mut text = Vec::new();
    listing::list(book, plate, year, &mut text).unwrap();
    String::from_utf8(text).unwrap()
}

#[test]
fn the_listing_program_goes_by_the_year() {
    let seal = b"\x10\x00\x21\x00\x64\x00\xCE\x07\xD7\x07\x40\x41\x21\x00\xC8\x00\xD8\x07\xFF\xFF\x40\x41\x50";
    assert_eq!((text(seal, b"A"), text_in(seal, b"A", 1997)), ("NO READING\n".into(), "NO READING\n".into()));
    for (year, line) in [(1998, "1.0 = 10"), (2007, "1.0 = 10"), (2008, "1.1 = 20"), (65_535, "1.1 = 20")] {
        assert_eq!(text_in(seal, b"A", year), format!("1: {line}\nREADINGS 1\n"), "{year}");
    }
}

#[test]
fn the_listing_program_prints_the_lines_of_document_01() {
    let t = b"\x10\x00\x20\x00\xF8\x11\x30\x01\x30\x01\x20\x01\x00\x00\x20\x01\x19\x00\x40\x41\x50";
    assert_eq!(text(t, b"A"), "1: 1.0 0.1 1.2 = 462\n2: 1.0 1.2 0.1 = 462\nREADINGS 2\n");
    assert_eq!(text(t, b"AAA"), "NO READING\n");
    assert_eq!(text(t, b""), "1: 0.0 0.1 0.1 = 460\nREADINGS 1\n");
    assert_eq!((text(t, &[b'A'; 64]), text(t, &[b'A'; 65])), ("NO READING\n".into(), "REFUSED 9\n".into()));
    assert_eq!(text(b"\x10\x00\x50", b""), "NO READING\n");
    assert_eq!(text(&t[..20], b""), "REFUSED 1\n");
    assert_eq!(text(b"\x10\x00\x20\x00\xE7\xFF\x40\x41\x50", b"A"), "1: 1.0 = -2\nREADINGS 1\n");
    assert_eq!(text(b"\x10\x00\x20\x00\xFC\xFF\x40\x41\x50", b"A"), "1: 1.0 = 0\nREADINGS 1\n");
    assert_eq!(text(&books::deepest().0, &[b'A'; 17]), "REFUSED 13\n");
    let pairs = books::pairs();
    for (marks, lines, last) in [(9, 1430, "READINGS 1430"), (10, 4096, "READINGS more")] {
        let text = text(&pairs, &vec![b'A'; marks]);
        assert_eq!((text.lines().count(), text.lines().last()), (lines + 1, Some(last)));
        assert!(text.lines().zip(1..=lines).all(|(line, place)| line.starts_with(&format!("{place}: {marks}.0 "))));
    }
    let mut room = [0; 70_000];
    assert!(listing::list(&pairs, &[b'A'; 10], 0, &mut room[..]).is_err(), "the text does not fit");
}
