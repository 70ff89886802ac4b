//! The proved library as a `Reader`. Calls that write a lent number, row or hand use the library's functions directly,
//! with canaries around what is lent, so that the safe wrapper hides nothing of what they leave. The other calls use the
//! wrapper (`rust/`).

use crate::reader::{Answer, FlatGrammar, Hand, Reader};
use filbozseg::{sys, Grammar, Refusal};
use std::io::Write;
use std::sync::{Mutex, MutexGuard, Once};
use std::thread::{self, ThreadId};
use std::time::{Duration, Instant};

/// The proved library.
pub struct Library;

/// The answer with this code.
fn said(code: u32) -> Answer {
    match code {
        0 => Answer::No,
        1 => Answer::Yes,
        _ => match Refusal::of_code(code) {
            Some(refusal) => Answer::Refused(refusal.number()),
            None => panic!("the library returned the code {code}"),
        },
    }
}

/// The answer that the wrapper returns.
fn wrapped(answer: Result<bool, Refusal>) -> Answer {
    match answer {
        Ok(true) => Answer::Yes,
        Ok(false) => Answer::No,
        Err(refusal) => Answer::Refused(refusal.number()),
    }
}

const CANARY: [u8; 32] = [0x5A; 32];

/// A place to lend, with canaries right before and right after it.
#[repr(C)]
struct Guarded<T> {
    before: [u8; 32],
    place: T,
    after: [u8; 32],
}

/// Lends a copy of the place between canaries, and copies back what the call leaves in it.
fn lend<T: Copy>(place: &mut T, call: impl FnOnce(*mut T) -> u32) -> u32 {
    let mut guarded = Guarded { before: CANARY, place: *place, after: CANARY };
    let all: *mut Guarded<T> = &mut guarded;
    // SAFETY: `all` points to a live value; no reference to it is used before the call ends.
    let code = call(unsafe { std::ptr::addr_of_mut!((*all).place) });
    assert!(guarded.before == CANARY && guarded.after == CANARY, "the library wrote outside what it was lent");
    *place = guarded.place;
    code
}

/// How long a call may take: a search that takes forever fails instead of hanging.
const CAP: Duration = Duration::from_secs(20);

/// The threads with a call in progress, and when the call began.
static UNDER_WAY: Mutex<Vec<(ThreadId, Instant)>> = Mutex::new(Vec::new());

/// A call in progress on this thread, until it is dropped.
struct UnderWay;

impl UnderWay {
    fn begin() -> UnderWay {
        under_way().push((thread::current().id(), Instant::now()));
        UnderWay
    }
}

impl Drop for UnderWay {
    fn drop(&mut self) {
        let this = thread::current().id();
        under_way().retain(|(thread, _)| *thread != this);
    }
}

fn under_way() -> MutexGuard<'static, Vec<(ThreadId, Instant)>> {
    UNDER_WAY.lock().expect("nobody panics while holding it")
}

/// Ends the run with a message once a call has taken too long.
fn watch() {
    loop {
        thread::sleep(Duration::from_millis(100));
        if under_way().iter().any(|(_, began)| began.elapsed() > CAP) {
            // not eprintln!: the test captures its text, and the abort loses it
            let _ = writeln!(std::io::stderr(), "a call takes longer than {CAP:?}");
            std::process::abort();
        }
    }
}

/// Makes the call while it is watched. One thread watches all calls: starting one for each would take longer than most calls.
fn capped<T>(call: impl FnOnce() -> T) -> T {
    static WATCHED: Once = Once::new();
    WATCHED.call_once(|| drop(thread::spawn(watch)));
    let _under_way = UnderWay::begin();
    call()
}

// SAFETY of each call: the pointers point to live values of these lengths, and those that are written overlap nothing.
impl Reader for Library {
    fn by_listing(&self) -> bool {
        false
    }

    fn load(&self, book: &[u8], grammar: &mut FlatGrammar, offset: &mut usize) -> Answer {
        said(lend(grammar, |grammar| {
            lend(offset, |offset| unsafe { sys::filbozseg_load(book.as_ptr(), book.len(), grammar, offset) })
        }))
    }

    fn open(&self, grammar: &FlatGrammar, year: u16, hand: &mut Hand, chart: &mut [u32]) -> Answer {
        said(lend(hand, |hand| unsafe { sys::filbozseg_open(grammar, year, hand, chart.as_mut_ptr(), chart.len()) }))
    }

    fn take(&self, grammar: &FlatGrammar, hand: &mut Hand, terminal: u8, chart: &mut [u32]) -> Answer {
        said(lend(hand, |hand| unsafe {
            sys::filbozseg_take(grammar, hand, terminal, chart.as_mut_ptr(), chart.len())
        }))
    }

    fn set_point(&self, grammar: &FlatGrammar, hand: &mut Hand, name: usize, chart: &mut [u32]) -> Answer {
        // the pointer comes from one for writing, so that a write would show in the chart
        said(lend(hand, |hand| unsafe {
            sys::filbozseg_set_point(grammar, hand, name, chart.as_mut_ptr(), chart.len())
        }))
    }

    fn return_to(&self, grammar: &FlatGrammar, hand: &mut Hand, name: usize, chart: &mut [u32]) -> Answer {
        said(lend(hand, |hand| unsafe {
            sys::filbozseg_return_to(grammar, hand, name, chart.as_mut_ptr(), chart.len())
        }))
    }

    fn learn(
        &self,
        grammar: &mut FlatGrammar,
        hand: &mut Hand,
        bytes: &[u8],
        chart: &mut [u32],
        offset: &mut usize,
    ) -> Answer {
        let ((b, n), (c, m)) = ((bytes.as_ptr(), bytes.len()), (chart.as_mut_ptr(), chart.len()));
        said(lend(grammar, |grammar| {
            lend(hand, |hand| lend(offset, |offset| unsafe { sys::filbozseg_learn(grammar, hand, b, n, c, m, offset) }))
        }))
    }

    fn check(&self, grammar: &FlatGrammar, input: &[u8], year: u16, offered: &[u16], chart: &mut [u32]) -> Answer {
        wrapped(filbozseg::check(&Grammar::from_row(grammar), input, year, offered, chart))
    }

    fn length(
        &self,
        grammar: &FlatGrammar,
        input: &[u8],
        year: u16,
        offered: &[u16],
        chart: &mut [u32],
        tenths: &mut i32,
    ) -> Answer {
        let ((w, n), (e, m)) = ((input.as_ptr(), input.len()), (offered.as_ptr(), offered.len()));
        said(lend(tenths, |tenths| unsafe {
            sys::filbozseg_length(grammar, w, n, year, e, m, chart.as_mut_ptr(), chart.len(), tenths)
        }))
    }

    fn same_build(
        &self,
        grammar: &FlatGrammar,
        input: &[u8],
        year: u16,
        one: &[u16],
        other: &[u16],
        chart: &mut [u32],
    ) -> Answer {
        wrapped(filbozseg::same_build(&Grammar::from_row(grammar), input, year, one, other, chart))
    }

    fn first(
        &self,
        grammar: &FlatGrammar,
        input: &[u8],
        year: u16,
        chart: &mut [u32],
        out: &mut [u16],
        nodes: &mut usize,
    ) -> Answer {
        let ((w, n), (c, m), (o, l)) =
            ((input.as_ptr(), input.len()), (chart.as_mut_ptr(), chart.len()), (out.as_mut_ptr(), out.len()));
        let call = |nodes| unsafe { sys::filbozseg_first(grammar, w, n, year, c, m, o, l, nodes) };
        match said(capped(|| lend(nodes, call))) {
            Answer::Yes => Answer::Nodes(*nodes),
            Answer::No => Answer::NoDerivation,
            refused => refused,
        }
    }

    fn next(
        &self,
        grammar: &FlatGrammar,
        input: &[u8],
        year: u16,
        offered: &[u16],
        chart: &mut [u32],
        out: &mut [u16],
        nodes: &mut usize,
    ) -> Answer {
        let ((w, n), (e, k)) = ((input.as_ptr(), input.len()), (offered.as_ptr(), offered.len()));
        let ((c, m), (o, l)) = ((chart.as_mut_ptr(), chart.len()), (out.as_mut_ptr(), out.len()));
        let call = |nodes| unsafe { sys::filbozseg_next(grammar, w, n, year, e, k, c, m, o, l, nodes) };
        match said(capped(|| lend(nodes, call))) {
            Answer::Yes => Answer::Nodes(*nodes),
            Answer::No => Answer::NoneLeft,
            refused => refused,
        }
    }

    fn count(&self, grammar: &FlatGrammar, input: &[u8], year: u16, chart: &mut [u32], count: &mut usize) -> Answer {
        let ((w, n), (c, m)) = ((input.as_ptr(), input.len()), (chart.as_mut_ptr(), chart.len()));
        let call = |count| unsafe { sys::filbozseg_count(grammar, w, n, year, c, m, count) };
        match capped(|| lend(count, call)) {
            1 => Answer::Count(*count),
            2 => Answer::More,
            code => match said(code) {
                Answer::Refused(number) => Answer::Refused(number),
                _ => panic!("count returned the code {code}"),
            },
        }
    }

    fn words(
        &self,
        grammar: &FlatGrammar,
        input: &[u8],
        year: u16,
        offered: &[u16],
        chart: &mut [u32],
        buffer: &mut [u8],
        bytes: &mut usize,
    ) -> Answer {
        let ((w, n), (e, k)) = ((input.as_ptr(), input.len()), (offered.as_ptr(), offered.len()));
        let ((c, m), (b, l)) = ((chart.as_mut_ptr(), chart.len()), (buffer.as_mut_ptr(), buffer.len()));
        match said(lend(bytes, |bytes| unsafe { sys::filbozseg_words(grammar, w, n, year, e, k, c, m, b, l, bytes) })) {
            Answer::Yes => Answer::Bytes(*bytes),
            Answer::Refused(number) => Answer::Refused(number),
            answer => panic!("words answered {answer:?}"),
        }
    }

    fn name(&self, book: &[u8], rule: usize, offset: &mut usize, length: &mut usize) -> Answer {
        let (found, part) = ((*offset, *length), filbozseg::name(book, rule));
        let answer = said(lend(offset, |offset| {
            lend(length, |length| unsafe { sys::filbozseg_name(book.as_ptr(), book.len(), rule, offset, length) })
        }));
        // the wrapper's part is the same: not only equal bytes, but the same place
        let due = if answer == Answer::Yes { &book[*offset..*offset + *length] } else { &[] };
        assert_eq!(part, due, "the wrapper's name, and that of the library");
        if answer == Answer::Yes {
            assert_eq!(part.as_ptr(), due.as_ptr(), "the wrapper's name is another place");
        } else {
            assert_eq!((*offset, *length), found, "numbers written without a name");
        }
        answer
    }
}
