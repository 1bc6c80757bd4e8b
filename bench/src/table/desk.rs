//! Times of requests at the desk: on pairs that take more and more steps, and on longer and longer strings over a long book.

use super::measure::{self, Beside, Comparing, Given};
use super::strings::Names;
use super::turns::milliseconds;
use super::{book, CALLED_LINES};
use crate::baseline::cells::TYPE;
use crate::generate::{self, Kind, PairKind};
use crate::pairs::{Order, Pair, Request};
use crate::sizes::{Cell, LARGEST_LIMIT};

/// The lengths of the pairs that are compared, and their budget.
const PAIR_LENGTHS: [usize; 6] = [4, 8, 12, 16, 20, 24];
const PAIR_BUDGET: u32 = 1_000_000;
const PAIR_LIMIT: u32 = 256;

/// The strings, and how many cells they have; the last are above the limit.
const STRINGS: [(&str, fn(&Names, usize) -> Vec<Cell>); 3] =
    [("arguments", Names::arguments), ("bound", Names::bound), ("bindings", Names::bindings)];
const STRING_LENGTHS: [usize; 4] = [16, 256, 4_096, 16_384];

/// The baseline's least time, in microseconds, that a ratio is given to.
const LEAST_COMPARED: f64 = 0.5;

/// What each comparison takes on pairs of growing length.
pub fn pairs() -> Option<()> {
    println!("\npairs by the first comparison and by the second, L = {PAIR_LIMIT}, at most {PAIR_BUDGET} steps; us verified of");
    println!("the call, and beyond that of `type` and `type`, with the ratio of this to the baseline's");
    println!("pair       length{}", "  code    steps     call us      beyond   ratio".repeat(2));
    let least = Pair { left: vec![TYPE], right: vec![TYPE] };
    for kind in PairKind::ALL {
        for length in PAIR_LENGTHS {
            let book = kind.book(length);
            let lines = generate::count_lines(&book);
            let given = Given { title: kind.title(), book: &book, lines, limit: PAIR_LIMIT };
            let pair = measure::last_lines(&given)?;
            print!("{:<11}{length:>6}", kind.title());
            for order in Order::BOTH {
                let request = Request { order, pair: &pair, budget: PAIR_BUDGET };
                let beside = Beside::Request(&Request { pair: &least, ..request });
                let comparing = measure::request(&given, &request, &beside, &measure::SHORT)?;
                let Comparing { answer, verified, .. } = &comparing;
                let (call, [own, _]) = (milliseconds(verified.first) * 1e3, own_times(&comparing));
                print!("{:>6}{:>9}{call:>12.1}{own:>12.1}{:>8}", answer.code, answer.steps, ratio(&comparing));
            }
            println!();
        }
    }
    Some(())
}

/// What tests and comparison of two identical strings take: beside the check of a long book, and by themselves over a short one.
pub fn strings() -> Option<()> {
    let (book, lines) = book(Kind::Theories, CALLED_LINES);
    let short_book = PairKind::Differing.book(0);
    let long = Given { title: Kind::Theories.title(), book: &book, lines, limit: LARGEST_LIMIT };
    let short = Given { title: "short", book: &short_book, lines: generate::count_lines(&short_book), limit: LARGEST_LIMIT };
    println!("\nidentical strings, L = {LARGEST_LIMIT}: the call over theories of {lines} lines beside its check, verified; and");
    println!("over a book of {} lines without its check, us, both programs", short.lines);
    println!("string       cells  code  runs      call ms     check ms   ratio     verified    baseline   ratio");
    for (title, string) in STRINGS {
        for length in STRING_LENGTHS {
            let [long, short] = [(&long, "_0"), (&short, "")].map(|(given, own)| {
                let string = string(&Names::of(given.book, own), length);
                let pair = Pair { left: string.clone(), right: string };
                let request = Request { order: Order::StepsFirst, pair: &pair, budget: 0 };
                measure::request(given, &request, &Beside::Check, &measure::MANY)
            });
            let (Comparing { answer, verified, .. }, short) = (long?, short?);
            let [own, baseline] = own_times(&short);
            println!(
                "{title:<10}{length:>8}{:>6}{:>6}{:>13.3}{:>13.3}{:>8.2}{own:>13.1}{baseline:>12.1}{:>8}",
                answer.code, verified.runs, milliseconds(verified.first), milliseconds(verified.second), verified.ratio,
                ratio(&short),
            );
        }
    }
    Some(())
}

/// What the calls of both programs take beyond those beside them, in microseconds.
fn own_times(comparing: &Comparing) -> [f64; 2] {
    [&comparing.verified, &comparing.baseline].map(|turns| turns.surplus * 1e3)
}

/// Of these times, as it is printed.
fn ratio(comparing: &Comparing) -> String {
    let [verified, baseline] = own_times(comparing);
    if baseline < LEAST_COMPARED { "-".to_string() } else { format!("{:.2}", verified / baseline) }
}
