//! The proved planner, through its two C calls, beside the two planners of the package `reference`: on each of well over
//! 100,000 texts both calls must answer alike, for every row, for one past the last and for rows far beyond.
//!
//! The calls answer numbers alone. What the program `sleeptable` prints, a plan or a refusal with its line, place and value,
//! is compared by a second test.
//!
//! The texts are the same in every run. SLEEPPLAN_SEED=n takes others, and SLEEPPLAN_SHARE=n only about every n-th. A text
//! with two answers is printed with its bytes escaped.

mod random;
mod texts;

use std::io::Write;
use std::path::{Path, PathBuf};
use std::process::{Command, Stdio};

use random::Random;
use reference::{fast, plan};
use texts::Use;

/// What the calls add to a refusal's number where a sleep is asked for.
const REFUSED: u32 = 1_000_000;
const NO_SUCH_ROW: u32 = 12;
/// Rows that no table has; the first has the low 32 bits of row 0.
const FAR_ROWS: [u64; 4] = [1 << 32, 1 << 63, (1 << 63) + 1, u64::MAX];

/// How many texts of a family were answered with each number; 0 is acceptance.
struct Tally {
    family: &'static str,
    texts: [u64; 12],
    calls: u64,
    seconds: f64,
}

impl Tally {
    fn total(&self) -> u64 {
        self.texts.iter().sum()
    }
}

fn checked(text: &[u8]) -> u32 {
    sleepplan::check(text).map_or_else(|refusal| refusal.number(), |()| 0)
}

fn quoted(text: &[u8], row: u64) -> u32 {
    sleepplan::sleep(text, row).unwrap_or_else(|refusal| REFUSED + refusal.number())
}

/// Compares all answers of the two calls on a text.
fn compare_calls(text: &[u8], tally: &mut Tally) {
    let believed = plan(text);
    let expected = believed.as_ref().map_or_else(|record| record.number, |_| 0);
    // A block of its own length, so that a memory checker sees a read past the end.
    let text: Box<[u8]> = text.into();
    let shown = || text.escape_ascii();
    assert_eq!(expected, fast::check(&text), "reference and quick check of \"{}\"", shown());
    assert_eq!(expected, checked(&text), "reference and planner check \"{}\"", shown());
    tally.texts[expected as usize] += 1;
    tally.calls += 1;

    let lines = text.iter().filter(|&&byte| byte == b'\n').count().clamp(1, 65) as u64;
    for row in (0..=lines).chain(FAR_ROWS) {
        let expected = match &believed {
            Ok(plan) => usize::try_from(row)
                .ok()
                .and_then(|row| plan.sleeps.get(row))
                .map_or(REFUSED + NO_SUCH_ROW, |&s| s as u32),
            Err(record) => REFUSED + record.number,
        };
        assert_eq!(expected, quoted(&text, row), "reference and planner quote row {row} of \"{}\"", shown());
        if row < 2 || row == lines {
            assert_eq!(expected, fast::sleep(&text, row), "reference and quick quote row {row} of \"{}\"", shown());
        }
        tally.calls += 1;
    }
}

/// The program that prints plans: the one of the repository, or what SLEEPTABLE names.
fn program() -> PathBuf {
    let built = Path::new(env!("CARGO_MANIFEST_DIR")).join("../../crates/sleeptable/out/sleeptable");
    std::env::var_os("SLEEPTABLE").map_or(built, PathBuf::from)
}

/// Compares what the program prints of a text: the plan, or the refusal's whole record.
fn compare_prints(text: &[u8], tally: &mut Tally) {
    let believed = plan(text);
    let expected = believed.as_ref().map_or_else(|record| format!("{record}\n"), |plan| plan.to_string());
    let mut child = Command::new(program())
        .stdin(Stdio::piped())
        .stdout(Stdio::piped())
        .stderr(Stdio::null())
        .spawn()
        .expect("the program sleeptable is not there");
    // The program stops reading where a text is too long.
    let _ = child.stdin.take().unwrap().write_all(text);
    let output = child.wait_with_output().unwrap();
    assert_eq!(
        expected.escape_default().to_string(),
        output.stdout.escape_ascii().to_string(),
        "of \"{}\"",
        text.escape_ascii()
    );
    assert_eq!(output.status.success(), believed.is_ok(), "the status at \"{}\"", text.escape_ascii());
    tally.texts[believed.map_or_else(|record| record.number, |_| 0) as usize] += 1;
    tally.calls += 1;
}

fn number_of(variable: &str, default: u64) -> u64 {
    std::env::var(variable).map_or(default, |value| value.parse().expect("a number"))
}

type Compare = fn(&[u8], &mut Tally);

fn run(family: &'static str, compare: Compare, texts: impl FnOnce(Use)) -> Tally {
    let start = std::time::Instant::now();
    let mut tally = Tally { family, texts: [0; 12], calls: 0, seconds: 0.0 };
    texts(&mut |text| compare(text, &mut tally));
    tally.seconds = start.elapsed().as_secs_f64();
    tally
}

/// The families, shared out to the processor's cores by the order in which they end.
fn all_families(compare: Compare, seed: u64, share: u64) -> Vec<Tally> {
    type Family = (&'static str, Box<dyn Fn(&mut Random, Use) + Send + Sync>);
    let some = move |count: u64| (count / share).max(1);
    let stride = share as usize;
    let families: Vec<Family> = vec![
        ("large tables", Box::new(move |r, each| texts::large_tables(r, some(60), each))),
        ("middle tables", Box::new(move |r, each| texts::middle_tables(r, some(2_000), each))),
        ("the example, damaged", Box::new(move |_, each| texts::damaged_example(stride, each))),
        ("small tables, damaged", Box::new(move |r, each| texts::damaged_small_tables(r, 8, stride, each))),
        ("long tables, damaged", Box::new(move |r, each| texts::damaged_long_tables(r, 2, stride, each))),
        ("small tables", Box::new(move |r, each| texts::small_tables(r, some(30_000), each))),
        ("tables with any gaps", Box::new(move |r, each| texts::wild_tables(r, some(5_000), each))),
        ("tables at a limit", Box::new(move |r, each| texts::limits(r, some(6_000), each))),
        ("counts of rows", Box::new(|r, each| texts::counts(r, each))),
        ("long texts", Box::new(move |r, each| texts::long_texts(r, some(1_000), each))),
        ("random bytes", Box::new(move |r, each| texts::random_bytes(r, some(10_000), each))),
        ("random words", Box::new(move |r, each| texts::random_words(r, some(20_000), each))),
    ];
    let next = std::sync::atomic::AtomicUsize::new(0);
    let work = || {
        let mut tallies = Vec::new();
        while let Some((name, texts)) = families.get(next.fetch_add(1, std::sync::atomic::Ordering::Relaxed)) {
            let mut random = Random::new(seed + name.len() as u64);
            tallies.push(run(name, compare, |each| texts(&mut random, each)));
        }
        tallies
    };
    let cores = std::thread::available_parallelism().map_or(1, |n| n.get());
    std::thread::scope(|scope| {
        let workers: Vec<_> = (0..cores).map(|_| scope.spawn(work)).collect();
        workers.into_iter().flat_map(|worker| worker.join().expect("a text with two answers; see above")).collect()
    })
}

/// Compares on all families and prints the tallies; how many texts were answered with each number.
fn compare_all(compare: Compare, share: u64) -> [u64; 12] {
    let tallies = all_families(compare, number_of("SLEEPPLAN_SEED", 1), share);
    let mut of_number = [0; 12];
    for tally in &tallies {
        let Tally { family, texts, calls, seconds } = tally;
        println!("{family:<22} {:>7} texts {calls:>9} calls {seconds:>7.1} s  {texts:?}", tally.total());
        for (sum, texts) in of_number.iter_mut().zip(texts) {
            *sum += texts;
        }
    }
    let calls: u64 = tallies.iter().map(|tally| tally.calls).sum();
    let total: u64 = of_number.iter().sum();
    println!("{total} texts, {calls} calls; accepted and refused with 1 to 11: {of_number:?}");
    of_number
}

#[test]
fn both_calls_answer_as_the_reference_does() {
    let share = number_of("SLEEPPLAN_SHARE", 1).max(1);
    let of_number = compare_all(compare_calls, share);
    if share == 1 {
        assert!(of_number.iter().sum::<u64>() >= 100_000);
        assert!(of_number.iter().all(|&texts| texts >= 50), "a refusal that hardly any text meets");
    }
}

/// A process a text, so on fewer texts.
#[test]
#[ignore = "needs the program sleeptable: rust/records"]
fn the_program_prints_what_the_reference_does() {
    compare_all(compare_prints, number_of("SLEEPPLAN_SHARE", 20).max(1));
}
