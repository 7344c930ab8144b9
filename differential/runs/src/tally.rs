//! A run: cases by their numbers, the library's answer to each beside the expected one, and what was counted.
use crate::case::{Answer, Call, Case, class, shown};
use crate::expected::{Met, expected};
use std::ops::Range;
use std::sync::Mutex;
use std::sync::atomic::{AtomicU64, Ordering};
use std::thread;
use std::time::Instant;

/// How a library answers a case; ours, or one with a fault put into it.
pub type Library<'a> = &'a (dyn Fn(&Case) -> Result<Answer, &'static str> + Sync);

#[derive(Clone)]
pub struct Tally {
    pub calls: u64,
    pub differences: u64,
    pub met: Met,
    /// How often each call gave each number.
    pub numbers: [[u64; 100]; Call::NAMES.len()],
    /// How often each class arose, in the order of `class::ALL`.
    pub classes: [u64; 4],
}

impl Tally {
    pub fn new() -> Tally {
        Tally { calls: 0, differences: 0, met: Met::default(), numbers: [[0; 100]; Call::NAMES.len()], classes: [0; 4] }
    }

    pub fn add(&mut self, other: &Tally) {
        self.calls += other.calls;
        self.differences += other.differences;
        self.met.far += other.met.far;
        self.met.grown += other.met.grown;
        self.met.room += other.met.room;
        for (mine, theirs) in self.numbers.iter_mut().flatten().zip(other.numbers.iter().flatten()) {
            *mine += theirs;
        }
        for (mine, theirs) in self.classes.iter_mut().zip(other.classes) {
            *mine += theirs;
        }
    }

    /// Counts a call, its number and its class.
    pub fn count(&mut self, case: &Case, answer: &Answer) {
        self.calls += 1;
        self.numbers[case.call.kind()][answer.number as usize] += 1;
        if let Some(place) = class::ALL.iter().position(|class| *class == answer.class) {
            self.classes[place] += 1;
        }
    }

    /// How often a call gave each number.
    pub fn numbers_of(&self, kind: usize) -> String {
        let counts = self.numbers[kind].iter().enumerate().filter(|(_, count)| **count > 0);
        counts.map(|(number, count)| format!("{number}: {count}")).collect::<Vec<_>>().join(", ")
    }

    /// Compares one case, and says where the answers differ.
    pub fn compare(&mut self, case: &Case, library: Library) -> Option<String> {
        let expected = expected(case, &mut self.met);
        self.count(case, &expected);
        let said = match library(case) {
            Ok(answer) if answer == expected => return None,
            Ok(answer) => format!("{case}\n  ours     {answer}\n  expected {expected}"),
            Err(fault) => format!("{case}\n  {fault}\n  expected {expected}"),
        };
        self.differences += 1;
        Some(said)
    }
}

/// The numbers that RULES 10 lets each call give, in the order of `Call::NAMES`.
const NUMBERS: [&[u32]; Call::NAMES.len()] = [
    &[0, 10, 11, 12, 13, 20, 21, 22, 23, 24, 25, 26, 27, 30, 31, 32, 34, 37, 41, 42, 43],
    &[0, 10, 11, 12, 13, 20, 21, 22, 23, 24, 25, 26, 32, 33, 35, 36, 38, 40, 42, 43, 44],
    &[0, 10, 11, 12, 13, 21, 22, 23, 24, 26, 30, 36, 39, 42, 43, 44],
    &[0, 10, 11, 12, 13, 30, 42, 43],
    &[0, 10, 11, 12, 13, 42, 43, 45],
    &[0, 43, 58, 60],
    &[0, 43, 58, 59],
];

impl Tally {
    /// Prints how often each of some calls gave each number, and answers whether each gave all that it can.
    pub fn show_calls(&self, kinds: Range<usize>) -> bool {
        let mut all = true;
        for kind in kinds {
            let name = Call::NAMES[kind];
            println!("{name}: {}", self.numbers_of(kind));
            let missing: Vec<&u32> = NUMBERS[kind].iter().filter(|n| self.numbers[kind][**n as usize] == 0).collect();
            if !missing.is_empty() {
                println!("{name}: never met {missing:?}");
                all = false;
            }
        }
        all
    }

    /// Prints how often each call gave each number, and what else was counted, and answers whether nothing is missing.
    pub fn show_numbers(&self) -> bool {
        let of_no_call: Vec<&u32> = dct::number::ALL.iter().filter(|n| !NUMBERS.iter().any(|of| of.contains(n))).collect();
        let mut all = of_no_call.is_empty();
        if !all {
            println!("numbers of include/dct.h that no call is said to give: {of_no_call:?}");
        }
        all &= self.show_calls(0..Call::NAMES.len());
        let classes: Vec<String> =
            class::ALL.iter().zip(self.classes).map(|(class, n)| format!("{}: {n}", shown(*class))).collect();
        println!("classes: {}", classes.join(", "));
        all &= self.classes.iter().all(|count| *count > 0);
        let Met { far, grown, room } = self.met;
        println!(
            "known differences met: {room} where room decides, {grown} refused by the Rust after it had grown the payload,"
        );
        println!("{far} at positions or lengths where it would grow past 128 KiB, so it was asked at a near one");
        all
    }
}

/// Says how far a run is, every five seconds, on the standard error.
fn tell(name: &str, first: u64, count: u64, seconds: u64, told: &AtomicU64) {
    let fives = seconds / 5;
    if told.fetch_max(fives, Ordering::Relaxed) < fives {
        eprintln!("{name}: {first} of {count} calls, {seconds} s");
    }
}

/// Compares so many cases, on all processors, and prints the first differences and what was counted.
pub fn run(name: &str, count: u64, make: impl Fn(u64) -> Case + Sync, library: Library) -> Tally {
    const PART: u64 = 4_096;
    let started = Instant::now();
    let next = AtomicU64::new(0);
    let told = AtomicU64::new(0);
    let total = Mutex::new(Tally::new());
    let work = || {
        let mut tally = Tally::new();
        loop {
            let first = next.fetch_add(PART, Ordering::Relaxed);
            if first >= count {
                break;
            }
            tell(name, first, count, started.elapsed().as_secs(), &told);
            for number in first..count.min(first + PART) {
                let said = tally.compare(&make(number), library);
                if let Some(said) = said.filter(|_| tally.differences <= 3) {
                    println!("{name}, case {number}: DIFFERENT\n{said}");
                }
            }
        }
        total.lock().unwrap().add(&tally);
    };
    thread::scope(|scope| {
        for _ in 0..thread::available_parallelism().map_or(1, usize::from) {
            scope.spawn(work);
        }
    });
    let total = total.into_inner().unwrap();
    let seconds = started.elapsed().as_secs_f64();
    println!(
        "{name}: {} calls, {} differences, {seconds:.1} s, {:.0} calls a second",
        total.calls,
        total.differences,
        total.calls as f64 / seconds
    );
    total
}
