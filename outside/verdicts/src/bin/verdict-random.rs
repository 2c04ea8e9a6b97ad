//! `verdict-random N [SEED]`: N generated files, from this seed on, asked of
//! the archive and of the outside reference; and for some seeds a list of calls
//! that hand the tally on.

use command::Seeds;
use generate::random::Random;
use generate::Call;
use literal::numbers::LOADERS;
use literal::Verdict;
use std::process::ExitCode;
use std::thread;
use std::time::Instant;
use verdicts::{calls, compare, proved, Checker, Difference};

/// Files and lists that each thread shows in words; of the others it tells the
/// seeds.
const SHOWN: u64 = 20;
/// Every so many seeds there is a list of calls.
const LISTS: u64 = 20;

fn main() -> ExitCode {
    command::run(run)
}

fn run(words: &[&str]) -> Result<bool, String> {
    let seeds = Seeds::of(words, "verdict-random")?;
    let start = Instant::now();
    let all = compared(seeds);
    all.show();
    let Seeds { count, first } = seeds;
    let rate = count as f64 / start.elapsed().as_secs_f64();
    let wrong = all.wrong;
    println!("{count} files from seed {first}, {wrong} disagree, {rate:.0} files each second");
    Ok(wrong + all.wrong_lists == 0)
}

/// The files are dealt out to as many threads as the machine runs at once.
fn compared(seeds: Seeds) -> Compared {
    let threads = thread::available_parallelism().map_or(1, |n| n.get());
    let dealt = |thread: usize| {
        let mut dealt = Compared::default();
        let own = seeds.all().skip(thread).step_by(threads);
        own.for_each(|seed| dealt.seed(seed));
        dealt
    };
    thread::scope(|scope| {
        let running: Vec<_> = (0..threads)
            .map(|thread| scope.spawn(move || dealt(thread)))
            .collect();
        let done = running.into_iter().map(|one| one.join());
        let all = done.map(|dealt| dealt.expect("a thread ends by itself"));
        all.fold(Compared::default(), Compared::with)
    })
}

#[derive(Default)]
struct Compared {
    /// Accepted, then refused with 1 to 15; 13 and 14 are no verdicts.
    numbers: [u64; 16],
    wrong: u64,
    lists: u64,
    calls: u64,
    /// Calls that are refused with 16.
    sixteens: u64,
    wrong_lists: u64,
}

/// Empty slices as they are, or with a null pointer.
fn checker(is_even: bool) -> Checker {
    match is_even {
        true => proved::CHECKER,
        false => proved::WITH_NULL,
    }
}

impl Compared {
    fn seed(&mut self, seed: u64) {
        self.file(seed);
        if seed % LISTS == 0 {
            self.list(seed);
        }
    }

    fn file(&mut self, seed: u64) {
        let file = generate::file(seed);
        let checker = checker(seed % 2 == 0);
        let verdict = literal::verdict(&file);
        self.numbers[number_of(&verdict)] += 1;
        let found = compare::differences(&checker, &file, &verdict, &mut Random::new(!seed));
        self.wrong += u64::from(!found.is_empty());
        self.tell(seed, &found, || text::print(&file));
    }

    fn list(&mut self, seed: u64) {
        let list = generate::calls(seed);
        let checker = checker(seed / LISTS % 2 == 0);
        let is_above = |call: &&Call| call.loader as usize >= LOADERS;
        self.lists += 1;
        self.calls += list.calls.len() as u64;
        self.sixteens += list.calls.iter().filter(is_above).count() as u64;
        let found = calls::differences(&checker, &list, &mut Random::new(!seed));
        self.wrong_lists += u64::from(!found.is_empty());
        self.tell(seed, &found, || calls::print(&list));
    }

    /// What differs, and at first also what it was asked of.
    fn tell(&self, seed: u64, found: &[Difference], in_words: impl Fn() -> String) {
        if found.is_empty() {
            return;
        }
        let mut report = String::new();
        for difference in found {
            report += &format!("seed {seed}: {difference}\n");
        }
        if self.wrong + self.wrong_lists <= SHOWN {
            report += &in_words();
        }
        print!("{report}");
    }

    fn with(mut self, other: Compared) -> Compared {
        for (number, count) in other.numbers.iter().enumerate() {
            self.numbers[number] += count;
        }
        self.wrong += other.wrong;
        self.lists += other.lists;
        self.calls += other.calls;
        self.sixteens += other.sixteens;
        self.wrong_lists += other.wrong_lists;
        self
    }

    fn show(&self) {
        println!("accepted: {}", self.numbers[0]);
        for number in (1..=12).chain([15]) {
            println!("refused {number}: {}", self.numbers[number]);
        }
        println!("refused 16: {} calls of lists", self.sixteens);
        let (lists, calls, wrong) = (self.lists, self.calls, self.wrong_lists);
        println!("{lists} lists of {calls} calls, {wrong} disagree");
    }
}

/// 0 for acceptance.
fn number_of(verdict: &Verdict) -> usize {
    match verdict {
        Verdict::Accepted(_) => 0,
        Verdict::Refused(refusal) => refusal.number as usize,
    }
}
