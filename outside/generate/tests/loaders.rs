//! What generated calls of the check that takes a tally are like: their numbers,
//! their files, and the counts that they meet.

use generate::Calls;
use literal::loaders::check_by;
use literal::numbers::LOADERS;
use literal::{LoaderCounts, Tally, Verdict};

const CALLS: u64 = 100_000;

/// Calls, and how many of them show what is asked.
#[derive(Default, Debug)]
struct Uses {
    all: u64,
    lists: u64,
    /// A number above 7; just 8; one that is a loader's in 8 or in 16 bits; a
    /// negative one as a signed number. A file of a wrong length besides.
    above: u64,
    eight: u64,
    in_fewer_bits: u64,
    negative: u64,
    above_and_wrong_length: u64,
    /// Of the others.
    accepted: u64,
    refused: u64,
    wrong_length: u64,
    /// The count that is to be raised is full, or becomes so; the other is full.
    full: u64,
    becomes_full: u64,
    beside_a_full_one: u64,
    /// The loader, or another one, had a call before in the list; another one
    /// handed in the same file.
    again: u64,
    after_others: u64,
    same_file: u64,
    /// The calls of each loader.
    by_loader: [u64; LOADERS],
}

fn add(count: &mut u64, yes: bool) {
    *count += u64::from(yes);
}

/// The count that this verdict raises, and the other one.
fn counts_by(verdict: &Verdict, counts: &LoaderCounts) -> [u32; 2] {
    match verdict {
        Verdict::Accepted(_) => [counts.accepted, counts.refused],
        Verdict::Refused(_) => [counts.refused, counts.accepted],
    }
}

fn is_wrong_length(verdict: &Verdict) -> bool {
    matches!(verdict, Verdict::Refused(refusal) if refusal.number == 1)
}

impl Uses {
    /// The calls of a list, up to as many as are wanted.
    fn add_list(&mut self, list: &Calls) {
        assert!((1..=24).contains(&list.calls.len()));
        let verdicts: Vec<Verdict> = list.files.iter().map(|f| literal::verdict(f)).collect();
        let mut tally: Tally = list
            .first
            .map(|[accepted, refused]| LoaderCounts { accepted, refused });
        self.lists += 1;
        for (i, call) in list.calls.iter().enumerate() {
            if self.all == CALLS {
                return;
            }
            self.all += 1;
            let on_file = verdicts[call.file];
            match tally.get(call.loader as usize) {
                Some(counts) => {
                    self.add_right(call.loader, &on_file, counts);
                    self.add_before(list, i);
                }
                None => self.add_above(call.loader, &on_file),
            }
            tally = check_by(|| on_file, call.loader, tally).1;
        }
    }

    fn add_above(&mut self, loader: u32, on_file: &Verdict) {
        self.above += 1;
        add(&mut self.eight, loader == 8);
        let is_low = (loader as u8) < 8 || (loader as u16) < 8;
        add(&mut self.in_fewer_bits, is_low);
        add(&mut self.negative, (loader as i32) < 0);
        add(&mut self.above_and_wrong_length, is_wrong_length(on_file));
    }

    fn add_right(&mut self, loader: u32, on_file: &Verdict, counts: &LoaderCounts) {
        self.by_loader[loader as usize] += 1;
        let is_accepted = matches!(on_file, Verdict::Accepted(_));
        add(&mut self.accepted, is_accepted);
        add(&mut self.refused, !is_accepted);
        add(&mut self.wrong_length, is_wrong_length(on_file));
        let [raised, other] = counts_by(on_file, counts);
        add(&mut self.full, raised == u32::MAX);
        add(&mut self.becomes_full, raised == u32::MAX - 1);
        add(&mut self.beside_a_full_one, other == u32::MAX);
    }

    /// What went before call i.
    fn add_before(&mut self, list: &Calls, i: usize) {
        let (call, before) = (list.calls[i], &list.calls[..i]);
        let others = || before.iter().filter(|b| b.loader != call.loader);
        add(
            &mut self.again,
            before.iter().any(|b| b.loader == call.loader),
        );
        add(&mut self.after_others, others().next().is_some());
        add(&mut self.same_file, others().any(|b| b.file == call.file));
    }

    fn are_frequent(&self) {
        let often = |count: u64, of: u64, percent: u64, name: &str| {
            assert!(count * 100 > of * percent, "{name}");
        };
        let below = self.all - self.above;
        assert_eq!(below, self.accepted + self.refused);
        often(self.above, self.all, 20, "above");
        often(self.eight, self.above, 8, "eight");
        often(self.in_fewer_bits, self.above, 20, "in fewer bits");
        often(self.negative, self.above, 15, "negative");
        often(self.above_and_wrong_length, self.above, 10, "both");
        often(below, self.all, 70, "below");
        often(self.accepted, below, 40, "accepted");
        often(self.refused, below, 30, "refused");
        often(self.wrong_length, self.refused, 15, "wrong length");
        often(self.full, below, 30, "full");
        often(self.becomes_full, below, 3, "becomes full");
        often(self.beside_a_full_one, below, 30, "beside a full one");
        often(self.again, below, 40, "again");
        often(self.after_others, below, 70, "after others");
        often(self.same_file, below, 50, "same file");
        for count in self.by_loader {
            often(count, below, 10, "of each loader");
        }
    }
}

#[test]
fn calls_of_every_sort() {
    let mut uses = Uses::default();
    let mut seeds = 0..;
    while uses.all < CALLS {
        uses.add_list(&seeds.next().map(generate::calls).expect("a seed"));
    }
    println!("{uses:?}");
    uses.are_frequent();
}
