//! The conversions on the port and by the second reading: the answer, and every lent number afterwards.
use crate::conversion_reading::{downgrade, upgrade, with_three};
use crate::in_threads;
use crate::lent::{same, Conversion, LentConversion};
use inputs::{one_alpha, one_alpha_log, Manner, Numbers, BLANKS};
use original::all_finite;
use original::places::{ALPHAS, FILTER, ONE_ALPHA, POSITION_ALPHA};

/// How many conversions of each way are compared.
const OF_EACH_WAY: u64 = 150_000;

const NAMES: [&str; 2] = ["upgrade", "downgrade"];

/// The answers, and what stands for each: 0, or the number of a refusal.
const ANSWERS: [(&str, u32); 4] = [("accepted", 0), ("refused 1", 1), ("2", 2), ("8", 8)];

/// The bits of an alpha.
const BITS: usize = 64;

/// What is counted: of the filter that is read, and of the answer.
type Case = (&'static str, fn(&[f64], u32) -> bool);

const CASES: [Case; 8] = [
    ("refused 1, a number not finite", |read, answer| answer == 1 && !all_finite(read)),
    ("refused 2 by an alpha alone", |read, answer| answer == 2 && all_finite(&read[..POSITION_ALPHA])),
    ("refused 2, alphas unequal", |read, answer| answer == 2 && unequal_bits(read) > 0),
    ("refused 2, alphas equal, not finite", |read, answer| answer == 2 && read.len() == FILTER && are_blank_and_equal(read)),
    ("refused 8 by one bit", |read, answer| answer == 8 && unequal_bits(read) == 1),
    ("refused 8 by the sign of a zero", |read, answer| answer == 8 && read[POSITION_ALPHA..].iter().all(|alpha| *alpha == 0.0)),
    ("upgraded with -0", |read, answer| answer == 0 && read.len() == ONE_ALPHA && is_minus_zero(read)),
    ("downgraded with -0", |read, answer| answer == 0 && read.len() == FILTER && is_minus_zero(read)),
];

fn are_blank_and_equal(run: &[f64]) -> bool {
    !run[POSITION_ALPHA].is_finite() && unequal_bits(run) == 0
}

fn is_minus_zero(run: &[f64]) -> bool {
    run[POSITION_ALPHA].to_bits() == (-0f64).to_bits()
}

/// In how many bits the alphas of a filter are not all equal.
fn unequal_bits(run: &[f64]) -> u32 {
    let bits = || run[POSITION_ALPHA..].iter().map(|alpha| alpha.to_bits());
    (bits().fold(0, |any, x| any | x) & !bits().fold(u64::MAX, |all, x| all & x)).count_ones()
}

/// A conversion of runs of the stated lengths.
pub fn conversion(n: &mut Numbers, way: Conversion) -> LentConversion {
    let manner = n.one_of(&Manner::ALL);
    let mut read = one_alpha_log(n, manner, 0).run;
    if let Conversion::Downgrade = way {
        read = with_three(&read);
        change_alphas(n, &mut read[POSITION_ALPHA..]);
    }
    if n.one_in(4) {
        let place = n.below(read.len());
        read[place] = n.one_of(&BLANKS);
    }
    let (_, length) = way.lengths();
    let written = match n.below(3) {
        0 => vec![0.0; length],
        1 => (0..length).map(|_| f64::from_bits(n.bits())).collect(),
        _ => read.iter().copied().cycle().take(length).collect(),
    };
    LentConversion { read, written }
}

/// Leaves equal alphas, or changes a bit of one, or draws them anew.
fn change_alphas(n: &mut Numbers, alphas: &mut [f64]) {
    let place = n.below(ALPHAS);
    match n.below(16) {
        0..=3 => alphas[place] = f64::from_bits(alphas[place].to_bits() ^ 1 << n.below(BITS)),
        4 | 5 => alphas.fill_with(|| n.one_of(&[0.0, -0.0])),
        6 => alphas[place] = one_alpha(n, Manner::Ordinary),
        7 => alphas.fill_with(|| one_alpha(n, Manner::Ordinary)),
        8 => alphas.fill(n.one_of(&BLANKS)),
        _ => {}
    }
}

/// Gives one or both of the runs another length.
fn change_lengths(n: &mut Numbers, lent: &mut LentConversion) {
    let mut length = || n.one_of(&[0, 1, POSITION_ALPHA, ONE_ALPHA, FILTER - 1, FILTER, FILTER + 1, 2 * ONE_ALPHA, 2 * FILTER]);
    let (read, written) = (length(), length());
    let which = n.below(3);
    if which != 0 {
        lent.read.resize(read, 0.5);
    }
    if which != 1 {
        lent.written.resize(written, 0.5);
    }
}

struct Tally {
    /// How often each way gave each answer.
    answers: [[u64; ANSWERS.len()]; NAMES.len()],
    cases: [u64; CASES.len()],
    /// How often the number at a place was the only one that is not finite.
    blanks: [Vec<u64>; NAMES.len()],
    /// How often the alpha of each sensor had another bit than both others, and they differed in no other.
    bits: [[u64; BITS]; ALPHAS],
    /// How many upgrades were taken back.
    returned: u64,
    differ: u64,
}

impl Tally {
    fn new() -> Self {
        Self {
            answers: Default::default(),
            cases: Default::default(),
            blanks: Conversion::ALL.map(|way| vec![0; way.lengths().0]),
            bits: [[0; BITS]; ALPHAS],
            returned: 0,
            differ: 0,
        }
    }

    fn counts(&mut self) -> impl Iterator<Item = &mut u64> {
        let answers = self.answers.as_flattened_mut().iter_mut().chain(&mut self.cases);
        let places = self.blanks.iter_mut().flatten().chain(self.bits.as_flattened_mut());
        answers.chain(places).chain([&mut self.returned, &mut self.differ])
    }

    fn add(mut self, mut other: Self) -> Self {
        self.counts().zip(other.counts()).for_each(|(count, more)| *count += *more);
        self
    }

    /// Makes a conversion on the port and by the reading, and compares. An upgrade that is accepted is taken back.
    fn compare(&mut self, way: Conversion, lent: &LentConversion) {
        let (mut ours, mut theirs) = (lent.clone(), lent.clone());
        let code = ours.on_port(way);
        let expected = match way {
            Conversion::Upgrade => upgrade(&theirs.read, &mut theirs.written),
            Conversion::Downgrade => downgrade(&theirs.read, &mut theirs.written),
        };
        self.count(way, &lent.read, expected);
        let mut is_same = code == expected && ours.same(&theirs);
        if let (Conversion::Upgrade, 0) = (way, code) {
            let mut back = LentConversion { read: ours.written, written: vec![f64::NAN; ONE_ALPHA] };
            self.returned += 1;
            is_same &= back.on_port(Conversion::Downgrade) == 0 && same(&back.written, &lent.read);
        }
        if !is_same {
            self.differ += 1;
            if self.differ == 1 {
                let (read, written) = (lent.read.len(), lent.written.len());
                println!("{} of {read} numbers to {written}: port {code}, reading {expected}", NAMES[way as usize]);
            }
        }
    }

    fn count(&mut self, way: Conversion, read: &[f64], answer: u32) {
        let column = ANSWERS.iter().position(|(_, number)| *number == answer).expect("an answer");
        self.answers[way as usize][column] += 1;
        for (count, (_, is_met)) in self.cases.iter_mut().zip(CASES) {
            *count += u64::from(is_met(read, answer));
        }
        if answer == 2 {
            let mut blanks = (0..read.len()).filter(|i| !read[*i].is_finite());
            if let (Some(place), None) = (blanks.next(), blanks.next()) {
                self.blanks[way as usize][place] += 1;
            }
        }
        if answer == 8 && unequal_bits(read) == 1 {
            let alphas: [u64; ALPHAS] = core::array::from_fn(|i| read[POSITION_ALPHA + i].to_bits());
            let of = (0..ALPHAS).find(|i| alphas[(i + 1) % ALPHAS] == alphas[(i + 2) % ALPHAS]).expect("two that are equal");
            let bit = (alphas[of] ^ alphas[(of + 1) % ALPHAS]).trailing_zeros();
            self.bits[of][bit as usize] += 1;
        }
    }

    fn print(&self) {
        println!("{:<36} {}", "conversions", ANSWERS.map(|(name, _)| format!("{name:>9}")).join(" "));
        for (name, row) in NAMES.iter().zip(self.answers) {
            println!("{name:<36} {}", row.map(|count| format!("{count:>9}")).join(" "));
        }
        for ((name, _), count) in CASES.iter().zip(self.cases) {
            println!("{name:<36} {count:>9}");
            assert!(count > 0, "a case was not met: {name}");
        }
        let conversions: u64 = self.answers.as_flattened().iter().sum();
        let least = |counts: &mut dyn Iterator<Item = &u64>| counts.min().copied().expect("a count");
        let (blank, bit) = (least(&mut self.blanks.iter().flatten()), least(&mut self.bits.as_flattened().iter()));
        assert!(blank > 0 && bit > 0, "a place or a bit was not met");
        let returned = format!("{} of them upgrades that were taken back", self.returned);
        let blanks = format!("each number the only one not finite in {blank} or more");
        let bits = format!("each bit of each alpha the only one unequal in {bit} or more");
        println!("{conversions} conversions, {returned}, {blanks}, {bits}; {} differ", self.differ);
    }
}

pub fn compare() -> u64 {
    let tallies = in_threads(OF_EACH_WAY, |seeds| {
        let mut tally = Tally::new();
        for seed in seeds {
            let n = &mut Numbers::new(seed);
            for way in Conversion::ALL {
                let mut lent = conversion(n, way);
                if n.one_in(8) {
                    change_lengths(n, &mut lent);
                }
                tally.compare(way, &lent);
            }
        }
        tally
    });
    let all = tallies.into_iter().fold(Tally::new(), Tally::add);
    all.print();
    all.differ
}
