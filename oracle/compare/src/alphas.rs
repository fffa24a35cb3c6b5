//! Which alphas the updates meet, and how many of these updates would leave another filter by another alpha.
use drifters_eqf::group::State;
use original::places::{ALPHAS, POSITION_ALPHA};
use original::{all_finite, filter_with, numbers_of, Alphas, Answer, Call};

/// The sensors of the alphas, in order. General and scalar updates use the first.
const SENSORS: [&str; ALPHAS] = ["position", "velocity", "direction"];

/// What is counted of the alpha that an update uses, and of all three.
type Case = (&'static str, fn(f64, &[f64]) -> bool);

const CASES: [Case; 11] = [
    ("no two alike", |_, alphas| (0..ALPHAS).all(|i| alphas[i].to_bits() != alphas[(i + 1) % ALPHAS].to_bits())),
    ("0", |alpha, _| alpha.to_bits() == 0f64.to_bits()),
    ("-0", |alpha, _| alpha.to_bits() == (-0f64).to_bits()),
    ("subnormal", |alpha, _| alpha.is_subnormal()),
    ("below 0", |alpha, _| alpha < 0.0),
    ("1", |alpha, _| alpha == 1.0),
    ("beside 1", |alpha, _| alpha == 1f64.next_up() || alpha == 1f64.next_down()),
    ("above 1", |alpha, _| alpha > 1.0),
    ("1e300 or more in size", |alpha, _| alpha.is_finite() && alpha.abs() >= 1e300),
    ("not finite", |alpha, _| !alpha.is_finite()),
    ("another one not finite", |alpha, alphas| alpha.is_finite() && !all_finite(alphas)),
];

/// How many updates of each sensor met each case; how many of those accepted have an alpha beside theirs that differs from it, and how many of these
/// would leave another filter by such a one.
#[derive(Default)]
pub struct AlphaTally {
    cases: [[u64; ALPHAS]; CASES.len()],
    beside: [u64; ALPHAS],
    differing: [u64; ALPHAS],
}

impl AlphaTally {
    pub fn add(&mut self, other: &Self) {
        self.rows_mut().zip(other.rows()).for_each(|(row, other)| row.iter_mut().zip(other).for_each(|(count, more)| *count += more));
    }

    fn rows(&self) -> impl Iterator<Item = &[u64; ALPHAS]> {
        self.cases.iter().chain([&self.beside, &self.differing])
    }

    fn rows_mut(&mut self) -> impl Iterator<Item = &mut [u64; ALPHAS]> {
        self.cases.iter_mut().chain([&mut self.beside, &mut self.differing])
    }

    /// Counts an update of a kind on a filter's run. `left` is what it leaves where it is accepted.
    pub fn count(&mut self, kind: u32, run: &[f64], numbers: &[f64], left: Option<&[f64]>) {
        let place = Alphas::Three.place(kind);
        let (alpha, alphas, sensor) = (run[place], &run[POSITION_ALPHA..], place - POSITION_ALPHA);
        for (row, (_, is_met)) in self.cases.iter_mut().zip(CASES) {
            row[sensor] += u64::from(is_met(alpha, alphas));
        }
        let Some(left) = left else {
            return;
        };
        let mut others = alphas.iter().filter(|other| other.to_bits() != alpha.to_bits()).peekable();
        if others.peek().is_some() {
            self.beside[sensor] += 1;
            self.differing[sensor] += u64::from(others.any(|other| leaves_another(&Call::read(kind, numbers), run, *other, left)));
        }
    }

    /// Prints the table. Every case is met for each sensor.
    pub fn print(&self) {
        let names = CASES.iter().map(|(name, _)| *name).chain(["accepted, another one differs", "  and would leave another filter"]);
        println!("{:<32} {}", "alphas that updates use", SENSORS.map(|sensor| format!("{sensor:>9}")).join(" "));
        for (name, row) in names.zip(self.rows()) {
            println!("{name:<32} {}", row.map(|count| format!("{count:>9}")).join(" "));
            assert!(row.iter().all(|count| *count > 0), "a case was not met: {name}");
        }
    }
}

/// Whether the original leaves other numbers by another alpha.
fn leaves_another(call: &Call, run: &[f64], alpha: f64, left: &[f64]) -> bool {
    let mut filter = filter_with(run, alpha);
    let answer = call.make(&mut filter, &mut State::default());
    matches!(answer, Answer::Refused(_)) || numbers_of(&filter).iter().zip(left).any(|(x, y)| x.to_bits() != y.to_bits())
}
