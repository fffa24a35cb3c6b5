//! Updates by the best of several compasses: which reading is applied, what is left, what is passed over or refused.
use super::*;
use crate::places::coordinate;
use std::vec;

type Reading = [f64; READING_LENGTH];

const BLANKS: [f64; 3] = [f64::NAN, f64::INFINITY, f64::NEG_INFINITY];

/// A turned filter with variance 0.02 on each coordinate.
fn doubtful() -> Filter {
    started(&moving(), diagonal([0.02; STATES]))
}

fn field() -> Compasses {
    Compasses {
        north: [0.4, -0.1, 0.9],
        noise: diagonal([1e-4; 3]),
    }
}

/// What a compass reads where the estimate is true and its field is turned by an angle. The larger the angle, the larger
/// the NIS.
fn off(angle: f64) -> Reading {
    let body = times(transposed(moving().attitude), field().north);
    times(
        turn([angle, 0.0, 0.0]),
        times(transposed(moving().mag), body),
    )
}

/// The update by direction that a reading makes alone: its answer, and the filter that it leaves.
fn alone(
    first: &Filter,
    measured: Reading,
    compasses: &Compasses,
) -> (Result<f64, Refusal>, Filter) {
    let Compasses { north, noise } = *compasses;
    let mut filter = first.clone();
    let direction = Direction {
        measured,
        north,
        noise,
    };
    let answer = filter.update_direction(&direction.numbers());
    (answer, filter)
}

/// What the call must do, from updates by direction.
fn expected(
    first: &Filter,
    readings: &[Reading],
    compasses: &Compasses,
    budget: usize,
) -> (CompassesAnswer, Filter) {
    let tried = budget.min(readings.len());
    let mut best: Option<(usize, f64, Filter)> = None;
    for (index, reading) in readings[..tried].iter().enumerate() {
        if let (Ok(nis), left) = alone(first, *reading, compasses) {
            if best.as_ref().map_or(true, |(_, least, _)| nis < *least) {
                best = Some((index, nis, left));
            }
        }
    }
    match best {
        None => (CompassesAnswer::None { tried }, first.clone()),
        Some((index, nis, left)) => (CompassesAnswer::Chosen { index, nis, tried }, left),
    }
}

fn nis_bits(answer: CompassesAnswer) -> Option<u64> {
    match answer {
        CompassesAnswer::Chosen { nis, .. } => Some(nis.to_bits()),
        CompassesAnswer::None { .. } => None,
    }
}

/// Makes the call, holds its answer and the filter to what is expected, to the last bit, and gives the answer.
#[track_caller]
fn answer(
    first: &Filter,
    readings: &[Reading],
    compasses: &Compasses,
    budget: usize,
) -> CompassesAnswer {
    let mut filter = first.clone();
    let answer = filter.update_compasses(readings, &compasses.numbers(), budget);
    let (expected, left) = expected(first, readings, compasses, budget);
    assert_eq!(answer, Ok(expected));
    assert_eq!(answer.map(nis_bits), Ok(nis_bits(expected)));
    assert_eq!(bits(&filter.0), bits(&left.0));
    expected
}

/// The index of the reading that a call with the largest budget applies.
#[track_caller]
fn chosen(first: &Filter, readings: &[Reading], compasses: &Compasses) -> Option<usize> {
    match answer(first, readings, compasses, MOST_READINGS) {
        CompassesAnswer::Chosen { index, .. } => Some(index),
        CompassesAnswer::None { .. } => None,
    }
}

#[test]
fn the_best_is_applied_as_a_direction() {
    let readings = [off(0.3), off(-0.1), off(0.2), off(0.15)];
    let mut filter = doubtful();
    let answer = filter.update_compasses(&readings, &field().numbers(), MOST_READINGS);
    let (nis, left) = alone(&doubtful(), readings[1], &field());
    let (index, nis, tried) = (1, nis.unwrap(), 4);
    assert_eq!(answer, Ok(CompassesAnswer::Chosen { index, nis, tried }));
    assert_eq!(bits(&filter.0), bits(&left.0));
    assert_ne!(filter, doubtful());
}

/// Good and refused readings in every order of a circle, for every count and budget.
#[test]
fn every_count_and_budget() {
    let mut readings = [
        off(0.3),
        [0.0; 3],
        off(0.1),
        [0.4, f64::NAN, 0.9],
        off(0.05),
        off(0.05),
        [f64::INFINITY, 0.0, 0.0],
        off(0.2),
    ];
    for _ in 0..readings.len() {
        readings.rotate_left(1);
        for count in 1..=readings.len() {
            for budget in 0..=MOST_READINGS {
                answer(&doubtful(), &readings[..count], &field(), budget);
            }
        }
    }
}

/// A reading twice as long is the same direction, to the last bit.
#[test]
fn the_earliest_among_equals() {
    let twice = off(0.1).map(|x| 2.0 * x);
    let all = [off(0.1), off(0.1), twice];
    assert_eq!(chosen(&doubtful(), &all, &field()), Some(0));
    let all = [off(0.2), twice, off(0.3), off(0.1), twice];
    assert_eq!(chosen(&doubtful(), &all, &field()), Some(1));
    let all = [off(0.1), off(0.1), off(0.05)];
    assert_eq!(chosen(&doubtful(), &all, &field()), Some(2));
}

/// A NIS that rounding makes negative is smaller than 0, that of a reading along north.
#[test]
fn a_nis_below_zero_is_the_smaller() {
    let (a, b, c) = (
        1.8687040876263878,
        -0.0037228970571677334,
        -0.006956964463176286,
    );
    let compasses = Compasses {
        north: [0.8816942420905471, -0.4718212198114618, 0.0],
        noise: [
            [1.0, a, b],
            [a, 3.4920549671115713, c],
            [b, c, 1.8271603402733303],
        ],
    };
    let below = [
        -0.3172038058776382,
        0.16602189042711182,
        -1.8689901565137108,
    ];
    assert!(alone(&whole_case(), below, &compasses).0.unwrap() < 0.0);
    assert_eq!(alone(&whole_case(), compasses.north, &compasses).0, Ok(0.0));
    let all = [compasses.north, below, compasses.north];
    assert_eq!(chosen(&whole_case(), &all, &compasses), Some(1));
}

/// Level, with these variances on the diagonal, and x between each coordinate from `row` on and that of the calibration.
fn crossed(variance: f64, row: usize, x: f64) -> Filter {
    let mut sigma = diagonal([variance; STATES]);
    for i in 0..3 {
        sigma[row + i][coordinate::MAG + i] = x;
        sigma[coordinate::MAG + i][row + i] = x;
    }
    started(&State::default(), sigma)
}

/// One reading of each refusal, on a filter that takes another one.
#[test]
fn refused_readings_are_passed_over() {
    let along = Compasses {
        north: [1.0, 0.0, 0.0],
        noise: diagonal([1.0, 0.01, 0.01]),
    };
    // without the filter's part, which a reading against north does not have, the innovation's covariance is the noise
    let hardly = Compasses {
        noise: diagonal([1.0, -0.001, -0.001]),
        ..along
    };
    let (level, good, aside) = (crossed(0.02, 0, 0.0), [1.0, 0.01, 0.0], [1.0, 0.0, 1.0]);
    let against = [-1.0, 0.0, 0.0];
    let cases = [
        (&level, along, [f64::NAN, 0.0, 0.0], good, Refusal::Blank),
        (
            &level,
            along,
            [1.0, 0.0, f64::NEG_INFINITY],
            good,
            Refusal::Blank,
        ),
        (&level, along, [0.0, -0.0, 0.0], good, Refusal::Null),
        (&level, hardly, against, good, Refusal::Pivot),
        (
            &crossed(0.02, coordinate::ATTITUDE, 1e3),
            along,
            aside,
            [1.0, 0.0, 0.0],
            Refusal::Turn,
        ),
        (
            &crossed(0.02, coordinate::POSITION, 1e200),
            along,
            aside,
            against,
            Refusal::Range,
        ),
    ];
    for (first, compasses, refused, good, refusal) in cases {
        assert_eq!(alone(first, refused, &compasses).0, Err(refusal));
        assert!(alone(first, good, &compasses).0.is_ok(), "{refusal}");
        assert_eq!(chosen(first, &[refused, good], &compasses), Some(1));
        assert_eq!(chosen(first, &[good, refused], &compasses), Some(0));
        let none = CompassesAnswer::None { tried: 2 };
        assert_eq!(answer(first, &[refused; 2], &compasses, 8), none);
    }
}

/// The numbers that a call writes beside the filter: counts, and the NIS.
fn written(
    filter: &mut Filter,
    readings: &[Reading],
    compasses: &Compasses,
    budget: usize,
) -> (u32, [usize; 2], f64) {
    let (mut counts, mut nis) = ([7, 7], [7.0]);
    let code = exported::update_compasses(
        &mut filter.0,
        readings.as_flattened(),
        &compasses.numbers(),
        budget,
        &mut counts,
        &mut nis,
    );
    (code, counts, nis[0])
}

#[test]
fn what_is_written() {
    let readings = [[0.0; 3], off(0.1), off(0.2)];
    let mut filter = doubtful();
    let nis = alone(&doubtful(), off(0.1), &field()).0.unwrap();
    assert_eq!(
        written(&mut filter, &readings, &field(), 8),
        (0, [3, 1], nis)
    );
}

/// None: refused readings, a budget of 0, a north of norm 0. The filter and the run of the NIS stay.
#[test]
fn none_leaves_all_as_it_was() {
    let null = Compasses {
        north: [0.0, -0.0, 1e-170],
        ..field()
    };
    let refused = [[0.0; 3], [f64::NAN; 3], [-0.0; 3], [1e-170; 3]];
    let good = [off(0.0); 8];
    let cases: [(&[Reading], Compasses, usize, usize); 6] = [
        (&refused, field(), 8, 4),
        (&refused, field(), 3, 3),
        (&good, field(), 0, 0),
        (&refused, field(), 0, 0),
        (&good, null, 8, 8),
        (&good[..3], null, 2, 2),
    ];
    for (readings, compasses, budget, tried) in cases {
        let mut filter = doubtful();
        let answer = written(&mut filter, readings, &compasses, budget);
        assert_eq!(answer, (0, [tried, 8], 7.0));
        assert_eq!(bits(&filter.0), bits(&doubtful().0));
        let answer = filter.update_compasses(readings, &compasses.numbers(), budget);
        assert_eq!(answer, Ok(CompassesAnswer::None { tried }));
    }
}

/// What stands after those that are tried is neither chosen nor looked at.
#[test]
fn readings_past_the_budget() {
    let mut readings = [off(0.3), off(0.2), off(0.1), off(0.0)];
    for x in [0.0, f64::NAN, f64::INFINITY] {
        let answer = answer(&doubtful(), &readings, &field(), 2);
        assert!(matches!(
            answer,
            CompassesAnswer::Chosen {
                index: 1,
                tried: 2,
                ..
            }
        ));
        readings[2..].fill([x; 3]);
    }
}

/// The smaller of budget and count, whatever is read.
#[test]
fn how_many_are_tried() {
    for count in 1..=MOST_READINGS {
        for budget in 0..=MOST_READINGS {
            let tried = [off(0.1), [0.0; 3], [f64::NAN; 3]].map(|reading| {
                let mut filter = doubtful();
                written(&mut filter, &vec![reading; count], &field(), budget).1[0]
            });
            assert_eq!(tried, [budget.min(count); 3]);
        }
    }
}

/// The runs of a call, of which one is of another length, or a budget out of range: refused by 1, and left as they were,
/// though a number of the filter and one of north are blank too.
#[test]
fn lengths_come_first() {
    let stated = [FILTER_LENGTH, 6, COMPASSES_LENGTH, 2, 1];
    let refused = |lengths: [usize; 5], budget: usize| {
        let mut filter = vec![f64::NAN; lengths[0]];
        let (readings, north_noise) = (vec![1.0; lengths[1]], vec![f64::NAN; lengths[2]]);
        let (mut counts, mut nis) = (vec![7; lengths[3]], vec![7.0; lengths[4]]);
        let code = exported::update_compasses(
            &mut filter,
            &readings,
            &north_noise,
            budget,
            &mut counts,
            &mut nis,
        );
        assert!(filter.iter().all(|x| x.is_nan()));
        assert!(counts.iter().all(|&n| n == 7) && nis.iter().all(|&x| x == 7.0));
        code
    };
    assert_eq!(refused(stated, 8), 2);
    for run in 0..stated.len() {
        for length in [0, stated[run] - 1, stated[run] + 1] {
            let mut lengths = stated;
            lengths[run] = length;
            assert_eq!(refused(lengths, 8), 1, "run {run} of length {length}");
        }
    }
    for length in 0..=30 {
        let [filter, _, north_noise, counts, nis] = stated;
        let whole = length % 3 == 0 && (3..=24).contains(&length);
        let code = refused([filter, length, north_noise, counts, nis], 8);
        assert_eq!(code, if whole { 2 } else { 1 }, "{length} numbers");
    }
    for budget in [9, 10, 1 << 32, usize::MAX] {
        assert_eq!(refused(stated, budget), 1);
    }
}

/// The same by the crate's own forms.
#[test]
fn counts_and_budgets_out_of_range_are_refused() {
    let (mut filter, numbers) = (doubtful(), field().numbers());
    let refused = Err(Refusal::Length);
    for count in [0, 9, 16] {
        let readings = vec![off(0.1); count];
        assert_eq!(filter.update_compasses(&readings, &numbers, 8), refused);
    }
    for budget in [9, usize::MAX] {
        assert_eq!(
            filter.update_compasses(&[off(0.1)], &numbers, budget),
            refused
        );
    }
    let readings = [off(0.1); 2];
    let flat = readings.as_flattened();
    for n in [0, 2, 4, 5] {
        let answer = filter.update_compasses_slice(&flat[..n], &numbers, 8);
        assert_eq!(answer, refused);
    }
    for n in [0, 11] {
        let answer = filter.update_compasses_slice(flat, &numbers[..n], 8);
        assert_eq!(answer, refused);
    }
    assert_eq!(filter, doubtful());
}

/// A number of the filter, of north or of noise that is not finite refuses the call, be it that no reading is tried. One
/// of a reading refuses that reading alone.
#[test]
fn blanks_refuse_the_call() {
    let readings = [off(0.1), off(0.2)];
    for x in BLANKS {
        for place in 0..COMPASSES_LENGTH {
            let mut numbers = field().numbers();
            numbers[place] = x;
            for budget in [0, 1, 8] {
                let mut filter = doubtful();
                let answer = filter.update_compasses(&readings, &numbers, budget);
                assert_eq!(answer, Err(Refusal::Blank));
                assert_eq!(filter, doubtful());
            }
        }
        for place in 0..FILTER_LENGTH {
            let mut filter = doubtful();
            filter.0[place] = x;
            let before = bits(&filter.0);
            let (code, counts, nis) = written(&mut filter, &readings, &field(), place % 9);
            assert_eq!((code, counts, nis), (2, [7, 7], 7.0));
            assert_eq!(bits(&filter.0), before);
        }
        for place in 0..READING_LENGTH {
            let mut readings = readings;
            readings[0][place] = x;
            assert_eq!(chosen(&doubtful(), &readings, &field()), Some(1));
        }
    }
}

/// A norm that overflows is not 0: such a reading has no innovation, and is the best, as docs/MANUAL.md warns.
#[test]
fn a_reading_whose_norm_overflows_is_chosen() {
    let readings = [off(0.1), [1e200, 0.0, 0.0], off(0.01)];
    let nis = alone(&doubtful(), readings[1], &field()).0;
    assert_eq!(nis, Ok(0.0));
    assert_eq!(chosen(&doubtful(), &readings, &field()), Some(1));
    let long = Compasses {
        north: [1e200, 0.0, 0.0],
        ..field()
    };
    assert_eq!(chosen(&doubtful(), &readings, &long), Some(0));
}

/// The opposite of a direction has no innovation either. It may be chosen, and corrects nothing, as docs/MANUAL.md warns.
#[test]
fn a_reading_the_wrong_way_round_is_chosen() {
    let compasses = Compasses {
        north: [0.0, 0.0, 2.0],
        ..field()
    };
    let first = started(&State::default(), diagonal([1e-6; STATES]));
    let readings = [[0.01, 0.0, 1.0], [0.0, 0.0, -3.0]];
    assert_eq!(chosen(&first, &readings, &compasses), Some(1));
    assert_eq!(alone(&first, readings[1], &compasses), (Ok(0.0), first));
}

/// The signs of a half turn about an axis.
fn half_turn(axis: usize) -> [f64; 3] {
    core::array::from_fn(|i| if i == axis { 1.0 } else { -1.0 })
}

/// A filter through a half turn, as docs/MANUAL.md has the signs.
fn turned_filter(filter: &Filter, s: [f64; 3]) -> Filter {
    let mut run = filter.0;
    for i in 0..3 {
        for j in 0..3 {
            run[filter::A + 3 * i + j] *= s[i];
            run[filter::E + 3 * i + j] *= s[i];
        }
        for place in [
            filter::VELOCITY,
            filter::POSITION,
            filter::GAMMA,
            filter::GAMMA + 3,
            filter::DELTA,
            filter::GRAVITY,
        ] {
            run[place + i] *= s[i];
        }
    }
    for i in 0..STATES {
        for j in 0..STATES {
            run[filter::SIGMA + STATES * i + j] *= s[i % 3] * s[j % 3];
        }
    }
    Filter(run)
}

/// Readings do not turn; north and noise do. The same is chosen, with an equal NIS, and what is left is turned: `==` takes
/// both zeros as one.
#[test]
fn through_a_half_turn() {
    let compasses = Compasses {
        north: [0.4, -0.1, 0.9],
        noise: [[2e-4, 1e-5, -3e-5], [1e-5, 1e-4, 2e-5], [-3e-5, 2e-5, 3e-4]],
    };
    let readings = [
        [0.0; 3],
        off(0.2),
        off(0.1),
        [f64::NAN; 3],
        off(-0.1),
        off(0.1),
    ];
    for s in [0, 1, 2].map(half_turn) {
        let turned = Compasses {
            north: core::array::from_fn(|i| s[i] * compasses.north[i]),
            noise: core::array::from_fn(|i| {
                core::array::from_fn(|j| s[i] * s[j] * compasses.noise[i][j])
            }),
        };
        for budget in 0..=6 {
            let (mut plain, mut twin) = (doubtful(), turned_filter(&doubtful(), s));
            assert_eq!(
                plain.update_compasses(&readings, &compasses.numbers(), budget),
                twin.update_compasses(&readings, &turned.numbers(), budget)
            );
            assert_eq!(turned_filter(&plain, s), twin);
        }
    }
}
