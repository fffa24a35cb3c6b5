//! Answers of the calls: accepted, refused, and what is left unchanged.
use super::*;
use std::fmt::Debug;
use std::vec;

#[test]
fn whole_case_answers() {
    let mut filter = whole_case();
    let nis = filter.update_position(&position(0.0, 1.0));
    assert_eq!(nis.map(f64::to_bits), Ok(0));
    let nis = filter.update_position(&position(1.0, 1.0));
    assert_eq!(nis.map(f64::to_bits), Ok(0x3FF0_0000_0000_0000));
    let before = filter.clone();
    let nis = filter.update_position(&position(0.0, -1.0));
    assert_eq!(nis, Err(Refusal::Pivot));
    assert_eq!(filter, before);
}

/// Both forms of an accepted call: one answer, and one filter afterwards.
fn assert_same<T: Debug + PartialEq>(
    by_slice: impl FnOnce(&mut Filter) -> T,
    by_array: impl FnOnce(&mut Filter) -> T,
) {
    let first = started(&moving(), diagonal([0.01; STATES]));
    let (mut a, mut b) = (first.clone(), first.clone());
    assert_eq!(by_slice(&mut a), by_array(&mut b));
    assert_eq!(a, b);
    assert_ne!(a, first);
}

#[test]
fn slices_of_the_length_are_taken() {
    let noise = diagonal([1.0; 3]);
    let call = Imu {
        omega: [0.1; 3],
        accel: [1.0; 3],
        dt: 0.5,
    }
    .numbers(&Densities::default());
    assert_same(|f| f.propagate_slice(&call), |f| f.propagate(&call));
    let call = Fix {
        antenna: [1.0; 3],
        noise,
    }
    .numbers();
    assert_same(
        |f| f.update_position_slice(&call),
        |f| f.update_position(&call),
    );
    let call = VelocityFix {
        antenna: [1.0; 3],
        omega: [0.1; 3],
        noise,
    }
    .numbers();
    assert_same(
        |f| f.update_velocity_slice(&call),
        |f| f.update_velocity(&call),
    );
    let call = Direction {
        measured: [1.0; 3],
        north: [1.0, 0.0, 0.0],
        noise,
    }
    .numbers();
    assert_same(
        |f| f.update_direction_slice(&call),
        |f| f.update_direction(&call),
    );
    let call = General {
        output: [[0.1; STATES]; 3],
        innovation: [1.0; 3],
        noise,
    }
    .numbers();
    assert_same(|f| f.update_slice(&call), |f| f.update(&call));
    let call = Scalar {
        output: [0.1; STATES],
        innovation: 1.0,
        variance: 1.0,
    }
    .numbers();
    assert_same(|f| f.update_scalar_slice(&call), |f| f.update_scalar(&call));
    let readings = [[1.0, 0.5, 0.0], [1.0, 0.1, 0.0]];
    let call = Compasses {
        north: [1.0, 0.0, 0.0],
        noise,
    }
    .numbers();
    assert_same(
        |f| f.update_compasses_slice(readings.as_flattened(), &call, 2),
        |f| f.update_compasses(&readings, &call, 2),
    );
}

#[test]
fn start_and_state_by_slices() {
    let start = Start {
        state: moving(),
        sigma: diagonal([0.01; STATES]),
        gravity: [0.0, 0.0, 9.81],
    }
    .numbers();
    let filter = Filter::start_slice(&start).unwrap();
    assert_eq!(Filter::start(&start), Ok(filter.clone()));
    let mut state = [0.0; STATE_LENGTH];
    assert_eq!(filter.nav_state_slice(&mut state), Ok(()));
    assert_eq!(filter.nav_state(), Ok(State::from_numbers(&state)));
}

/// Each slice form with one number too few and one too many.
#[test]
fn slices_of_another_length_are_refused() {
    let refused = Some(Refusal::Length);
    let all = [0.0; START_LENGTH + 1];
    for off in [0, 2] {
        let slice = |n: usize| &all[..n - 1 + off];
        let mut f = whole_case();
        assert_eq!(Filter::start_slice(slice(START_LENGTH)).err(), refused);
        assert_eq!(f.propagate_slice(slice(PROPAGATE_LENGTH)).err(), refused);
        assert_eq!(
            f.update_position_slice(slice(POSITION_LENGTH)).err(),
            refused
        );
        assert_eq!(
            f.update_velocity_slice(slice(VELOCITY_LENGTH)).err(),
            refused
        );
        assert_eq!(
            f.update_direction_slice(slice(DIRECTION_LENGTH)).err(),
            refused
        );
        assert_eq!(f.update_slice(slice(UPDATE_LENGTH)).err(), refused);
        assert_eq!(f.update_scalar_slice(slice(SCALAR_LENGTH)).err(), refused);
        let (readings, compasses) = (slice(READING_LENGTH), &all[..COMPASSES_LENGTH]);
        assert_eq!(
            f.update_compasses_slice(readings, compasses, 1).err(),
            refused
        );
        let (readings, compasses) = (&all[..READING_LENGTH], slice(COMPASSES_LENGTH));
        assert_eq!(
            f.update_compasses_slice(readings, compasses, 1).err(),
            refused
        );
        assert_eq!(f, whole_case());
        let mut state = vec![1.0; STATE_LENGTH - 1 + off];
        assert_eq!(f.nav_state_slice(&mut state).err(), refused);
        assert!(state.iter().all(|&x| x == 1.0));
    }
}

/// A filter of another length, which the crate's types do not have: one with one alpha, and one number too few or too
/// many.
#[test]
fn filters_of_another_length_are_refused() {
    let start = Start {
        state: moving(),
        sigma: diagonal([0.02; STATES]),
        gravity: [0.0, 0.0, 9.81],
    };
    let filter = Filter::start(&start.numbers()).unwrap();
    for n in [ONE_ALPHA_LENGTH, FILTER_LENGTH - 1, FILTER_LENGTH + 1] {
        let mut run = filter.0.to_vec();
        run.resize(n, 0.5);
        let before = run.clone();
        assert_eq!(exported::start(&mut run, &start.numbers()), 1);
        for call in all_calls::calls(0.7) {
            let (code, written) = call.on(&mut run);
            assert_eq!(code, 1, "{} on {n} numbers", call.name);
            let sevens = [7, 7.0_f64.to_bits()];
            assert!(written.iter().all(|x| sevens.contains(x)));
            assert_eq!(run, before);
        }
    }
}

/// A run of another length for the normalised innovation squared: refused, though the update itself would be accepted.
#[test]
fn nis_runs_of_another_length() {
    let mut filter = whole_case();
    let before = filter.clone();
    let call = position(1.0, 1.0);
    assert_eq!(exported::update_position(&mut filter.0, &call, &mut []), 1);
    let mut two = [7.0, 7.0];
    assert_eq!(exported::update_position(&mut filter.0, &call, &mut two), 1);
    assert_eq!(two, [7.0, 7.0]);
    assert_eq!(filter, before);
}

#[test]
fn a_refusal_leaves_the_nis_run() {
    let mut filter = whole_case();
    let mut nis = [7.0];
    let code = exported::update_position(&mut filter.0, &position(0.0, -1.0), &mut nis);
    assert_eq!(code, 4);
    assert_eq!(nis, [7.0]);
}

#[test]
fn blanks_are_refused() {
    let mut filter = whole_case();
    for x in [f64::NAN, f64::INFINITY, f64::NEG_INFINITY] {
        let nis = filter.update_position(&position(x, 1.0));
        assert_eq!(nis, Err(Refusal::Blank));
    }
    assert_eq!(filter, whole_case());
}

/// A call that only turns, about the first axis.
fn turning(omega: f64) -> [f64; PROPAGATE_LENGTH] {
    let imu = Imu {
        omega: [omega, 0.0, 0.0],
        accel: [0.0; 3],
        dt: 1.0,
    };
    imu.numbers(&Densities::default())
}

/// A turn of norm 8 passes, the next number above does not.
#[test]
fn turns_above_8_are_refused() {
    assert_eq!(whole_case().propagate(&turning(8.0)), Ok(()));
    let above = f64::from_bits(8.0_f64.to_bits() + 1);
    let mut filter = whole_case();
    assert_eq!(filter.propagate(&turning(above)), Err(Refusal::Turn));
    assert_eq!(filter, whole_case());
}

#[test]
fn a_result_out_of_range_is_refused() {
    let imu = Imu {
        omega: [0.0; 3],
        accel: [f64::MAX, 0.0, 0.0],
        dt: 4.0,
    };
    let mut filter = whole_case();
    let answer = filter.propagate(&imu.numbers(&Densities::default()));
    assert_eq!(answer, Err(Refusal::Range));
    assert_eq!(filter, whole_case());
}

/// A state goes in by `start` and comes out of `nav_state`: to the bit where nothing is rotated, else to rounding.
#[test]
fn a_state_comes_back() {
    let state = State {
        velocity: [1.0, 2.0, 3.0],
        position: [4.0, 5.0, 6.0],
        ..State::default()
    };
    let filter = started(&state, diagonal([0.0; STATES]));
    assert_eq!(filter.nav_state(), Ok(state));
    let filter = started(&moving(), diagonal([0.0; STATES]));
    let back = filter.nav_state().unwrap();
    assert_close(&back.numbers(), &moving().numbers(), 1e-14);
}
