//! Directions whose measured vector or north has norm 0, and those near it: what is refused as null, and what is not.
use super::*;

/// A turned filter with variance 0.02 on each coordinate.
fn doubtful() -> Filter {
    started(&moving(), diagonal([0.02; STATES]))
}

/// A direction, with the same variance on each axis.
fn field(measured: [f64; 3], north: [f64; 3], variance: f64) -> [f64; DIRECTION_LENGTH] {
    let noise = diagonal([variance; 3]);
    Direction {
        measured,
        north,
        noise,
    }
    .numbers()
}

/// A vector as what is measured, as north, and as both.
fn placed(vector: [f64; 3], variance: f64) -> [[f64; DIRECTION_LENGTH]; 3] {
    let usual = [0.4, -0.1, 0.9];
    [
        field(vector, usual, variance),
        field(usual, vector, variance),
        field(vector, vector, variance),
    ]
}

/// Each form of the call is refused so; the filter and the run of the NIS keep their bits.
#[track_caller]
fn assert_refused(numbers: &[f64; DIRECTION_LENGTH], refusal: Refusal) {
    let before = doubtful().0.map(f64::to_bits);
    let mut filter = doubtful();
    assert_eq!(filter.update_direction(numbers), Err(refusal));
    assert_eq!(filter.update_direction_slice(numbers), Err(refusal));
    let mut nis = [7.0];
    let code = exported::update_direction(&mut filter.0, numbers, &mut nis);
    assert_eq!(code, refusal.number());
    assert_eq!(nis, [7.0]);
    assert_eq!(filter.0.map(f64::to_bits), before);
}

/// The number above one that is above zero.
fn above(x: f64) -> f64 {
    f64::from_bits(x.to_bits() + 1)
}

/// The largest number whose square is 0.
fn largest_null() -> f64 {
    let x = 1.5717277847026285e-162;
    assert_eq!(x * x, 0.0);
    assert!(above(x) * above(x) > 0.0);
    x
}

#[test]
fn zeros_of_either_sign_are_refused() {
    for vector in [[0.0; 3], [-0.0; 3], [0.0, -0.0, 0.0]] {
        for numbers in placed(vector, 1e-4) {
            assert_refused(&numbers, Refusal::Null);
        }
    }
}

/// A norm that is 0 because each square underflows.
#[test]
fn vectors_whose_squares_are_zero_are_refused() {
    let x = largest_null();
    for vector in [[x; 3], [-x, x, -x], [0.0, x, 0.0], [5e-324, 0.0, -5e-324]] {
        for numbers in placed(vector, 1e-4) {
            assert_refused(&numbers, Refusal::Null);
        }
    }
}

/// One number whose square is above 0 makes a norm above 0.
#[test]
fn the_next_number_above_is_taken() {
    let (x, y) = (largest_null(), above(largest_null()));
    for vector in [[y, 0.0, 0.0], [0.0, -y, 0.0], [x, x, y]] {
        for numbers in placed(vector, 1e-4) {
            assert!(doubtful().update_direction(&numbers).is_ok());
        }
    }
}

/// A norm that overflows is not 0: its vector is taken as the zero vector. So a measured one makes the covariance
/// smaller, and a north changes nothing.
#[test]
fn norms_that_overflow_are_not_refused() {
    for vector in [[1e200, 0.0, 0.0], [f64::MAX; 3], [0.0, -2e154, 0.0]] {
        for numbers in placed(vector, 1e-4) {
            assert_eq!(doubtful().update_direction(&numbers), Ok(0.0));
        }
        let [measured, north, _] = placed(vector, 1e-4);
        let trace = |f: &Filter| (0..STATES).map(|i| f.sigma_at(i, i)).sum::<f64>();
        let mut filter = doubtful();
        filter.update_direction(&measured).unwrap();
        assert!(trace(&filter) < trace(&doubtful()) - 1e-3);
        let mut filter = doubtful();
        filter.update_direction(&north).unwrap();
        assert_eq!(filter, doubtful());
    }
}

/// 2 is tested before 7: wherever a blank stands, in the filter too.
#[test]
fn blanks_come_before_null() {
    for x in [f64::NAN, f64::INFINITY, f64::NEG_INFINITY] {
        for place in 0..DIRECTION_LENGTH {
            let mut numbers = field([0.0; 3], [0.0; 3], 1e-4);
            numbers[place] = x;
            assert_refused(&numbers, Refusal::Blank);
        }
        let mut filter = doubtful();
        filter.set_alphas(Alphas::all(x));
        let numbers = field([0.0; 3], [0.0; 3], 1e-4);
        assert_eq!(filter.update_direction(&numbers), Err(Refusal::Blank));
    }
}

/// 7 is tested before 4: a noise of minus the identity is refused by 4 where no vector has norm 0.
#[test]
fn null_comes_before_pivot() {
    for numbers in placed([0.0; 3], -1.0) {
        assert_refused(&numbers, Refusal::Null);
    }
    for numbers in placed([1.0, 0.0, 0.0], -1.0) {
        assert_refused(&numbers, Refusal::Pivot);
    }
}

/// 1 is tested before 7.
#[test]
fn lengths_come_before_null() {
    let numbers = field([0.0; 3], [0.0; 3], 1e-4);
    let mut filter = doubtful();
    for nis in [&mut [][..], &mut [7.0, 7.0]] {
        assert_eq!(exported::update_direction(&mut filter.0, &numbers, nis), 1);
    }
    let refused = filter.update_direction_slice(&numbers[..DIRECTION_LENGTH - 1]);
    assert_eq!(refused, Err(Refusal::Length));
    assert_eq!(filter, doubtful());
}

/// No other call has a vector that is normalised: zeros are taken.
#[test]
fn other_calls_take_zeros() {
    let noise = diagonal([1.0; 3]);
    let fix = Fix {
        antenna: [0.0; 3],
        noise,
    };
    assert!(doubtful().update_position(&fix.numbers()).is_ok());
    let fix = VelocityFix {
        antenna: [0.0; 3],
        omega: [0.0; 3],
        noise,
    };
    assert!(doubtful().update_velocity(&fix.numbers()).is_ok());
    let seen = General {
        output: [[0.0; STATES]; 3],
        innovation: [0.0; 3],
        noise,
    };
    assert_eq!(doubtful().update(&seen.numbers()), Ok(0.0));
    let seen = Scalar {
        output: [0.0; STATES],
        innovation: 0.0,
        variance: 1.0,
    };
    assert_eq!(doubtful().update_scalar(&seen.numbers()), Ok(0.0));
}
