//! The lists of calls, each from a fixed seed.
use crate::list::List;
use inputs::{biased, rounded_away, Flight, Log, Manner, Numbers};
use original::kinds;
use original::places::{
    ALPHAS, DIAGONAL_STEP, DT, E, FILTER, GAMMA, GENERAL, GENERAL_NOISE, GRAVITY, INNOVATION, POSITION_ALPHA, SCALAR, SCALAR_INNOVATION,
    SIGMA, START, VARIANCE, VELOCITY_ALPHA,
};
use original::{is_update, propagated_unedited, Answer, LAST_KIND};

type Call = (u32, Vec<f64>);

/// A number out of another.
type Change = fn(&mut Numbers, f64) -> f64;

/// The filter of a flight's start, with one alpha for all sensors.
pub fn started(flight: &mut Flight, alpha: f64) -> Vec<f64> {
    let mut run = vec![0.0; FILTER];
    original::start(&mut run, &flight.start());
    run[POSITION_ALPHA..].fill(alpha);
    run
}

/// Whether an update leaves another filter by each of the other two alphas. `left` is what it leaves of `run`.
pub fn other_alphas_differ<T>(run: &[f64], left: &[f64], update: impl Fn(&mut [f64]) -> T) -> bool {
    (1..ALPHAS).all(|places| {
        let mut other = run.to_vec();
        other[POSITION_ALPHA..].rotate_left(places);
        update(&mut other);
        other[..START] != left[..START]
    })
}

/// A flight of n calls with an alpha for each sensor. Each update tells which it uses.
fn with_alphas(name: &'static str, seed: u64, alphas: [f64; ALPHAS], n: usize) -> List {
    let mut flight = Flight::new(seed);
    let mut run = started(&mut flight, 0.5);
    run[POSITION_ALPHA..].copy_from_slice(&alphas);
    let mut list = List::new(name, &run);
    for _ in 0..n {
        let (run, (kind, numbers)) = (list.run.clone(), flight.next_call());
        list.add((kind, numbers.clone()));
        let update = |run: &mut [f64]| original::call(kind, run, &numbers, &mut []);
        assert!(!is_update(kind) || other_alphas_differ(&run, &list.run, update), "{name}");
    }
    list
}

/// A flight of n calls, each changed by `edit` before it is made; where it would leave a filter of large numbers it is left out.
fn flown(name: &'static str, seed: u64, alpha: f64, n: usize, mut edit: impl FnMut(&mut Numbers, &mut Call)) -> List {
    let (mut flight, mut numbers) = (Flight::new(seed), Numbers::new(seed));
    let mut list = List::new(name, &started(&mut flight, alpha));
    for _ in 0..n {
        let mut call = flight.next_call();
        edit(&mut numbers, &mut call);
        list.add_tame(call);
    }
    list
}

/// The noise of an update, its last nine numbers; of a scalar update the variance.
fn noise(call: &mut Call) -> &mut [f64] {
    let at = call.1.len() - if call.0 == kinds::SCALAR { 1 } else { 9 };
    &mut call.1[at..]
}

/// Some of the call's numbers anew.
fn replace(n: &mut Numbers, call: &mut Call, one_in: usize, number: fn(&mut Numbers) -> f64) {
    for x in &mut call.1 {
        if n.one_in(one_in) {
            *x = number(n);
        }
    }
}

fn backwards(n: &mut Numbers, call: &mut Call) {
    if call.0 == kinds::PROPAGATE {
        call.1[DT] = n.one_of(&[-0.01, -0.03, 0.0, -0.0, 0.01]);
    }
}

fn damage(n: &mut Numbers, call: &mut Call) {
    if !call.1.is_empty() && n.one_in(2) {
        let at = n.below(call.1.len());
        call.1[at] = n.one_of(&[f64::INFINITY, f64::NEG_INFINITY, f64::NAN]);
    }
}

fn stretch(n: &mut Numbers, call: &mut Call) {
    replace(n, call, 12, Numbers::finite);
}

/// Sizes at which squares overflow, and below it.
fn enlarge(n: &mut Numbers, call: &mut Call) {
    replace(n, call, 8, |n| n.within(1.0) * n.one_of(&[1e30, 1e100, 1e154, 1e155, 1e200, 1e300]));
}

fn shrink(n: &mut Numbers, call: &mut Call) {
    let scale = n.one_of(&[1e-310, 5e-324, 1e-160, 1e-300, 1.0]);
    call.1.iter_mut().for_each(|x| *x *= scale);
}

fn empty(n: &mut Numbers, call: &mut Call) {
    replace(n, call, 2, |n| n.one_of(&[0.0, -0.0]));
}

/// Noise that is zero, of rank one, indefinite, not symmetric, nearly singular, or below zero.
fn spoil_noise(n: &mut Numbers, call: &mut Call) {
    if !is_update(call.0) {
        return;
    }
    let a: [f64; 3] = n.withins(1.0);
    let scale = n.one_of(&[1e-12, 1e-6, 1e-3, 1.0, 1e3]);
    let how = n.below(7);
    for (k, x) in noise(call).iter_mut().enumerate() {
        let (i, j) = (k / 3, k % 3);
        let diagonal = f64::from(u8::from(i == j));
        *x = scale
            * match how {
                0 => 0.0,
                1 => a[i] * a[j],
                2 => a[i] * diagonal,
                3 => a[i] * a[j] + 1e-17 * diagonal,
                4 => -diagonal,
                5 => n.within(1.0),
                _ => a[i] * a[j] - 1e-17 * diagonal,
            };
    }
}

/// Turns of 5 to 11: in some propagations, and by measurements of the attitude and of E, whose gain is about a half.
fn turn(n: &mut Numbers, call: &mut Call) {
    let turn = 8.0 + n.within(3.0);
    if call.0 == kinds::PROPAGATE && n.one_in(4) {
        let norm = call.1[..3].iter().map(|x| x * x).sum::<f64>().sqrt();
        call.1[..3].iter_mut().for_each(|x| *x *= turn / norm);
        call.1[DT] = n.one_of(&[1.0, -1.0, 0.5]);
    }
    if call.0 == kinds::DIRECTION && n.one_in(2) {
        let (at, axis) = (n.one_of(&[0, 18]), n.below(3));
        *call = (kinds::GENERAL, vec![0.0; GENERAL]);
        for i in 0..3 {
            call.1[DIAGONAL_STEP * i + at] = 1.0;
            call.1[GENERAL_NOISE + 4 * i] = 1e-9;
        }
        call.1[INNOVATION + axis] = 2.0 * turn;
    }
    if call.0 == kinds::SCALAR && n.one_in(2) {
        let at = n.one_of(&[0, 18]) + n.below(3);
        call.1 = vec![0.0; SCALAR];
        (call.1[at], call.1[SCALAR_INNOVATION], call.1[VARIANCE]) = (1.0, 2.0 * turn, 1e-9);
    }
}

/// Directions alone; north and what is measured ordinary, of a norm that is 0, by underflow too, or hardly above it, or that overflows.
fn point(n: &mut Numbers, call: &mut Call) {
    if call.0 == kinds::DIRECTION {
        for at in [0, 3] {
            let scale = n.one_of(&[1.0, 1.0, 1.0, 1.0, 0.0, -0.0, 1e-200, 1e-161, 1e200]);
            call.1[at..at + 3].iter_mut().for_each(|x| *x *= scale);
        }
    }
}

/// The filter of a start, with the numbers of its state and of its covariance changed.
fn changed(n: &mut Numbers, alpha: f64, state: Change, sigma: Change) -> Vec<f64> {
    let mut run = started(&mut Flight::new(n.below(1000) as u64), alpha);
    run[..SIGMA].iter_mut().for_each(|x| *x = state(n, *x));
    run[SIGMA..GRAVITY].iter_mut().for_each(|x| *x = sigma(n, *x));
    run
}

/// Calls of every kind alike often, with numbers of their own.
fn strewn(name: &'static str, seed: u64, filter: &[f64], calls: usize, number: fn(&mut Numbers) -> f64) -> List {
    let mut n = Numbers::new(seed);
    let mut list = List::new(name, filter);
    for i in 0..calls {
        let kind = 1 + i as u32 % LAST_KIND;
        let mut call = (kind, (0..original::call_length(kind)).map(|_| number(&mut n)).collect());
        if is_update(kind) && n.one_in(2) {
            let variance = n.one_of(&[1.0, 100.0, 1e10]);
            noise(&mut call).iter_mut().step_by(4).for_each(|x| *x += variance);
        }
        list.add_tame(call);
    }
    list
}

/// General updates alone.
fn general(name: &'static str, seed: u64, alpha: f64) -> List {
    let mut flight = Flight::new(seed);
    let mut list = List::new(name, &started(&mut flight, alpha));
    for _ in 0..60 {
        let call = (kinds::GENERAL, flight.call(kinds::GENERAL));
        list.add_tame(call);
    }
    list
}

/// Scalar updates alone, of every manner.
fn scalar(name: &'static str, seed: u64, alpha: f64) -> List {
    let mut n = Numbers::new(seed);
    let mut list = List::new(name, &started(&mut Flight::new(seed), alpha));
    for manner in Manner::ALL.into_iter().cycle().take(120) {
        let call = (kinds::SCALAR, inputs::call(&mut n, manner, kinds::SCALAR, &list.run));
        list.add_tame(call);
    }
    list
}

/// The propagations of a log, which are all accepted. The original unedited leaves another filter at each.
fn propagated(name: &'static str, log: Log) -> List {
    let mut list = List::new(name, &log.run);
    for call in log.calls {
        let unedited = propagated_unedited(&list.run, &call.1);
        assert!(matches!(list.add(call), Answer::Fine) && list.run[..START] != unedited, "{name}");
    }
    list
}

/// A flight's calls on a filter that has one number that is not finite.
fn blank(name: &'static str, place: usize) -> List {
    let mut flight = Flight::new(60);
    let mut run = started(&mut flight, 0.5);
    run[place] = f64::NAN;
    let mut list = List::new(name, &run);
    for kind in 1..=LAST_KIND {
        let call = (kind, flight.call(kind));
        list.add(call);
    }
    list
}

/// What a filter's numbers are multiplied by, and the antenna or the innovation of its updates.
struct Scales {
    pose: f64,
    gamma: f64,
    e: f64,
    sigma: f64,
    innovation: f64,
}

/// No number changed.
const UNCHANGED: Scales = Scales { pose: 1.0, gamma: 1.0, e: 1.0, sigma: 1.0, innovation: 1.0 };

/// Each kind of call on a filter of large numbers, whose products overflow.
fn huge(name: &'static str, alpha: f64, by: &Scales) -> List {
    let mut flight = Flight::new(61);
    let mut run = started(&mut flight, alpha);
    run[..GAMMA].iter_mut().for_each(|x| *x *= by.pose);
    run[GAMMA..E].iter_mut().enumerate().for_each(|(i, x)| *x = by.gamma * (1.0 + i as f64));
    run[E..SIGMA].iter_mut().for_each(|x| *x *= by.e);
    run[SIGMA..GRAVITY].iter_mut().for_each(|x| *x *= by.sigma);
    let mut list = List::new(name, &run);
    for kind in (1..=LAST_KIND).cycle().take(3 * LAST_KIND as usize) {
        let mut call = (kind, flight.call(kind));
        let innovation = match kind {
            kinds::POSITION | kinds::VELOCITY => 0..3,
            kinds::GENERAL => INNOVATION..GENERAL_NOISE,
            kinds::SCALAR => SCALAR_INNOVATION..VARIANCE,
            _ => 0..0,
        };
        call.1[innovation].iter_mut().for_each(|x| *x *= by.innovation);
        if is_update(kind) && by.innovation != 1.0 {
            noise(&mut call).iter_mut().for_each(|x| *x *= 1e-9);
        }
        list.add(call);
    }
    list
}

fn ordinary(n: &mut Numbers) -> f64 {
    n.within(1.0)
}

fn any(n: &mut Numbers) -> f64 {
    n.number(false)
}

fn some(n: &mut Numbers, x: f64) -> f64 {
    if n.one_in(16) {
        n.number(false)
    } else {
        x
    }
}

pub fn all() -> Vec<List> {
    let mut n = Numbers::new(7);
    let unsymmetric = changed(&mut n, 2.0, |_, x| x, |n, x| 2.0 * x + n.within(0.01));
    let indefinite = changed(&mut n, 0.5, some, |n, _| n.within(1.0));
    let wild = changed(&mut n, -3.0, some, |_, x| x);
    let zeros = changed(&mut n, -0.0, |n, _| n.one_of(&[0.0, -0.0, 1.0]), |n, _| n.one_of(&[0.0, -0.0]));
    vec![
        flown("flight", 50, 0.5, 255, |_, _| {}),
        flown("second_flight", 51, 0.25, 120, |_, _| {}),
        flown("backwards", 52, 1.5, 150, backwards),
        flown("damaged", 53, 0.5, 150, damage),
        flown("stretched", 54, -1.0, 210, stretch),
        flown("enlarged", 55, 1.0, 210, enlarge),
        flown("shrunk", 56, 0.0, 150, shrink),
        flown("emptied", 57, 0.5, 150, empty),
        flown("noise", 58, 1.0, 210, spoil_noise),
        flown("turns", 59, 0.0, 210, turn),
        flown("directions", 62, 0.5, 150, point),
        general("general", 63, 0.75),
        scalar("scalar", 69, 0.0),
        strewn("zeros", 76, &zeros, 140, any),
        strewn("unsymmetric", 65, &unsymmetric, 210, ordinary),
        strewn("indefinite", 66, &indefinite, 140, ordinary),
        strewn("wild", 67, &wild, 210, any),
        huge("huge_state", 0.5, &Scales { pose: 1e200, gamma: 1e200, ..UNCHANGED }),
        huge("huge_sigma", 0.5, &Scales { sigma: 1e300, ..UNCHANGED }),
        huge("huge_e", 0.5, &Scales { e: 1e155, sigma: 0.0, innovation: 1e155, ..UNCHANGED }),
        huge("huge_nis", 0.0, &Scales { e: 1e152, sigma: 0.0, innovation: 1e152, ..UNCHANGED }),
        propagated("rounded_away", rounded_away()),
        propagated("biased", biased(&mut Numbers::new(70))),
        blank("blank", 200),
        with_alphas("three_alphas", 77, [0.25, 0.5, 1.0], 120),
        with_alphas("outer_alphas", 78, [-3.0, 0.5, 2.0], 90),
        blank("blank_alpha", VELOCITY_ALPHA),
    ]
}
