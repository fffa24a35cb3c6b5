//! Sine, cosine and square root.
use super::*;

#[test]
fn sines_from_0_to_8() {
    assert_eq!(sin_cos(0.0), (0.0, 1.0));
    let (s, c) = sin_cos(8.0);
    assert!((s - 8.0_f64.sin()).abs() < 1e-14 && (c - 8.0_f64.cos()).abs() < 1e-14);
    let above = f64::from_bits(8.0_f64.to_bits() + 1);
    for theta in [-1.0, above, f64::INFINITY, f64::NAN] {
        let (s, c) = sin_cos(theta);
        assert!(s.is_nan() && c.is_nan());
    }
    let mut one = [7.0];
    assert_eq!(exported::sin_cos(1.0, &mut one), 1);
    assert_eq!(one, [7.0]);
}

#[test]
fn roots() {
    assert_eq!(sqrt(4.0), 2.0);
    assert_eq!(sqrt(-0.0).to_bits(), (-0.0_f64).to_bits());
    assert!(sqrt(-1.0).is_nan());
}
