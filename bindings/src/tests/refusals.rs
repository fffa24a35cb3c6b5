//! Refusals by number, word and text.
use super::*;
use std::string::ToString;

#[test]
fn refusals_by_number() {
    let words = [
        "length", "blank", "turn", "pivot", "range", "sheet", "null", "unequal",
    ];
    for (n, word) in (1..=8).zip(words) {
        let refusal = Refusal::of_number(n).unwrap();
        assert_eq!(refusal.number(), n);
        assert_eq!(refusal.word(), word);
    }
    assert_eq!(Refusal::of_number(0), None);
    assert_eq!(Refusal::of_number(8), Some(Refusal::Unequal));
    assert_eq!(Refusal::of_number(9), None);
}

#[test]
fn texts() {
    let texts = [
        "refused 1 (length): a run is not of its stated length, or a budget is above 8; \
         check the length given with each run",
        "refused 2 (blank): a number of the filter or of the call is infinite or not a number; \
         check the call's numbers and the alphas",
        "refused 3 (turn): one step would turn by more than 8 rad, or by no number; \
         check omega, dt and the innovation",
        "refused 4 (pivot): the innovation covariance, raw or inflated, is not positive definite; \
         check measurement, noise and sigma",
        "refused 5 (range): a result is not finite; check the units and sizes of the numbers",
        "refused 6 (sheet): a call sheet breaks its layout or cannot be read; check how it was built",
        "refused 7 (null): a direction's measured vector or north has norm 0; \
         check that the compass is on and that north is set",
        "refused 8 (unequal): the filter's alphas have not all the same bits; \
         set them to one number, of one sign where it is 0",
    ];
    for (n, text) in (1..=8).zip(texts) {
        let error: &dyn core::error::Error = &Refusal::of_number(n).unwrap();
        assert_eq!(error.to_string(), text);
    }
}
