//! Call sheets.
use super::*;
use std::format;
use std::string::{String, ToString};
use std::vec::Vec;

/// The sheet of a filter and position calls.
fn sheet(filter: &Filter, calls: &[[f64; POSITION_LENGTH]]) -> Vec<u8> {
    sheet_of(kind::POSITION, filter, calls)
}

/// The sheet of a filter and calls of one kind.
fn sheet_of<const N: usize>(kind: u32, filter: &Filter, calls: &[[f64; N]]) -> Vec<u8> {
    let n = 1 + calls.len();
    let mut bytes = (n as u32).to_le_bytes().to_vec();
    let mut offset = 4 + 8 * n;
    for i in 0..n {
        let (kind, length) = match i {
            0 => (kind::FILTER, FILTER_LENGTH),
            _ => (kind, N),
        };
        bytes.extend(kind.to_le_bytes());
        bytes.extend((offset as u32).to_le_bytes());
        offset += 8 * length;
    }
    for x in filter.0.iter().chain(calls.iter().flatten()) {
        bytes.extend(x.to_le_bytes());
    }
    bytes
}

/// The text of a sheet.
fn text(sheet: &[u8]) -> String {
    run_sheet_into(sheet, &mut [7; TEXT_LENGTH]).to_string()
}

#[test]
fn whole_case_sheet() {
    let calls = [position(0.0, 1.0), position(1.0, 1.0), position(0.0, -1.0)];
    let bytes = sheet(&whole_case(), &calls);
    let expected = "1 2 0000000000000000\n2 2 3FF0000000000000\n3 2 refused 4\n";
    assert_eq!(text(&bytes), expected);
    #[cfg(feature = "std")]
    assert_eq!(run_sheet(&bytes), expected);
}

/// Updates by one number; the first number that is no kind.
#[test]
fn a_sheet_of_scalar_updates() {
    let seen = |innovation, variance| {
        let output = [0.0; STATES];
        Scalar {
            output,
            innovation,
            variance,
        }
        .numbers()
    };
    let calls = [seen(0.0, 1.0), seen(1.0, 4.0), seen(0.0, -1.0)];
    assert_eq!(
        text(&sheet_of(kind::SCALAR, &whole_case(), &calls)),
        "1 7 0000000000000000\n2 7 3FD0000000000000\n3 7 refused 4\n"
    );
    assert_eq!(
        text(&sheet_of(kind::SCALAR + 1, &whole_case(), &calls)),
        "refused 6\n"
    );
}

/// Directions: a vector of norm 0 is refused by 7, one that is blank too by 2, and the calls after it go on.
#[test]
fn a_sheet_of_directions() {
    let seen = |measured, north| {
        let noise = diagonal([1.0; 3]);
        Direction {
            measured,
            north,
            noise,
        }
        .numbers()
    };
    let (x, y) = ([1.0, 0.0, 0.0], [0.0, 2.0, 0.0]);
    let calls = [
        seen(x, y),
        seen([0.0; 3], y),
        seen(x, [-0.0; 3]),
        seen([f64::INFINITY, 0.0, 0.0], [0.0; 3]),
        seen(x, y),
    ];
    assert_eq!(
        text(&sheet_of(kind::DIRECTION, &whole_case(), &calls)),
        "1 4 3FF0000000000000\n2 4 refused 7\n3 4 refused 7\n4 4 refused 2\n5 4 3FF0000000000000\n"
    );
}

#[test]
fn broken_sheets_print_6() {
    let whole = sheet(&whole_case(), &[position(0.0, 1.0)]);
    assert_eq!(text(&[]), "refused 6\n");
    assert_eq!(text(&whole[..whole.len() - 1]), "refused 6\n");
    let longer = [&whole[..], &[0]].concat();
    assert_eq!(text(&longer), "refused 6\n");
}

/// A filter with one alpha, or with two, though the call stands right after it.
#[test]
fn filters_that_lack_alphas_print_6() {
    let whole = sheet(&whole_case(), &[position(0.0, 1.0)]);
    for length in [ONE_ALPHA_LENGTH, FILTER_LENGTH - 1] {
        let mut bytes = whole.clone();
        bytes.drain(20 + 8 * length..20 + 8 * FILTER_LENGTH);
        bytes[16..20].copy_from_slice(&(20 + 8 * length as u32).to_le_bytes());
        assert_eq!(text(&bytes), "refused 6\n");
    }
}

/// The alphas of a sheet's filter are taken: each NIS is that of the same call outside of a sheet.
#[test]
fn a_sheet_of_a_filter_with_three_alphas() {
    let mut filter = started(&moving(), diagonal([0.02; STATES]));
    filter.set_alphas(Alphas {
        position: 0.05,
        velocity: 0.3,
        direction: 0.8,
    });
    let fix = VelocityFix {
        antenna: [9.0, 9.0, 9.0],
        omega: [0.0; 3],
        noise: diagonal([0.01; 3]),
    }
    .numbers();
    let printed = text(&sheet_of(kind::VELOCITY, &filter, &[fix; 3]));
    let expected: String = (1..=3)
        .map(|i| {
            let nis = filter.update_velocity(&fix).unwrap();
            format!("{i} 3 {:016X}\n", nis.to_bits())
        })
        .collect();
    assert_eq!(printed, expected);
}

/// As many calls as a sheet may have; the text's place is left as it was after its end.
#[test]
fn a_full_sheet_fits() {
    let bytes = sheet(&whole_case(), &[position(1.0, 1.0); 255]);
    let mut room = [7; TEXT_LENGTH];
    let length = run_sheet_into(&bytes, &mut room).len();
    assert_eq!(length, 9 * 21 + 90 * 22 + 156 * 23);
    assert!(room[..length].ends_with(b"\n255 2 3FF0000000000000\n"));
    assert!(room[length..].iter().all(|&b| b == 7));
    assert_eq!(
        text(&sheet(&whole_case(), &[position(1.0, 1.0); 256])),
        "refused 6\n"
    );
    assert_eq!(text(&sheet(&whole_case(), &[])), "");
}

#[test]
fn text_runs_of_another_length() {
    let bytes = sheet(&whole_case(), &[]);
    let mut room = [7; TEXT_LENGTH];
    let mut length = [9];
    assert_eq!(exported::run_sheet(&bytes, &mut room[1..], &mut length), 1);
    assert_eq!(exported::run_sheet(&bytes, &mut room, &mut []), 1);
    assert_eq!(exported::run_sheet(&bytes, &mut room, &mut [9, 9]), 1);
    assert!(room.iter().all(|&b| b == 7));
    assert_eq!(length, [9]);
}
