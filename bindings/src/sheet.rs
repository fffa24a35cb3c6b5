//! Call sheets: the bytes of a filter and of calls on it, run to a text.
use crate::exported;
use crate::refusal::checked;
use crate::TEXT_LENGTH;

/// Runs the bytes of a call sheet and writes its text to the front of `text`: a line for each call, or `refused 6`
/// for a broken sheet. Gives the text. docs/MANUAL.md has the layout of a sheet; [`kind`](crate::kind) has the
/// numbers of the kinds.
///
/// ```
/// use drifters_port::{run_sheet_into, TEXT_LENGTH};
///
/// let mut text = [0; TEXT_LENGTH];
/// assert_eq!(run_sheet_into(b"no sheet", &mut text), "refused 6\n");
/// ```
pub fn run_sheet_into<'a>(sheet: &[u8], text: &'a mut [u8; TEXT_LENGTH]) -> &'a str {
    let mut length = [0];
    checked(exported::run_sheet(sheet, text, &mut length)).expect("both runs have their lengths");
    core::str::from_utf8(&text[..length[0]]).expect("a sheet's text is ASCII")
}

/// [`run_sheet_into`] with a text of its own. Needs the feature `std`.
///
/// ```
/// assert_eq!(drifters_port::run_sheet(b"no sheet"), "refused 6\n");
/// ```
#[cfg(feature = "std")]
pub fn run_sheet(sheet: &[u8]) -> std::string::String {
    run_sheet_into(sheet, &mut [0; TEXT_LENGTH]).into()
}
