//! The slow ways: the calls with every lookup from the front of its section, as
//! 01 reads. They are kept beside the fast ones, to be asked too.

use crate::calls::{check_room, label_by, name_by, settle};
use crate::screen::screen_by;
use answers::{Label, Name, Refusal};

/// The name call with the setting 0.
pub fn name(name: &[u32], table: &[u32], answer: &mut [u32], work: &mut [u32]) -> Result<Name, Refusal> {
    let table = check_room(table, work);
    name_by(table.as_ref().map_err(|r| *r), 0, name, answer, work)
}

/// The label call with the setting 0.
pub fn label(label: &[u32], table: &[u32], answer: &mut [u32], work: &mut [u32]) -> Result<Label, Refusal> {
    let table = check_room(table, work);
    label_by(table.as_ref().map_err(|r| *r), 0, label, answer, work)
}

/// The screen form.
pub fn screen(
    name: &[u32],
    table: &[u32],
    greek: u32,
    setting: u32,
    answer: &mut [u32],
    work: &mut [u32],
) -> Result<Name, Refusal> {
    let judged = check_room(table, work).and_then(|t| screen_by(&t, greek, setting, name));
    settle(judged, answer, work).map(|(length, labels)| Name { length, labels })
}
