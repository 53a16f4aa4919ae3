//! The name call and the label call: refusals in their order, and every word
//! of both buffers.

use crate::label::{judge, LabelFault, LabelForm};
use crate::lookup::Lookup;
use crate::pass::Pass;
use crate::table::{parse, Table};
use crate::{is_scalar, limits, STOP};
use answers::{Kind, Label, Name, Refusal};

fn refuse<T>(number: u32, place: usize) -> Result<T, Refusal> {
    Err(Refusal::new(number, place))
}

/// 3 and 4, which look at the input alone.
fn check_input(input: &[u32]) -> Result<(), Refusal> {
    if input.len() > limits::INPUT {
        return refuse(3, 0);
    }
    match input.iter().position(|&c| !is_scalar(c)) {
        Some(index) => refuse(4, index),
        None => Ok(()),
    }
}

/// 1 and 2, in that order.
pub fn check_room<'t>(table: &'t [u32], work: &[u32]) -> Result<Table<'t>, Refusal> {
    let Some(table) = parse(table) else {
        return refuse(1, 0);
    };
    check_work(work)?;
    Ok(table)
}

/// The same with what one pass finds; rules 6 to 8 are looked for where the
/// input has `QUICK_FROM` codepoints: a shorter one would pay more for that than
/// it saves, and one over the worked limit would be scanned twice.
pub fn check_room_by_pass<'t>(table: &'t [u32], work: &[u32], input: &[u32]) -> Result<Pass<'t>, Refusal> {
    let Some(mut pass) = Pass::read(table) else {
        return refuse(1, 0);
    };
    check_work(work)?;
    if (QUICK_FROM..=limits::WORKED).contains(&input.len()) {
        pass.look_for_rules();
    }
    Ok(pass)
}

/// The shortest input for which rules 6 to 8 are looked for.
pub const QUICK_FROM: usize = 2048;

/// 2 alone.
pub fn check_work(work: &[u32]) -> Result<(), Refusal> {
    if work.len() < limits::WORK_WORDS {
        return refuse(2, 0);
    }
    Ok(())
}

/// 17, which follows 14 in each label: with a setting other than 0 a label of
/// a restricted group is refused.
fn check_setting(setting: u32, form: LabelForm, place: usize) -> Result<LabelForm, Refusal> {
    match form.kind {
        Kind::Group { restricted: true, .. } if setting != 0 => refuse(17, place),
        _ => Ok(form),
    }
}

/// A name over a table that is already read, with the setting 0.
pub fn judge_name(t: &impl Lookup, name: &[u32]) -> Result<Vec<LabelForm>, Refusal> {
    judge_name_with(t, 0, name)
}

/// A name over a table that is already read: its labels in order, or the
/// first of 3 to 14, 16 and 17 that applies.
pub fn judge_name_with(t: &impl Lookup, setting: u32, name: &[u32]) -> Result<Vec<LabelForm>, Refusal> {
    check_input(name)?;
    if name.is_empty() {
        return Ok(Vec::new()); // no labels
    }
    let mut labels = Vec::new();
    let mut worked = 0;
    let mut start = 0;
    for (number, label) in name.split(|&c| c == STOP).enumerate() {
        let before = if number == 0 { 0 } else { worked + 1 };
        let form = judge(t, label, before).map_err(|fault| match fault {
            LabelFault::Disallowed(index) => Refusal::new(5, start + index),
            LabelFault::Number(refusal) => Refusal::new(refusal, number),
        })?;
        let form = check_setting(setting, form, number)?;
        worked = before + form.worked;
        start += label.len() + 1;
        labels.push(form);
    }
    Ok(labels)
}

/// One label over a table that is already read, with the setting 0.
pub fn judge_label(t: &impl Lookup, label: &[u32]) -> Result<LabelForm, Refusal> {
    judge_label_with(t, 0, label)
}

/// One label over a table that is already read: its form, or the first of 3
/// to 14, 16 and 17 that applies. 01: "The label call gives 5 for a 2E, which no emoji
/// match covers there": the part before the first 2E is walked, and its
/// leftmost 5 is given, else 5 at that 2E.
pub fn judge_label_with(t: &impl Lookup, setting: u32, label: &[u32]) -> Result<LabelForm, Refusal> {
    check_input(label)?;
    if let Some(stop) = label.iter().position(|&c| c == STOP) {
        let place = crate::tokens(t, &label[..stop]).err().unwrap_or(stop);
        return refuse(5, place);
    }
    let form = judge(t, label, 0).map_err(|fault| match fault {
        LabelFault::Disallowed(index) => Refusal::new(5, index),
        LabelFault::Number(number) => Refusal::new(number, 0),
    })?;
    check_setting(setting, form, 0)
}

/// The labels' answers joined by 2E.
pub fn join_labels(labels: &[LabelForm]) -> Vec<u32> {
    let mut answer = Vec::new();
    for (number, form) in labels.iter().enumerate() {
        if number > 0 {
            answer.push(STOP);
        }
        answer.extend(&form.answer);
    }
    answer
}

/// Sets every word of both buffers, once the labels are judged: the answer
/// that is due and then zeros, or zeros alone after a refusal, 15 the last of
/// them; and zeros. Answers the length and the other value.
pub fn settle<T>(
    judged: Result<(Vec<u32>, T), Refusal>,
    answer: &mut [u32],
    work: &mut [u32],
) -> Result<(usize, T), Refusal> {
    answer.fill(0);
    work.fill(0);
    let (due, value) = judged?;
    let Some(room) = answer.get_mut(..due.len()) else {
        return refuse(15, 0);
    };
    room.copy_from_slice(&due);
    Ok((due.len(), value))
}

/// The name call over a table that is already read, or with a refusal before
/// that.
pub fn name_by<L: Lookup>(
    table: Result<&L, Refusal>,
    setting: u32,
    name: &[u32],
    answer: &mut [u32],
    work: &mut [u32],
) -> Result<Name, Refusal> {
    let labels = table.and_then(|t| judge_name_with(t, setting, name));
    let judged = labels.map(|labels| (join_labels(&labels), labels.len()));
    settle(judged, answer, work).map(|(length, labels)| Name { length, labels })
}

/// The label call, likewise.
pub fn label_by<L: Lookup>(
    table: Result<&L, Refusal>,
    setting: u32,
    label: &[u32],
    answer: &mut [u32],
    work: &mut [u32],
) -> Result<Label, Refusal> {
    let judged = table.and_then(|t| judge_label_with(t, setting, label)).map(|form| (form.answer, form.kind));
    settle(judged, answer, work).map(|(length, kind)| Label { length, kind })
}

/// The name call with a setting.
pub fn name_with(
    name: &[u32],
    table: &[u32],
    setting: u32,
    answer: &mut [u32],
    work: &mut [u32],
) -> Result<Name, Refusal> {
    let pass = check_room_by_pass(table, work, name);
    name_by(pass.as_ref().map_err(|r| *r), setting, name, answer, work)
}

/// The label call with a setting.
pub fn label_with(
    label: &[u32],
    table: &[u32],
    setting: u32,
    answer: &mut [u32],
    work: &mut [u32],
) -> Result<Label, Refusal> {
    let pass = check_room_by_pass(table, work, label);
    label_by(pass.as_ref().map_err(|r| *r), setting, label, answer, work)
}

/// The name call with the setting 0.
pub fn name(name: &[u32], table: &[u32], answer: &mut [u32], work: &mut [u32]) -> Result<Name, Refusal> {
    name_with(name, table, 0, answer, work)
}

/// The label call with the setting 0.
pub fn label(label: &[u32], table: &[u32], answer: &mut [u32], work: &mut [u32]) -> Result<Label, Refusal> {
    label_with(label, table, 0, answer, work)
}
