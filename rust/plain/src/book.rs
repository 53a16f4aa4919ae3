//! The payee book, written from the second document's Item 7 alone: the calls
//! on the words of the area, with no map beside them.

use crate::name_with;
use answers::Refusal;

/// Words before the slots, which no call changes.
pub const FRONT: usize = 16;
/// The number of slots.
pub const SLOTS: usize = 64;
/// Words of a normal form.
pub const FORM: usize = 255;
/// Words of an account.
pub const ACCOUNT: usize = 8;
/// Words of a slot: a length, a form, an account.
pub const SLOT: usize = 1 + FORM + ACCOUNT;
/// Words of the area.
pub const AREA: usize = FRONT + SLOTS * SLOT;

/// What is filed under a form.
pub type Account = [u32; ACCOUNT];

/// What a call that takes a name is lent besides the area.
pub struct Lent<'a> {
    pub name: &'a [u32],
    pub table: &'a [u32],
    pub setting: u32,
    pub answer: &'a mut [u32],
    pub work: &'a mut [u32],
}

fn refuse<T>(number: u32) -> Result<T, Refusal> {
    Err(Refusal::new(number, 0))
}

/// The words of slot `i`.
pub fn slot(area: &[u32], i: usize) -> &[u32] {
    &area[FRONT + i * SLOT..][..SLOT]
}

fn slot_mut(area: &mut [u32], i: usize) -> &mut [u32] {
    &mut area[FRONT + i * SLOT..][..SLOT]
}

/// The name under which an undamaged slot is filed, `None` where it is free.
pub fn filed(slot: &[u32]) -> Option<&[u32]> {
    match slot[0] as usize {
        0 => None,
        length => Some(&slot[1..=length]),
    }
}

/// "a length over 255, words past a length not zero, an account in a slot of
/// length 0"
fn slot_damaged(slot: &[u32]) -> bool {
    let length = slot[0] as usize;
    length > FORM
        || slot[1 + length..=FORM].iter().any(|&w| w != 0)
        || length == 0 && slot[1 + FORM..].iter().any(|&w| w != 0)
}

/// 41: one of these, "or two filed slots with one name".
pub fn damaged(area: &[u32]) -> bool {
    if (0..SLOTS).any(|i| slot_damaged(slot(area, i))) {
        return true;
    }
    let names: Vec<&[u32]> = (0..SLOTS).filter_map(|i| filed(slot(area, i))).collect();
    (0..names.len()).any(|i| names[i + 1..].contains(&names[i]))
}

/// 40 to 43 and the refusals of the name call: the form under which the name
/// is filed. Both buffers are zeros afterwards.
fn form_of(area: &[u32], lent: &mut Lent) -> Result<Vec<u32>, Refusal> {
    let form = if area.len() != AREA {
        refuse(40)
    } else if damaged(area) {
        refuse(41)
    } else {
        name_with(lent.name, lent.table, lent.setting, lent.answer, lent.work)
            .map(|accepted| lent.answer[..accepted.length].to_vec())
    };
    lent.answer.fill(0);
    lent.work.fill(0);
    match form?.as_slice() {
        [] => refuse(42),
        long if long.len() > FORM => refuse(43),
        form => Ok(form.to_vec()),
    }
}

/// The slot that is filed under this form.
fn place(area: &[u32], form: &[u32]) -> Option<usize> {
    (0..SLOTS).find(|&i| filed(slot(area, i)) == Some(form))
}

/// "Save of a filed name replaces its account, otherwise takes the lowest free
/// slot"
pub fn save(area: &mut [u32], lent: &mut Lent, account: Account) -> Result<(), Refusal> {
    let form = form_of(area, lent)?;
    let free = || (0..SLOTS).find(|&i| filed(slot(area, i)).is_none());
    let Some(at) = place(area, &form).or_else(free) else {
        return refuse(45);
    };
    let slot = slot_mut(area, at);
    slot.fill(0);
    slot[0] = form.len() as u32;
    slot[1..=form.len()].copy_from_slice(&form);
    slot[1 + FORM..].copy_from_slice(&account);
    Ok(())
}

/// "find answers the 8 account words"
pub fn find(area: &[u32], lent: &mut Lent) -> Result<Account, Refusal> {
    let form = form_of(area, lent)?;
    match place(area, &form) {
        Some(at) => Ok(slot(area, at)[1 + FORM..].try_into().expect("eight words")),
        None => refuse(44),
    }
}

/// "a forgotten slot, which is zeroed, is free again"
pub fn forget(area: &mut [u32], lent: &mut Lent) -> Result<(), Refusal> {
    let form = form_of(area, lent)?;
    match place(area, &form) {
        Some(at) => slot_mut(area, at).fill(0),
        None => return refuse(44),
    }
    Ok(())
}

/// "Reset gives only 40."
pub fn reset(area: &mut [u32], answer: &mut [u32], work: &mut [u32]) -> Result<(), Refusal> {
    answer.fill(0);
    work.fill(0);
    if area.len() != AREA {
        return refuse(40);
    }
    area[FRONT..].fill(0);
    Ok(())
}
