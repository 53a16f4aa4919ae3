//! The payee book: a type that borrows the area in which payees are kept.

use crate::{unless, Refusal};

/// Words of the area: 16 front words, which no call changes, then 64 slots of
/// 264 words.
pub const AREA: usize = 16_912;

/// What is filed under a normal form.
#[repr(C)]
#[derive(Clone, Copy, Debug, Default, PartialEq, Eq)]
pub struct Account {
    pub words: [u32; 8],
}

/// What save, forget and reset answer. `number` is 0, or the number of the
/// refusal; `place` is that of a refusal of the name call, else 0.
#[repr(C)]
#[derive(Clone, Copy, Debug, PartialEq, Eq)]
pub struct Told {
    pub number: u32,
    pub place: usize,
}

/// What find answers; the account is zeros beside a refusal.
#[repr(C)]
#[derive(Clone, Copy, Debug, PartialEq, Eq)]
pub struct Found {
    pub number: u32,
    pub place: usize,
    pub account: Account,
}

impl Told {
    /// Nothing, or the refusal.
    pub fn answer(self) -> Result<(), Refusal> {
        unless(self.number, self.place, ())
    }
}

impl Found {
    /// The account, or the refusal.
    pub fn answer(self) -> Result<Account, Refusal> {
        unless(self.number, self.place, self.account)
    }
}

extern "C" {
    fn wanlopheng_save(
        name: *const u32,
        name_length: usize,
        words: *const u32,
        words_length: usize,
        setting: u32,
        account: Account,
        area: *mut u32,
        area_length: usize,
        answer: *mut u32,
        answer_length: usize,
        work: *mut u32,
        work_length: usize,
    ) -> Told;
    fn wanlopheng_find(
        name: *const u32,
        name_length: usize,
        words: *const u32,
        words_length: usize,
        setting: u32,
        area: *const u32,
        area_length: usize,
        answer: *mut u32,
        answer_length: usize,
        work: *mut u32,
        work_length: usize,
    ) -> Found;
    fn wanlopheng_forget(
        name: *const u32,
        name_length: usize,
        words: *const u32,
        words_length: usize,
        setting: u32,
        area: *mut u32,
        area_length: usize,
        answer: *mut u32,
        answer_length: usize,
        work: *mut u32,
        work_length: usize,
    ) -> Told;
    fn wanlopheng_reset(
        area: *mut u32,
        area_length: usize,
        answer: *mut u32,
        answer_length: usize,
        work: *mut u32,
        work_length: usize,
    ) -> Told;
}

/// How a name is read: the table, the setting (0 off, else labels of restricted
/// groups are refused as 17), and the buffers that the calls are lent, which
/// are zeros after each. The answer buffer needs room for the normal form, the
/// work area 8,192 words.
pub struct Desk<'a> {
    pub table: &'a [u32],
    pub setting: u32,
    pub answer: &'a mut [u32],
    pub work: &'a mut [u32],
}

/// A book in a borrowed area. A zeroed area is an empty book; one of another
/// size is refused as 40, a damaged one as 41.
pub struct Book<'a> {
    area: &'a mut [u32],
}

impl<'a> Book<'a> {
    /// The book that this area holds.
    pub fn new(area: &'a mut [u32]) -> Book<'a> {
        Book { area }
    }

    /// Files an account under a name, any spelling of it: a filed name's account
    /// is replaced, another name takes the lowest free slot.
    pub fn save(&mut self, name: &[u32], account: Account, desk: &mut Desk) -> Told {
        // SAFETY: the five slices are lent for the call, each with its own length.
        unsafe {
            wanlopheng_save(
                name.as_ptr(),
                name.len(),
                desk.table.as_ptr(),
                desk.table.len(),
                desk.setting,
                account,
                self.area.as_mut_ptr(),
                self.area.len(),
                desk.answer.as_mut_ptr(),
                desk.answer.len(),
                desk.work.as_mut_ptr(),
                desk.work.len(),
            )
        }
    }

    /// The account that is filed under a name.
    pub fn find(&self, name: &[u32], desk: &mut Desk) -> Found {
        // SAFETY: the five slices are lent for the call, each with its own length.
        unsafe {
            wanlopheng_find(
                name.as_ptr(),
                name.len(),
                desk.table.as_ptr(),
                desk.table.len(),
                desk.setting,
                self.area.as_ptr(),
                self.area.len(),
                desk.answer.as_mut_ptr(),
                desk.answer.len(),
                desk.work.as_mut_ptr(),
                desk.work.len(),
            )
        }
    }

    /// Clears the slot of a name, which is free again.
    pub fn forget(&mut self, name: &[u32], desk: &mut Desk) -> Told {
        // SAFETY: the five slices are lent for the call, each with its own length.
        unsafe {
            wanlopheng_forget(
                name.as_ptr(),
                name.len(),
                desk.table.as_ptr(),
                desk.table.len(),
                desk.setting,
                self.area.as_mut_ptr(),
                self.area.len(),
                desk.answer.as_mut_ptr(),
                desk.answer.len(),
                desk.work.as_mut_ptr(),
                desk.work.len(),
            )
        }
    }

    /// Clears every slot, of a damaged book too, and both buffers. The front
    /// words stay.
    pub fn reset(&mut self, answer: &mut [u32], work: &mut [u32]) -> Told {
        // SAFETY: the three slices are lent for the call, each with its own length.
        unsafe {
            wanlopheng_reset(
                self.area.as_mut_ptr(),
                self.area.len(),
                answer.as_mut_ptr(),
                answer.len(),
                work.as_mut_ptr(),
                work.len(),
            )
        }
    }
}
