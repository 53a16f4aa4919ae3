//! A stack of our own, full of paint: how much of it a job uses, and what it
//! leaves there.

/// What fills the stack before a job: two words that are no codepoints.
pub const PAINT: u64 = 0x5041_494E_5441_4C4C;

/// 2 MB.
const PAINTED: usize = 1 << 18;

/// A stack after a job, from its lowest address up.
pub struct Left {
    /// The bytes that were used: from the top down to the lowest word that is
    /// no longer paint. Words that a job only sets aside below it are not seen.
    /// The frames of the job itself and of the Rust wrapper are counted, some
    /// hundred bytes.
    pub used: usize,
    /// All words of 32 bits above that.
    pub words: Vec<u32>,
}

/// Runs a job on the painted stack.
pub fn run<F: FnMut()>(mut job: F) -> Left {
    extern "C" fn enter<F: FnMut()>(job: *mut F) {
        // SAFETY: it is the job below, which nothing else uses meanwhile.
        unsafe { (*job)() }
    }
    let call: extern "C" fn(*mut F) = enter::<F>;
    let mut area = vec![PAINT; PAINTED];
    let top = area.as_mut_ptr_range().end as usize & !15;
    // SAFETY: the area is ours and far larger than what a call uses, which is
    // seen below; its end is aligned as a stack has to be before a call;
    // `enter` does not unwind; and the old stack is back before anything else
    // uses it.
    unsafe {
        std::arch::asm!(
            "mov r12, rsp",
            "mov rsp, {top}",
            "call {call}",
            "mov rsp, r12",
            top = in(reg) top,
            call = in(reg) call,
            in("rdi") &mut job,
            out("r12") _,
            clobber_abi("C"),
        );
    }
    let deepest = area.iter().position(|&word| word != PAINT).expect("a job uses its stack");
    assert!(deepest > PAINTED / 2, "the area is too small");
    let words = area[deepest..].iter().flat_map(|&w| [w as u32, (w >> 32) as u32]).collect();
    Left { used: top - (area.as_ptr() as usize + 8 * deepest), words }
}

/// What of a text stands on a stack.
#[derive(Clone, Copy, Debug, Default, PartialEq, Eq)]
pub struct Traces {
    /// Words that are a codepoint of the text.
    pub words: usize,
    /// The longest stretch of the text that stands there in order, each
    /// codepoint in the word behind the last, or in the next but one, as the
    /// halves of words of 64 bits: 1 where no two neighbours do.
    pub in_order: usize,
}

/// Looks for this text. Low numbers stand on a stack as lengths and places, so
/// that a codepoint below 100 hex counts only beside a neighbour of its own. Two
/// equal words alone are one codepoint that was spilled twice.
pub fn traces(left: &Left, text: &[u32]) -> Traces {
    let mut places = std::collections::HashMap::<u32, Vec<usize>>::new();
    for (i, &c) in text.iter().enumerate() {
        places.entry(c).or_default().push(i);
    }
    let mut found = Traces::default();
    for (at, word) in left.words.iter().enumerate() {
        let Some(starts) = places.get(word) else { continue };
        found.words += usize::from(*word >= 0x100);
        for step in [1, 2] {
            for &start in starts {
                let row = left.words[at..].iter().step_by(step).zip(&text[start..]);
                let length = match row.take_while(|(w, c)| w == c).count() {
                    2 if text[start] == text[start + 1] => 1,
                    length => length,
                };
                if length > 1 || *word >= 0x100 {
                    found.in_order = found.in_order.max(length);
                }
            }
        }
    }
    found
}
