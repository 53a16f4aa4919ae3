//! What the calls answer for one name.

use crate::calls::{Calls, Lent};
use crate::options::Input;
use answers::{Kind, Refusal};
use plain::{limits, STOP};

/// A table and what the calls are told.
pub struct Desk<'a, C> {
    pub calls: &'a C,
    pub table: &'a [u32],
    pub setting: u32,
    /// The number of the Greek group, for the screen form.
    pub greek: u32,
    pub trim: bool,
    /// The name hash is asked for too.
    pub hash: bool,
    /// The report of the tokens is asked for too.
    pub report: bool,
}

/// A label of an accepted name.
#[derive(Clone, Debug, PartialEq, Eq)]
pub struct Part {
    pub form: Vec<u32>,
    pub kind: Kind,
}

/// What is answered for a name.
#[derive(Clone, Debug, PartialEq, Eq)]
pub struct Judged {
    /// The codepoints that were judged, without what was trimmed; `None` where
    /// the bytes are no UTF-8.
    pub codepoints: Option<Vec<u32>>,
    /// How many blanks were taken off, at the front and at the back.
    pub blanks: (usize, usize),
    /// The normal form and its labels, or the refusal.
    pub found: Result<(Vec<u32>, Vec<Part>), Refusal>,
    /// The screen form of an accepted name.
    pub screen: Option<Vec<u32>>,
    /// The name hash of an accepted name, or its own refusal, where it is asked for.
    pub hash: Option<Result<[u8; 32], Refusal>>,
    /// Behind a 14, the groups in which the label could be respelled.
    pub respelled: Vec<usize>,
    /// The report of an accepted name, line by line, where it is asked for.
    pub report: Option<Vec<String>>,
}

impl<C: Calls> Desk<'_, C> {
    /// Judges a name. Bytes go to the byte form of the name call; where blanks
    /// are to be taken off, to the reader, and what is left to the name call.
    pub fn judge(&self, input: &Input) -> Judged {
        match input {
            Input::Text(bytes) => match self.read(bytes) {
                Ok(codepoints) => self.judge_codepoints(&codepoints, (!self.trim).then_some(bytes)),
                Err(refusal) => Judged {
                    codepoints: None,
                    blanks: (0, 0),
                    found: Err(refusal),
                    screen: None,
                    hash: None,
                    respelled: vec![],
                    report: None,
                },
            },
            Input::Numbers(codepoints) => self.judge_codepoints(codepoints, None),
        }
    }

    fn read(&self, bytes: &[u8]) -> Result<Vec<u32>, Refusal> {
        let mut codepoints = vec![0; bytes.len()];
        let length = self.calls.read(bytes, &mut codepoints)?;
        codepoints.truncate(length);
        Ok(codepoints)
    }

    /// Judges codepoints, by their bytes where these are given.
    fn judge_codepoints(&self, codepoints: &[u32], bytes: Option<&Vec<u8>>) -> Judged {
        let left = if self.trim { self.calls.trim(codepoints) } else { codepoints };
        let front = codepoints.len() - codepoints.iter().skip_while(|c| self.trim && plain::BLANKS.contains(c)).count();
        let found = self.form(left, bytes).map(|form| (form, self.parts(left)));
        let screen = found.is_ok().then(|| self.shown(left));
        let hash = (self.hash && found.is_ok()).then(|| self.hashed(left));
        let respelled = match found {
            Err(Refusal { number: 14, place }) => self.respelled(left, place),
            _ => Vec::new(),
        };
        let report = (self.report && found.is_ok()).then(|| self.reported(left));
        let blanks = (front, codepoints.len() - front - left.len());
        Judged { codepoints: Some(left.to_vec()), blanks, found, screen, hash, respelled, report }
    }

    /// The groups in which the label with this number could be respelled.
    fn respelled(&self, codepoints: &[u32], place: usize) -> Vec<usize> {
        let label = codepoints.split(|&c| c == STOP).nth(place).expect("the label of a 14");
        let (mut list, mut work) = ([0; limits::GROUPS], vec![0; limits::WORK_WORDS]);
        let count = self.calls.respelled(label, self.table, &mut list, &mut work).expect("a label that reaches 14");
        list[..count].iter().map(|&group| group as usize).collect()
    }

    fn form(&self, codepoints: &[u32], bytes: Option<&Vec<u8>>) -> Result<Vec<u32>, Refusal> {
        self.with_buffers(|lent| match bytes {
            Some(bytes) => self.calls.name_bytes(bytes, lent).map(|name| name.length),
            None => self.calls.name(codepoints, lent).map(|name| name.length),
        })
        .map(|(_, form)| form)
    }

    /// The screen form of an accepted name: the call accepts it, and there is
    /// room, by a table that is not sound too.
    fn shown(&self, codepoints: &[u32]) -> Vec<u32> {
        let room = limits::SEQUENCE * codepoints.len() + limits::WORKED;
        let call = |lent: Lent| self.calls.screen(codepoints, self.greek, lent).map(|name| name.length);
        self.with_room(room, call).expect("it was accepted").1
    }

    fn hashed(&self, codepoints: &[u32]) -> Result<[u8; 32], Refusal> {
        let mut node = [0; 32];
        let call = |lent: Lent| {
            node = self.calls.namehash(codepoints, lent)?;
            Ok(0)
        };
        self.with_buffers(call).map(|_| node)
    }

    /// The report of an accepted name: the call accepts it, and there is room.
    fn reported(&self, codepoints: &[u32]) -> Vec<String> {
        let mut out = vec![0; limits::REPORT];
        let (length, _) =
            self.with_buffers(|lent| self.calls.report(codepoints, &mut out, lent)).expect("it was accepted");
        String::from_utf8_lossy(&out[..length]).lines().map(String::from).collect()
    }

    /// The labels of an accepted name: the label call accepts each of them.
    fn parts(&self, codepoints: &[u32]) -> Vec<Part> {
        let labels = codepoints.split(|&c| c == STOP).filter(|_| !codepoints.is_empty());
        let part = |label| {
            let mut kind = Kind::Ascii;
            let call = |lent: Lent| {
                let answer = self.calls.label(label, lent)?;
                kind = answer.kind;
                Ok(answer.length)
            };
            let (_, form) = self.with_buffers(call).expect("a label of an accepted name is accepted");
            Part { form, kind }
        };
        labels.map(part).collect()
    }

    /// Lends a call buffers of the sizes that hold every name: the length, and
    /// the answer.
    fn with_buffers(&self, call: impl FnOnce(Lent) -> Result<usize, Refusal>) -> Result<(usize, Vec<u32>), Refusal> {
        self.with_room(limits::WORKED, call)
    }

    /// The same with an answer buffer of so many words.
    fn with_room(
        &self,
        room: usize,
        call: impl FnOnce(Lent) -> Result<usize, Refusal>,
    ) -> Result<(usize, Vec<u32>), Refusal> {
        let (mut answer, mut work) = (vec![0; room], vec![0; limits::WORK_WORDS]);
        let lent = Lent { table: self.table, setting: self.setting, answer: &mut answer, work: &mut work };
        let length = call(lent)?;
        answer.truncate(length);
        Ok((length, answer))
    }
}
