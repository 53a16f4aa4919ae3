//! The names of a table's groups. A table has numbers alone; `maketable` writes
//! the names that spec.json gives the groups beside it, one a line and in
//! order: full.groups beside full.tab.

use answers::Kind;
use std::path::Path;

/// The names, or none.
#[derive(Clone, Debug, Default, PartialEq, Eq)]
pub struct Names(Vec<String>);

impl Names {
    /// The names beside this table, if there are as many as it has groups.
    pub fn beside(path: &Path, table: &[u32]) -> Names {
        let text = std::fs::read_to_string(path.with_extension("groups")).unwrap_or_default();
        let names: Vec<String> = text.lines().map(str::to_string).collect();
        let groups = plain::parse(table).map_or(0, |t| t.groups.len());
        let safe = names.iter().all(|name| !name.contains(char::is_control));
        Names(if names.len() == groups && safe { names } else { Vec::new() })
    }

    /// The name of a group.
    pub fn of(&self, group: usize) -> Option<&str> {
        self.0.get(group).map(String::as_str)
    }

    /// The number of the Greek group, by its name; where no group has it, a
    /// number beyond every group.
    pub fn greek(&self) -> u32 {
        self.0.iter().position(|name| name == "Greek").map_or(u32::MAX, |number| number as u32)
    }

    /// A group in words: `Latin (group 0)`.
    pub fn group(&self, number: usize) -> String {
        self.kind(Kind::Group { number, restricted: false })
    }

    /// A kind in words: `Latin (group 0)`.
    pub fn kind(&self, kind: Kind) -> String {
        let Kind::Group { number, restricted } = kind else {
            return if kind == Kind::Emoji { "emoji" } else { "ASCII" }.into();
        };
        match (self.of(number), restricted) {
            (Some(name), false) => format!("{name} (group {number})"),
            (Some(name), true) => format!("{name} (group {number}, restricted)"),
            (None, false) => format!("group {number}"),
            (None, true) => format!("group {number} (restricted)"),
        }
    }
}

#[cfg(test)]
mod tests {
    use super::*;

    #[test]
    fn the_greek_group() {
        let names = |of: &[&str]| Names(of.iter().map(|name| name.to_string()).collect());
        assert_eq!(names(&["Latin", "Greek", "Greek"]).greek(), 1);
        assert_eq!(names(&["Greek"]).greek(), 0);
        assert_eq!(names(&["Latin", "greek", "Greek (old)"]).greek(), u32::MAX);
        assert_eq!(Names::default().greek(), u32::MAX);
        let full = crate::in_repository("data/full.tab");
        let mut words = vec![0; plain::limits::TABLE_WORDS];
        let count = plain::unpack(&std::fs::read(&full).expect("a table"), &mut words).expect("it unpacks");
        let names = Names::beside(&full, &words[..count]);
        assert_eq!(names.of(names.greek() as usize), Some("Greek"));
        assert_eq!(Names::beside(&full, &words[..count - 1]).greek(), u32::MAX, "no table, and no names");
    }
}
