//! Smaller tables: a choice of groups, characters, mappings and emoji, and all
//! that follows from it, so that a cut of sound files is sound.

use crate::{full_decomposition, valid, Nf, Spec, Whole};
use std::collections::BTreeSet;

/// Codepoint ranges, both ends included.
type Ranges = Vec<(u32, u32)>;

/// What to keep. The default keeps everything.
#[derive(Clone, Debug, Default, PartialEq, Eq)]
pub struct Reduction {
    /// Names of the groups to keep, in any order.
    pub groups: Option<Vec<String>>,
    pub emoji: Option<Vec<Emoji>>,
    /// Characters taken out of every group.
    pub drop: Ranges,
    /// Heads of mappings taken out.
    pub unmap: Ranges,
}

/// A choice of emoji sequences.
#[derive(Clone, Debug, PartialEq, Eq)]
pub enum Emoji {
    /// The first so many.
    First(usize),
    /// Single-codepoint emoji and keycaps that start in a range.
    Range(u32, u32),
    /// The sequence that is this one when stripped of FE0F.
    Sequence(Vec<u32>),
}

fn holds(ranges: &[(u32, u32)], c: u32) -> bool {
    ranges.iter().any(|&(first, last)| first <= c && c <= last)
}

fn stripped(sequence: &[u32]) -> Vec<u32> {
    sequence.iter().copied().filter(|&c| c != plain::FE0F).collect()
}

fn hex(text: &str) -> Result<u32, String> {
    u32::from_str_radix(text, 16).map_err(|_| format!("{text} is no hex number"))
}

fn range(text: &str) -> Result<(u32, u32), String> {
    let (first, last) = text.split_once("..").unwrap_or((text, text));
    let (first, last) = (hex(first)?, hex(last)?);
    if first > last {
        return Err(format!("{text}: the first is over the last"));
    }
    Ok((first, last))
}

fn emoji(text: &str) -> Result<Emoji, String> {
    if text.contains("..") {
        range(text).map(|(first, last)| Emoji::Range(first, last))
    } else {
        text.split('-').map(hex).collect::<Result<Vec<u32>, String>>().map(Emoji::Sequence)
    }
}

impl Reduction {
    /// Reads options: `--groups Latin,Greek`, `--emoji 300` (the first 300) or
    /// `--emoji 1F600..1F64F,1F468-200D-1F4BB`, `--drop 2190..21FF,2300`,
    /// `--unmap 1D400..1D7FF`. Each may be given more than once.
    pub fn from_options(options: &[String]) -> Result<Reduction, String> {
        let mut r = Reduction::default();
        let mut options = options.iter();
        while let Some(option) = options.next() {
            let value = options.next().ok_or_else(|| format!("{option} needs a value"))?;
            r.choose(option, value).map_err(|fault| format!("{option}: {fault}"))?;
        }
        Ok(r)
    }

    /// One option and its value.
    fn choose(&mut self, option: &str, value: &str) -> Result<(), String> {
        let parts = value.split(',');
        match option {
            "--groups" => self.groups.get_or_insert_with(Vec::new).extend(parts.map(str::to_string)),
            "--emoji" => {
                let chosen = match value.parse() {
                    Ok(count) => vec![Emoji::First(count)],
                    Err(_) => parts.map(emoji).collect::<Result<_, _>>()?,
                };
                self.emoji.get_or_insert_with(Vec::new).extend(chosen);
            }
            "--drop" => self.drop.extend(parts.map(range).collect::<Result<Ranges, _>>()?),
            "--unmap" => self.unmap.extend(parts.map(range).collect::<Result<Ranges, _>>()?),
            _ => return Err("no such option; --help lists them".into()),
        }
        Ok(())
    }

    /// Cuts both files.
    pub fn apply(&self, spec: &Spec, nf: &Nf) -> Result<(Spec, Nf), String> {
        if *self == Reduction::default() {
            return Ok((spec.clone(), nf.clone()));
        }
        let mut out = spec.clone();
        if let Some(names) = &self.groups {
            if let Some(unknown) = names.iter().find(|n| spec.group_number(n).is_none()) {
                return Err(format!("no group {unknown}"));
            }
            out.groups.retain(|g| names.contains(&g.name));
        }
        for group in &mut out.groups {
            group.characters.retain(|&c| !holds(&self.drop, c));
            // No text of the group has the others; a list of none still refuses all marks.
            let kept: BTreeSet<u32> = group.characters.iter().copied().collect();
            group.list.iter_mut().for_each(|list| list.retain(|s| s.iter().all(|c| kept.contains(c))));
        }

        // Valid follows from the groups; every character of a text is valid, so
        // classes, marks and the like of others have no use.
        let keep: BTreeSet<u32> = valid(&out, nf);
        let in_groups: BTreeSet<u32> = out.groups.iter().flat_map(|g| g.characters.iter().copied()).collect();
        out.mapped.retain(|(head, items)| !holds(&self.unmap, *head) && items.iter().all(|c| keep.contains(c)));
        out.fenced.retain(|c| keep.contains(c));
        out.cm.retain(|c| keep.contains(c));
        out.nsm.retain(|c| keep.contains(c));
        if let Some(chosen) = &self.emoji {
            for choice in chosen {
                if let Emoji::Sequence(wanted) = choice {
                    if !spec.emoji.iter().any(|s| stripped(s) == stripped(wanted)) {
                        return Err(format!("no emoji {wanted:X?}"));
                    }
                }
            }
            let mut number = 0;
            out.emoji.retain(|sequence| {
                number += 1;
                let s = stripped(sequence);
                chosen.iter().any(|choice| match choice {
                    Emoji::First(count) => number <= *count,
                    Emoji::Range(first, last) => {
                        (*first..=*last).contains(&s[0]) && (s.len() == 1 || s.last() == Some(&0x20E3))
                    }
                    Emoji::Sequence(wanted) => s == stripped(wanted),
                })
            });
        }

        // What is shown of a name is valid or of an emoji.
        out.escape.retain(|c| keep.contains(c) || out.emoji.iter().any(|s| s.contains(c)));

        // Wholes keep the members that are left, where they still say something.
        let shares = |a: u32, b: u32| out.groups.iter().any(|g| g.characters.contains(&a) && g.characters.contains(&b));
        let wholes = spec.wholes.iter().map(|w| Whole {
            valid: w.valid.iter().copied().filter(|c| in_groups.contains(c)).collect(),
            confused: w.confused.iter().copied().filter(|c| in_groups.contains(c)).collect(),
        });
        let wholes = wholes.filter(|w| {
            let members = || w.valid.iter().chain(&w.confused);
            w.confused.iter().any(|&c| members().any(|&m| m != c && !shares(c, m)))
        });
        let wholes: Vec<Whole> = wholes.collect();
        out.wholes = wholes;

        // Decompositions that a text can need: of what is valid, and pairs of what
        // is valid, excluded ones with their exclusion.
        let by_head = nf.by_head();
        let mut small = nf.clone();
        small.decomp.retain(|(head, items)| {
            let used = keep.contains(head) || items.len() == 2;
            used && full_decomposition(&by_head, *head).iter().all(|c| keep.contains(c))
        });
        let heads: BTreeSet<u32> = small.decomp.iter().map(|(head, _)| *head).collect();
        small.exclusions.retain(|c| heads.contains(c));
        // A head that is not valid keeps its class: a composition pair asks for it.
        for rank in &mut small.ranks {
            rank.retain(|c| keep.contains(c) || heads.contains(c));
        }
        // Of the quick-check set what rule 8 can ask for: heads, second items, and V and T jamo.
        let seconds: BTreeSet<u32> =
            small.decomp.iter().filter(|(_, items)| items.len() == 2).map(|(_, items)| items[1]).collect();
        let jamo = |c: u32| (0x1161..=0x1175).contains(&c) || (0x11A8..=0x11C2).contains(&c);
        small.qc.retain(|c| heads.contains(c) || seconds.contains(c) || jamo(*c));
        Ok((out, small))
    }
}

#[cfg(test)]
mod tests {
    use super::*;

    fn options(text: &str) -> Result<Reduction, String> {
        Reduction::from_options(&text.split(' ').map(str::to_string).collect::<Vec<_>>())
    }

    #[test]
    fn reads_options() {
        let r = options("--groups Latin,Greek --emoji 30..39,1F468-200D-1F4BB --drop 2190..21FF,2300").unwrap();
        assert_eq!(r.groups, Some(vec!["Latin".to_string(), "Greek".to_string()]));
        assert_eq!(r.emoji, Some(vec![Emoji::Range(0x30, 0x39), Emoji::Sequence(vec![0x1F468, 0x200D, 0x1F4BB])]));
        assert_eq!(r.drop, [(0x2190, 0x21FF), (0x2300, 0x2300)]);
        assert_eq!(options("--emoji 300").unwrap().emoji, Some(vec![Emoji::First(300)]));
        assert!(options("--emoji").is_err());
        assert!(options("--drop 12x").is_err());
        assert!(options("--other 1").unwrap_err().contains("--other: no such option"));
        for option in ["--drop", "--unmap", "--emoji"] {
            let fault = options(&format!("{option} 41..5A,7A..61")).unwrap_err();
            assert_eq!(fault, format!("{option}: 7A..61: the first is over the last"));
        }
    }
}
