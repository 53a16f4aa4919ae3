//! The published shapes of `spec.json` and `nf.json`.

use crate::json::{self, Value};
use plain::limits::{LEAST_RUN, MOST_RUN, SEQUENCES};
use std::collections::HashMap;

#[derive(Clone, Debug, PartialEq, Eq)]
pub struct Group {
    pub name: String,
    pub restricted: bool,
    pub whitelisted: bool,
    /// Primary and secondary.
    pub characters: Vec<u32>,
    /// The compound sequences, where there are some.
    pub list: Option<Vec<Vec<u32>>>,
}

impl Group {
    /// 1 is restricted, 2 is CM whitelisted, 4 has a list.
    pub fn flags(&self) -> u32 {
        u32::from(self.restricted) + 2 * u32::from(self.whitelisted) + 4 * u32::from(self.list.is_some())
    }
}

#[derive(Clone, Debug, PartialEq, Eq)]
pub struct Whole {
    pub valid: Vec<u32>,
    pub confused: Vec<u32>,
}

/// What a table needs of `spec.json`. Its valid characters follow from the
/// groups; `nfc_check` has no part in a table: it is a subset of the quick-check
/// set of `nf.json`, and too small for rule 8.
#[derive(Clone, Debug, PartialEq, Eq)]
pub struct Spec {
    /// The version of Unicode, where the file names it.
    pub unicode: Option<String>,
    pub emoji: Vec<Vec<u32>>,
    pub mapped: Vec<(u32, Vec<u32>)>,
    pub ignored: Vec<u32>,
    pub fenced: Vec<u32>,
    pub groups: Vec<Group>,
    pub wholes: Vec<Whole>,
    pub cm: Vec<u32>,
    pub nsm: Vec<u32>,
    pub escape: Vec<u32>,
}

#[derive(Clone, Debug, PartialEq, Eq)]
pub struct Nf {
    pub exclusions: Vec<u32>,
    pub decomp: Vec<(u32, Vec<u32>)>,
    /// By combining class, ascending; class 0 is not among them.
    pub ranks: Vec<Vec<u32>>,
    /// The quick-check set: NFC_QC is No or Maybe.
    pub qc: Vec<u32>,
}

/// A file's value, which has to be a map.
fn top(text: &str) -> Result<Value, String> {
    match json::read(text)? {
        Value::List(_) => Err("line 1: a map is expected, and this is a list".into()),
        v @ Value::Map(_) => Ok(v),
        _ => Err("line 1: a map is expected".into()),
    }
}

fn key<'v>(v: &'v Value, name: &str) -> Result<&'v Value, String> {
    v.get(name).ok_or_else(|| format!("{name} is missing"))
}

fn list<'v>(v: &'v Value, what: &str) -> Result<&'v [Value], String> {
    v.list().ok_or_else(|| format!("{what}: a list is expected"))
}

fn number(v: &Value, what: &str) -> Result<u32, String> {
    v.number().ok_or_else(|| format!("{what}: a codepoint is expected"))
}

fn codepoints(v: &Value, what: &str) -> Result<Vec<u32>, String> {
    list(v, what)?.iter().map(|c| number(c, what)).collect()
}

fn rows<T>(v: &Value, what: &str, row: impl Fn(&Value) -> Result<T, String>) -> Result<Vec<T>, String> {
    let place = |i: usize, fault: String| format!("{what}, row {i}: {fault}");
    list(v, what)?.iter().enumerate().map(|(i, r)| row(r).map_err(|fault| place(i, fault))).collect()
}

/// A row [head, [items]], with at least one and at most `most` items.
fn record(v: &Value, most: usize) -> Result<(u32, Vec<u32>), String> {
    let [head, items] = list(v, "record")? else {
        return Err("head and items are expected".into());
    };
    let (head, items) = (number(head, "head")?, codepoints(items, "items")?);
    if items.is_empty() || items.len() > most {
        return Err(format!("{head:X} has {} items; a table takes 1 to {most}", items.len()));
    }
    Ok((head, items))
}

/// No head stands twice: the second mapping would never be used.
fn heads_once(records: Vec<(u32, Vec<u32>)>, what: &str) -> Result<Vec<(u32, Vec<u32>)>, String> {
    let mut rows = HashMap::new();
    for (row, (head, _)) in records.iter().enumerate() {
        if let Some(first) = rows.insert(*head, row) {
            return Err(format!("{what}, row {row}: {head:X} stands in row {first} already"));
        }
    }
    Ok(records)
}

/// A codepoint, or a row [codepoint, name].
fn fenced(v: &Value) -> Result<u32, String> {
    match v.list() {
        Some([c, ..]) => number(c, "codepoint"),
        _ => number(v, "codepoint"),
    }
}

fn group(v: &Value) -> Result<Group, String> {
    let name = key(v, "name")?.text().ok_or("the name is no string")?.to_string();
    let restricted = match v.get("restricted") {
        None | Some(Value::Null) => false,
        Some(flag) => flag.boolean().ok_or("restricted is no boolean")?,
    };
    // ENSIP-15: CM whitelisted is effectively true where "cm" is []. As a list that
    // would refuse every mark, so it is none.
    let cm = match v.get("cm") {
        None | Some(Value::Null) => None,
        Some(cm) => Some(compounds(cm).map_err(|fault| format!("group {name}: {fault}"))?),
    };
    let mut characters = codepoints(key(v, "primary")?, "primary")?;
    characters.extend(codepoints(key(v, "secondary")?, "secondary")?);
    let whitelisted = cm.is_some();
    let list = cm.filter(|list| !list.is_empty());
    Ok(Group { name, restricted, whitelisted, characters, list })
}

/// The compound sequences of a group, as many and as long as a table takes them.
fn compounds(v: &Value) -> Result<Vec<Vec<u32>>, String> {
    let list = rows(v, "cm", |r| {
        let items = codepoints(r, "compound sequence")?;
        if (LEAST_RUN..=MOST_RUN).contains(&(items.len() as u32)) {
            return Ok(items);
        }
        Err(format!("a compound sequence of {} codepoints; a table takes {LEAST_RUN} to {MOST_RUN}", items.len()))
    })?;
    if list.len() > SEQUENCES as usize {
        return Err(format!("cm: {} compound sequences; a table takes {SEQUENCES}", list.len()));
    }
    Ok(list)
}

fn whole(v: &Value) -> Result<Whole, String> {
    Ok(Whole { valid: codepoints(key(v, "valid")?, "valid")?, confused: codepoints(key(v, "confused")?, "confused")? })
}

impl Spec {
    pub fn read(text: &str) -> Result<Spec, String> {
        let v = top(text)?;
        let max = key(&v, "nsm_max")?.number();
        if max != Some(4) {
            return Err("nsm_max is not 4, the limit of the rules".into());
        }
        Ok(Spec {
            unicode: v.get("unicode").and_then(Value::text).map(str::to_string),
            emoji: rows(key(&v, "emoji")?, "emoji", |r| {
                let items = codepoints(r, "sequence")?;
                match items.len() {
                    1..=32 => Ok(items),
                    n => Err(format!("{n} codepoints; a table takes 1 to 32")),
                }
            })?,
            mapped: heads_once(rows(key(&v, "mapped")?, "mapped", |r| record(r, 32))?, "mapped")?,
            ignored: codepoints(key(&v, "ignored")?, "ignored")?,
            fenced: rows(key(&v, "fenced")?, "fenced", fenced)?,
            groups: rows(key(&v, "groups")?, "groups", group)?,
            wholes: rows(key(&v, "wholes")?, "wholes", whole)?,
            cm: codepoints(key(&v, "cm")?, "cm")?,
            nsm: codepoints(key(&v, "nsm")?, "nsm")?,
            escape: codepoints(key(&v, "escape")?, "escape")?,
        })
    }

    /// The number of a group, by its name.
    pub fn group_number(&self, name: &str) -> Option<usize> {
        self.groups.iter().position(|g| g.name == name)
    }
}

impl Nf {
    /// Decompositions are taken as they stand. The published ones are single
    /// steps, of two items at most; composition pairs come from these.
    pub fn read(text: &str) -> Result<Nf, String> {
        let v = top(text)?;
        let ranks = rows(key(&v, "ranks")?, "ranks", |r| codepoints(r, "rank"))?;
        if ranks.len() > 255 {
            return Err(format!("{} ranks; a table takes 255", ranks.len()));
        }
        Ok(Nf {
            exclusions: codepoints(key(&v, "exclusions")?, "exclusions")?,
            decomp: rows(key(&v, "decomp")?, "decomp", |r| record(r, 4))?,
            ranks,
            qc: codepoints(key(&v, "qc")?, "qc")?,
        })
    }

    pub fn by_head(&self) -> HashMap<u32, &[u32]> {
        let mut out = HashMap::new();
        for (head, items) in &self.decomp {
            out.entry(*head).or_insert(items.as_slice());
        }
        out
    }
}

#[cfg(test)]
mod tests {
    use super::*;

    const SPEC: &str = r#"{"created":"x","unicode":"16","emoji":[[35,65039,8419]],"mapped":[[65,[97]]],
        "ignored":[173],"fenced":[8217,[8260,"Fraction Slash"]],
        "groups":[{"name":"A","primary":[97],"secondary":[48],"cm":[]},
                  {"name":"B","restricted":true,"primary":[98],"secondary":[]}],
        "wholes":[{"target":"a","valid":[97],"confused":[1072]}],
        "cm":[768],"nsm":[768],"nsm_max":4,"escape":[173,8204]}"#;

    #[test]
    fn reads_both_shapes_of_fenced_and_the_flags() {
        let spec = Spec::read(SPEC).unwrap();
        assert_eq!(spec.fenced, [8217, 8260]);
        assert_eq!(spec.groups[0].flags(), 2);
        assert_eq!(spec.groups[1].flags(), 1);
        assert_eq!(spec.groups[0].characters, [97, 48]);
        assert_eq!(spec.group_number("B"), Some(1));
        assert_eq!(spec.wholes[0].confused, [1072]);
        assert_eq!(spec.escape, [173, 8204]);
    }

    /// 02, Item 12: with a list flags 2 and 4, with an empty one 2 alone.
    #[test]
    fn reads_compound_sequences() {
        let groups = |cm: &str| Spec::read(&SPEC.replace("\"cm\":[]", cm)).unwrap().groups;
        let flags_and_list = |cm: &str| (groups(cm)[0].flags(), groups(cm)[0].list.clone());
        assert_eq!(flags_and_list("\"cm\":[]"), (2, None));
        assert_eq!(flags_and_list("\"cm\":null"), (0, None));
        assert_eq!(flags_and_list("\"other\":1"), (0, None));
        let longest = [&[98][..], &[768; 7]].concat();
        let listed = format!("\"cm\":[[98,768],[98{}]]", ",768".repeat(7));
        assert_eq!(flags_and_list(&listed), (6, Some(vec![vec![98, 768], longest])));
        assert_eq!(flags_and_list("\"restricted\":true,\"cm\":[[98,768]]").0, 7);
        let most = format!("\"cm\":[{}]", vec!["[98,768]"; 64].join(","));
        assert_eq!(flags_and_list(&most).1.map(|list| list.len()), Some(64));
    }

    #[test]
    fn refuses_what_a_table_cannot_hold() {
        let with = |old: &str, new: &str| Spec::read(&SPEC.replace(old, new)).unwrap_err();
        assert!(with("\"nsm_max\":4", "\"nsm_max\":5").contains("nsm_max"));
        assert!(with("\"cm\":[]", "\"cm\":[[97,768],[97]]")
            .contains("group A: cm, row 1: a compound sequence of 1 codepoints; a table takes 2 to 8"));
        let nine = format!("\"cm\":[[97{}]]", ",768".repeat(8));
        assert!(with("\"cm\":[]", &nine).contains("cm, row 0: a compound sequence of 9 codepoints"));
        let many = format!("\"cm\":[{}]", vec!["[97,768]"; 65].join(","));
        assert!(with("\"cm\":[]", &many).contains("group A: cm: 65 compound sequences; a table takes 64"));
        assert!(with("\"cm\":[]", "\"cm\":[97]").contains("compound sequence: a list is expected"));
        assert!(with("[[65,[97]]]", "[[65,[]]]").contains("row 0"));
        assert!(with("\"ignored\":[173],", "").contains("ignored"));
        assert!(with("[173]", "[-1]").contains("codepoint"));
        assert!(with("[[65,[97]]]", "[[65,[97]],[66,[98]],[65,[98]]]").contains("mapped, row 2: 41 stands in row 0"));
        assert!(Spec::read(&format!("[{SPEC}]"))
            .unwrap_err()
            .contains("line 1: a map is expected, and this is a list"));
        assert!(Nf::read("[]").unwrap_err().contains("a list"));
        assert!(Nf::read("7").unwrap_err().contains("a map is expected"));
        assert!(Spec::read(&format!("\u{FEFF}{SPEC}")).unwrap_err().contains("line 1: a byte order mark"));
        let nf = r#"{"exclusions":[],"decomp":[[192,[65,768,1,2,3]]],"ranks":[],"qc":[]}"#;
        assert!(Nf::read(nf).unwrap_err().contains("1 to 4"));
        assert!(Nf::read(r#"{"exclusions":[],"decomp":[],"ranks":[]}"#).unwrap_err().contains("qc is missing"));
    }
}
