//! The two committed tables: made from the files as committed, byte for byte,
//! and sound.

use standin::{data, full, names, Made};

fn check(made: &Made, file: &str, most: usize) -> plain::TableBuilder {
    let committed = std::fs::read(data().join(file)).unwrap_or_else(|e| panic!("data/{file}: {e}"));
    assert!(committed.len() <= most, "data/{file} has {} bytes", committed.len());
    // No assert_eq: a difference would print the whole file.
    assert!(plain::pack(&made.words) == committed, "data/{file} is not what the files make; run maketable");

    let mut words = vec![7; made.words.len() + 3];
    assert_eq!(plain::unpack(&committed, &mut words), Ok(made.words.len()));
    assert!(words[..made.words.len()] == made.words[..] && words[made.words.len()..] == [0; 3]);

    assert_eq!(plain::soundness_report(&made.words), None, "data/{file}");
    assert_eq!(plain::soundness(&made.words), plain::Soundness::Sound, "data/{file}");
    let table = plain::parse(&made.words).expect("layout").to_builder();
    sorted(&table);
    table
}

/// Every section in which a search by halves is made is sorted without overlap,
/// and the quick-check set isn't empty.
fn sorted(t: &plain::TableBuilder) {
    let groups = t.groups.iter().map(|(_, pairs)| pairs);
    let lists = [&t.valid, &t.ignored, &t.fenced, &t.marks, &t.nsm, &t.escape, &t.quick_check];
    for pairs in lists.into_iter().chain(groups) {
        assert!(pairs.windows(2).all(|w| w[0].1 < w[1].0));
    }
    assert!(t.classes.windows(2).all(|w| w[0].1 < w[1].0));
    assert!(t.exclusions.windows(2).all(|w| w[0] < w[1]));
    assert!(t.mapped.windows(2).all(|w| w[0].0 < w[1].0));
    assert!(t.decompositions.windows(2).all(|w| w[0].0 < w[1].0));
    assert!(t.emoji.windows(2).all(|w| w[0] < w[1]) && t.emoji.iter().all(|s| s[0] != plain::FE0F));
    assert!(!t.quick_check.is_empty());
}

#[test]
fn full_tab() {
    let made = full();
    let table = check(&made, "full.tab", 4 * 131_074 + 5);
    println!("full.tab: {} words", made.words.len());
    assert_eq!(table.groups.len(), made.spec.groups.len());
    assert_eq!(table.emoji.len(), made.spec.emoji.len());
    assert!(table.groups.len() > 150 && table.emoji.len() > 3_000 && table.mapped.len() > 5_000);
    // All of the list is there.
    let escaped: u32 = table.escape.iter().map(|(first, last)| last - first + 1).sum();
    assert_eq!(escaped as usize, made.spec.escape.len());
    assert!(escaped > 200);
    let checked: u32 = table.quick_check.iter().map(|(first, last)| last - first + 1).sum();
    assert_eq!(checked as usize, made.nf.qc.len());
    // Every class is under another one's: ranks ascend.
    assert_eq!(table.classes.iter().map(|t| t.2).max(), Some(made.nf.ranks.len() as u32));
}

#[test]
fn names_tab() {
    let made = names();
    let table = check(&made, "names.tab", 32_768);
    println!("names.tab: {} words, {} emoji", made.words.len(), table.emoji.len());
    let groups: Vec<&str> = made.spec.groups.iter().map(|g| g.name.as_str()).collect();
    for name in ["Latin", "Greek", "Cyrillic", "Han", "Japanese", "Korean"] {
        assert!(groups.contains(&name), "{name}");
    }
    assert!(table.emoji.len() >= 290, "{} emoji", table.emoji.len());
    // Of the list what can be shown of a name: the joiner of emoji.
    assert_eq!(table.escape, [(0x200D, 0x200D)]);
}

/// A damaged entry is named with its rule.
#[test]
fn reports_name_rule_and_entry() {
    let made = full();
    let sound = maker::make(&made.spec, &made.nf);
    let report = |change: &dyn Fn(&mut plain::TableBuilder)| {
        let mut b = sound.clone();
        change(&mut b);
        plain::soundness_report(&b.to_words()).expect("not sound")
    };
    let (rule, entry) = report(&|b| b.valid.push((0x2194, 0x2194)));
    assert_eq!(rule, 2, "{entry}");
    let (rule, entry) = report(&|b| b.mapped[0].1 = vec![0x21]);
    assert_eq!(rule, 3, "{entry}");
    assert!(entry.contains("21"), "{entry}");
    let (rule, entry) = report(&|b| b.decompositions.push((0x61, vec![0x62])));
    assert_eq!(rule, 6, "{entry}");
    assert!(entry.contains("61"), "{entry}");

    // Why 21AE and 20E3 are left out: the decomposition of the one makes the emoji
    // 2194 valid, and keycaps are a digit with the other. See docs/TABLE-FINDINGS.md.
    for (c, named) in [(0x21AE, "2194"), (0x20E3, "20E3")] {
        let mut spec = made.spec.clone();
        spec.groups[0].characters.push(c);
        let (rule, entry) = plain::soundness_report(&maker::make(&spec, &made.nf).to_words()).expect("not sound");
        assert_eq!(rule, 5, "{entry}");
        assert!(entry.contains(named), "{entry}");
    }
}

/// Any choice of groups and emoji from sound files is sound.
#[test]
fn cuts_are_sound() {
    let (spec, nf) = standin::source();
    for options in [
        "--groups Latin --emoji 0",
        "--groups Arabic,Tamil,Korean --emoji 1000",
        "--groups Egyp,Cher,Greek --drop 370..3A9 --unmap 0..FFFF",
        "--groups Bopomofo,Hebrew,Japanese --emoji 1F468-200D-1F4BB,30..39",
    ] {
        let words: Vec<String> = options.split(' ').map(str::to_string).collect();
        let cut = maker::Reduction::from_options(&words).unwrap();
        let (spec, nf) = cut.apply(&spec, &nf).unwrap();
        let table = maker::make(&spec, &nf).to_words();
        assert_eq!(plain::soundness_report(&table), None, "{options}");
    }
    let unknown = maker::Reduction { groups: Some(vec!["Nowhere".into()]), ..Default::default() };
    assert!(unknown.apply(&spec, &nf).is_err());
}
