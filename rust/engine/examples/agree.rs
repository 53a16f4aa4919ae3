//! The comparison of 02's Item 11 at its full size: the proved calls, the plain
//! version, its slow ways and the plain version that looks for rules 6 to 8 in
//! every call, over random tables and tables with one section disturbed, and the
//! plain versions over small tables. Ends with status 1 where anything differs.
//! The tests run a share of it. Some minutes on two cores.
//! `cargo run --release --offline -p engine --example agree [TABLES [SMALL]]`

#[path = "../tests/proved/mod.rs"]
mod proved;

use compare::{check_tiny, compare_over, say, Passed, Plain, Report, Settings, Slow};
use gen::disturbed::disturbed_table;
use gen::{Made, Rng};
use proved::Proved;
use standin::shards::on_all_processors;

/// Tables of one part, whose names are compared on one processor.
const PART: u64 = 100;

/// So many tables, each with so many names, from this seed on.
fn compared(tables: u64, names: usize, first_seed: u64, table: fn(&mut Rng) -> Made) -> Report {
    let part = |number: usize| {
        let settings = Settings {
            first_seed: first_seed + PART * number as u64,
            tables: PART,
            names_per_table: names,
            lengthened_per_table: 2,
            files_per_table: 1,
            more_soundness: 0,
            keep: 5,
            ..Settings::default()
        };
        compare_over(&Plain, &[&Proved, &Slow, &Passed], &settings, table)
    };
    let mut all = Report::default();
    on_all_processors(tables.div_ceil(PART) as usize, part).into_iter().for_each(|report| all.add(report));
    all
}

fn main() {
    let word = |at: usize| std::env::args().nth(at).and_then(|w| w.parse::<u64>().ok());
    let tables = word(1).unwrap_or(20_000);
    let small = word(2).unwrap_or(500_000);
    let random = compared(tables, 40, 20_000_000, gen::table);
    say("random tables:");
    random.show();
    let disturbed = compared(tables / 5, 50, 30_000_000, disturbed_table);
    say("tables with a section disturbed:");
    disturbed.show();
    let mut counts = compare::tiny::TinyCounts::default();
    let parts =
        on_all_processors(small.div_ceil(1_000) as usize, |part| check_tiny(40_000_000 + 1_000 * part as u64, 1_000));
    parts.into_iter().for_each(|part| counts += part);
    say(counts);
    let differences = random.counts.differences + disturbed.counts.differences;
    say(format!(
        "{} tables, {} names, {differences} differences",
        random.counts.tables + disturbed.counts.tables,
        random.counts.names + disturbed.counts.names
    ));
    std::process::exit(i32::from(differences > 0));
}
