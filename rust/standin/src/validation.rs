//! The published validation tests: a list of {name, norm, error, comment}.
//! Without `error` the normal form is `norm`, or the name itself.

use crate::desk::Desk;
use compare::Engine;
use maker::json;

/// What a run of the validation tests showed.
#[derive(Clone, Debug, Default, PartialEq, Eq)]
pub struct Outcome {
    pub passed: usize,
    /// What each test that failed is about.
    pub failed: Vec<String>,
}

fn codepoints(text: &str) -> Vec<u32> {
    text.chars().map(u32::from).collect()
}

/// Runs the tests of this file's text. Rows that do not have the shape are an
/// error; a row without a name (the published file starts with one about its
/// version) is passed over.
pub fn run(desk: &mut Desk, text: &str) -> Result<Outcome, String> {
    let tests = json::read(text)?;
    let mut out = Outcome::default();
    for (i, test) in tests.list().ok_or("no list of tests")?.iter().enumerate() {
        let Some(name) = test.get("name") else {
            if i == 0 {
                continue;
            }
            return Err(format!("test {i} has no name"));
        };
        let name = codepoints(name.text().ok_or_else(|| format!("test {i}: the name is no string"))?);
        let error = test.get("error").is_some_and(|e| e.boolean() != Some(false));
        let norm = match test.get("norm") {
            Some(norm) => codepoints(norm.text().ok_or_else(|| format!("test {i}: norm is no string"))?),
            None => name.clone(),
        };
        let result = desk.name(&name);
        let right = match &result {
            Ok((answer, _)) => !error && *answer == norm,
            Err(_) => error,
        };
        if right {
            out.passed += 1;
        } else {
            let wanted = if error { "an error".to_string() } else { format!("{norm:X?}") };
            out.failed.push(format!("test {i}: {name:X?} gives {result:X?}, not {wanted}"));
        }
    }
    Ok(out)
}

/// The names of this file's tests.
pub fn names(text: &str) -> Result<Vec<Vec<u32>>, String> {
    let tests = json::read(text)?;
    let rows = tests.list().ok_or("no list of tests")?;
    Ok(rows.iter().filter_map(|test| Some(codepoints(test.get("name")?.text()?))).collect())
}

/// Runs the published file on the full-size table, where data/published has
/// it; panics where a test fails.
pub fn run_published(engine: &dyn Engine, table: &[u32]) {
    let Ok(text) = std::fs::read_to_string(crate::data().join("published/tests.json")) else {
        println!("data/published/tests.json is not there: the published validation tests were not run");
        return;
    };
    let outcome = run(&mut Desk::new(engine, table), &text).expect("tests.json");
    println!("{} of the published validation tests pass, {} fail", outcome.passed, outcome.failed.len());
    assert!(outcome.passed > 0);
    assert!(outcome.failed.is_empty(), "{}", outcome.failed.join("\n"));
}
