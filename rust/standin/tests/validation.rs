//! The published validation tests, where data/published has them.

use standin::{full, validation, Desk};

#[test]
fn published_validation_tests() {
    let made = full();
    made.prepared(|engine| validation::run_published(engine, &made.words));
}

/// The runner itself, on a few rows of the published shape.
#[test]
fn the_runner_runs() {
    let made = full();
    made.prepared(|engine| few_rows(&mut Desk::new(engine, &made.words)));
}

fn few_rows(desk: &mut Desk) {
    let right = r#"[{"version": "0", "note": "no test"},
        {"name": "", "comment": "Empty"},
        {"name": "a"},
        {"name": "A", "norm": "a"},
        {"name": "@", "error": true},
        {"name": "\ud83d\udca9\ufe0f", "norm": "\ud83d\udca9"},
        {"name": "bahrain.مصر"},
        {"name": "0х", "error": true, "comment": "confusable"}]"#;
    let outcome = validation::run(desk, right).unwrap();
    assert_eq!((outcome.passed, outcome.failed.len()), (7, 0), "{:?}", outcome.failed);

    let wrong = r#"[{"name": "A"}, {"name": "a", "error": true}, {"name": "@"}, {"name": "B", "norm": "c"}]"#;
    let outcome = validation::run(desk, wrong).unwrap();
    assert_eq!((outcome.passed, outcome.failed.len()), (0, 4));

    for bad in ["{}", "[{\"name\": 1}]", "[{\"name\": \"a\"}, {}]", "[{\"name\": \"a\", \"norm\": 1}]"] {
        assert!(validation::run(desk, bad).is_err(), "{bad}");
    }
}
