//! Counts the runs of the library, and limits its memory: a text is made once, however long it is,
//! each call may be refused memory, and nothing is kept.

// (Clippy of Rust 1.63 takes the values of thread-local statics for constants.)
#![allow(clippy::declare_interior_mutable_const)]

use crate::raw::{held, MemoryLimit};
use crate::{Budget, Context, Error, Image, Options, Outcome, Templates};
use std::cell::Cell;

thread_local! {
    static RUNS: Cell<u32> = const { Cell::new(0) };
    static COMPILES: Cell<u32> = const { Cell::new(0) };
}

pub(crate) fn runs() {
    RUNS.with(|runs| runs.set(runs.get() + 1));
}

pub(crate) fn compiles() {
    COMPILES.with(|compiles| compiles.set(compiles.get() + 1));
}

#[test]
fn a_text_of_any_length_is_made_by_one_run() {
    let templates = Templates::new(&[("t", "{% for i in range(n) %}a{% endfor %}")]);
    let image = templates.compile("t", Options::default()).unwrap();
    for (count, n) in (1..).zip([0, 1, 1023, 1024, 1025, 4096, 4097, 100_000]) {
        let context = Context::from_json(format!("{{\"n\": {n}}}")).unwrap();
        let text = Outcome::Text("a".repeat(n));
        assert_eq!(image.run(&context, Budget::default()), Ok(text));
        assert_eq!(RUNS.with(Cell::get), count);
    }
    templates.compile("t", Options::default()).unwrap();
    assert_eq!(RUNS.with(Cell::get), 8);
    drop((templates, image));
    assert_eq!(held(), 0);
}

#[test]
fn an_image_of_any_length_is_made_by_one_compilation() {
    for (count, tags) in (1..).zip([1, 2_000, 60_000]) {
        let part = "{{ a }}b".repeat(tags / 3);
        let templates = Templates::new(&[
            ("t", "{% include 'u' %}{% include 'v' %}{% include 'w' %}"),
            ("u", &part),
            ("v", &part),
            ("w", &part),
        ]);
        let image = templates.compile("t", Options::default()).unwrap();
        let bytes = image.to_bytes().unwrap();
        assert!(tags < 60_000 || bytes.len() > 1 << 20, "{}", bytes.len());
        let context = Context::from_json("{}").unwrap();
        let text = image.run(&context, Budget { fuel: 10_000_000, ..Budget::default() });
        assert_eq!(text, Ok(Outcome::Text("b".repeat(tags / 3 * 3))));
        assert_eq!(COMPILES.with(Cell::get), count);
    }
    assert_eq!(held(), 0);
}

/// Makes a call under each limit of memory, in steps of 16 bytes, until it is not refused. Each
/// refusal is `NoMemory`, and keeps nothing.
fn make_under_each_limit<T>(call: impl Fn() -> Result<T, Error>) {
    for (refused, memory) in (0..).step_by(16).enumerate() {
        let limit = MemoryLimit::new(memory);
        let result = call();
        if let Ok(value) = result {
            assert!(refused > 0 && held() > 0 || refused > 20, "{refused} limits refuse the call");
            drop(value);
            assert_eq!(held(), 0, "limit {memory}");
            return;
        }
        assert_eq!(result.err(), Some(Error::NoMemory));
        assert_eq!(held(), 0, "limit {memory}");
        drop(limit);
        // (No limit is left behind.)
        if refused % 64 == 0 {
            call().map(drop).unwrap();
        }
    }
}

#[test]
fn each_call_may_be_refused_and_nothing_is_kept() {
    let source = "{% include 'u' %}{% for i in xs %}{{ i }}{% endfor %}";
    let long = "u".repeat(5000);
    let templates_of_two = || {
        let mut templates = Templates::new(&[("t", source)]);
        templates.add("u", &long);
        templates
    };
    let compiled = || templates_of_two().clone().compile("t", Options::default());
    let json = r#"{"xs": ["a", 1]}"#;
    let (image, context) = (compiled().unwrap(), Context::from_json(json).unwrap());
    let bytes = image.to_bytes().unwrap();
    let text = || image.run(&context, Budget::default())?.into_text();
    assert_eq!(text(), Ok(long.clone() + "a1"));
    make_under_each_limit(compiled);
    make_under_each_limit(|| templates_of_two().needs("t", Options::default()));
    make_under_each_limit(|| Image::from_bytes(&bytes));
    make_under_each_limit(|| Context::from_json(json));
    make_under_each_limit(|| image.to_bytes());
    make_under_each_limit(text);
}

#[test]
fn a_refusal_may_be_refused_memory() {
    let templates = Templates::new(&[("t", "{{ x|uper }}")]);
    let (mut refused, mut none) = (0, 0);
    for memory in (0..16_384).step_by(16) {
        let templates = templates.clone();
        let limit = MemoryLimit::new(memory);
        match templates.compile("t", Options::default()).unwrap_err() {
            Error::NoMemory => none += 1,
            Error::Refused(refusal) => {
                assert_eq!((&*refusal.code, refusal.line), ("P3", Some(1)));
                refused += 1;
            }
            error => panic!("{error}"),
        }
        drop(templates);
        drop(limit);
    }
    assert!(none > 10 && refused > 10, "{none} {refused}");
}

#[test]
fn memory_is_limited() {
    let source = "{% for x in xs %}{{ x ~ '!' }}{% endfor %}";
    let image = Templates::new(&[("t", source)]).compile("t", Options::default()).unwrap();
    let context = Context::from_json(r#"{"xs": ["a", 1, "b", 2, "c", 3, "d", 4]}"#).unwrap();
    let wanted = Outcome::Text("a!1!b!2!c!3!d!4!".into());
    let mut refused = 0;
    for memory in (0..16_384).step_by(16) {
        match image.run(&context, Budget { memory, ..Budget::default() }) {
            Err(Error::NoMemory) => refused += 1,
            outcome => assert_eq!(outcome.as_ref(), Ok(&wanted)),
        }
        // (No limit is left behind.)
        assert_eq!(image.run(&context, Budget::default()).as_ref(), Ok(&wanted));
    }
    assert!((10..1000).contains(&refused), "{refused}");
}
