use jt::{
    Budget, Context, Error, Fault, Image, Options, Outcome, Place, Progress, Run, Spent, Template,
    Templates, Used,
};
use std::cell::Cell;
use std::num::NonZeroUsize;
use std::sync::atomic::{AtomicBool, AtomicI64, AtomicUsize, Ordering};
use std::time::{Duration, Instant};
use std::{fs, io, iter, panic, thread};

/// Returns how many bytes the library holds for this thread.
fn held() -> i64 {
    extern "C" {
        fn jt_memory_held() -> i64;
    }
    // SAFETY: the call only reads a number of this thread.
    unsafe { jt_memory_held() }
}

/// The time by which a run may end late. An idle machine needs some milliseconds; that of the gate
/// is busy.
const LATE: Duration = Duration::from_secs(3);

/// Checks at the end of a test that the library holds nothing for its thread.
struct HoldsNothing;
impl Drop for HoldsNothing {
    fn drop(&mut self) {
        if !thread::panicking() {
            assert_eq!(held(), 0, "the library holds memory after the test");
        }
    }
}

fn context(json: &str) -> Context {
    Context::from_json(json).unwrap()
}

fn template(source: &str) -> Template {
    Template::new("t", &[("t", source)], Options::default())
}

fn rendered(source: &str) -> Result<Outcome, Error> {
    template(source).render(&context("{}"), Budget::default())
}

fn text(text: &str) -> Result<Outcome, Error> {
    Ok(Outcome::Text(text.into()))
}

fn code<T>(result: Result<T, Error>) -> String {
    match result {
        Err(Error::Refused(refusal)) => refusal.code,
        _ => String::new(),
    }
}

#[test]
fn a_text_of_any_length_is_whole() {
    let _end = HoldsNothing;
    for length in [0, 1, 1023, 1024, 1025, 4096, 100_000] {
        assert_eq!(rendered(&"a".repeat(length)), text(&"a".repeat(length)));
    }
}

#[test]
fn an_image_of_any_length_is_whole() {
    let _end = HoldsNothing;
    let source: String = (0..3000).map(|n| format!("{{{{{n}}}}}")).collect();
    let wanted: String = (0..3000).map(|n| n.to_string()).collect();
    assert_eq!(rendered(&source), text(&wanted));
}

#[test]
fn each_fault_has_its_name_and_its_place() {
    let _end = HoldsNothing;
    for (number, name, source) in [
        (1, "BadType", "{{ true + 1 }}"),
        (2, "Undefined", "{{ nope.x }}"),
        (3, "Overflow", "{{ 9223372036854775807 + 1 }}"),
        (4, "ZeroDivide", "{{ 1 // 0 }}"),
        (5, "Unprintable", "{{ [1] }}"),
        (6, "NotIterable", "{{ 1 in 2 }}"),
        (7, "Unpack", "{% set a, b = [1] %}"),
        (8, "Range", "{{ range(1, 2, 0) }}"),
        (9, "BadArgument", "{{ 'a'|replace('', 'b') }}"),
    ] {
        let outcome = rendered(&format!("a\n{source}")).unwrap();
        match &outcome {
            Outcome::Fault(fault, Some(place)) => {
                assert_eq!((fault.number(), fault.name()), (number, name));
                assert_eq!(*place, Place { template: "t".into(), line: 2 });
            }
            other => panic!("{other:?}"),
        }
        let error = outcome.into_text().unwrap_err();
        assert_eq!(error.to_string(), format!("fault F{number} {name} in t line 2"));
        let code = format!("F{number}");
        let place = (error.code(), error.template(), error.line());
        assert_eq!(place, (Some(&*code), Some("t"), Some(2)));
    }
}

#[test]
fn each_number_of_a_budget_is_spent() {
    let _end = HoldsNothing;
    let image =
        template("{% macro m(x) %}{{ x }}{% endmacro %}{{ m('abc') }}{% set s = [[1, 2], 3] %}");
    let image = image.compile().unwrap();
    let usual = Budget::default();
    for (number, budget, wanted) in [
        (1, Budget { fuel: 0, ..usual }, Spent::Fuel),
        (2, Budget { depth: 0, ..usual }, Spent::Depth),
        (3, Budget { output: 0, ..usual }, Spent::Output),
        (4, Budget { size: 1, ..usual }, Spent::Size),
        (5, Budget { nesting: 1, ..usual }, Spent::Nesting),
    ] {
        let outcome = image.run(&context("{}"), budget);
        assert_eq!(outcome, Ok(Outcome::Spent(wanted)));
        assert_eq!(wanted.number(), number);
        let error = outcome.unwrap().into_text().unwrap_err();
        assert_eq!(error.to_string(), format!("spent {wanted:?}"));
        assert_eq!((error.code(), error.template(), error.line()), (None, None, None));
    }
    assert_eq!(image.run(&context("{}"), usual), text("abc"));
}

#[test]
fn a_refusal_has_its_parts() {
    let _end = HoldsNothing;
    let parts = |error| match error {
        Error::Refused(it) => {
            (it.code, it.name, it.template.unwrap_or_default(), it.line, it.reason)
        }
        other => panic!("{other}"),
    };
    for (name, source, wanted) in [
        ("t", "a\n{{ 1 + }}", ("P1", "Syntax", "t", Some(2), "P1 Syntax in t line 2")),
        (
            "in a line 3",
            "{{",
            ("S1", "UnclosedTag", "in a line 3", Some(1), "S1 UnclosedTag in in a line 3 line 1"),
        ),
        ("t", "{% include 'no' %}", ("C1", "Missing", "", None, "C1 Missing")),
    ] {
        let error = Templates::new(&[(name, source)]).compile(name, Options::default());
        let error = error.unwrap_err();
        let shown = error.to_string();
        let (code, name, template, line, reason) = parts(error);
        assert_eq!((&*code, &*name, &*reason), (wanted.0, wanted.1, wanted.4));
        if wanted.3.is_some() {
            assert_eq!((&*template, line), (wanted.2, wanted.3));
        }
        let first = shown.lines().next().unwrap();
        assert!(first.contains(&format!("{code} {name}")), "{shown}");
    }
    for (name, source, wanted) in [
        ("t", "a\n{{ x|uper }}", ("P3", "t", 2, Some("uper"))),
        ("a:1: P3 b", "{{ 1 is no }}", ("P4", "a:1: P3 b", 1, Some("no"))),
        ("t", "\n{{ x.y() }}", ("V3", "t", 2, Some("x.y"))),
        ("t", "{{ x", ("S1", "t", 1, None)),
    ] {
        let error = Templates::new(&[(name, source)]).compile(name, Options::default());
        let error = error.unwrap_err();
        let shown = error.to_string();
        let place = (error.code(), error.template(), error.line());
        assert_eq!(place, (Some(wanted.0), Some(wanted.1), Some(wanted.2)));
        match error {
            Error::Refused(refusal) => {
                assert_eq!(refusal.subject.as_deref(), wanted.3);
                assert!(shown.starts_with(&format!("{}:{}: {} ", wanted.1, wanted.2, wanted.0)));
                assert_eq!(refusal.explanation, Some(shown + "\n"));
            }
            other => panic!("{other}"),
        }
    }
    let mut image = template("a").compile().unwrap().to_bytes().unwrap();
    assert_eq!(code(Templates::default().compile("t", Options::default())), "C1");
    assert_eq!(code(Image::from_bytes("no image")), "I1");
    image.pop();
    assert_eq!(code(Image::from_bytes(image)), "I3");
}

#[test]
fn a_refused_context_is_none() {
    let _end = HoldsNothing;
    for (json, wanted) in [
        (&b"{"[..], "X1"),
        (b"", "X1"),
        (b"{\"a\": \"\xff\"}", "X1"),
        (b"[]", "X2"),
        (b"{\"a\": 1.5}", "X3"),
        (b"{\"a\": 9223372036854775808}", "X4"),
    ] {
        assert_eq!(code(Context::from_json(json)), wanted);
    }
}

#[test]
fn a_context_serves_many_runs_and_images() {
    let _end = HoldsNothing;
    let context = context(r#"{"n": "<"}"#);
    let images = ["{{ n }}", "{{ n }}{{ n }}"].map(|source| template(source).compile().unwrap());
    for _ in 0..3 {
        assert_eq!(images[0].run(&context, Budget::default()), text("&lt;"));
        assert_eq!(images[1].run(&context, Budget::default()), text("&lt;&lt;"));
    }
}

#[test]
fn an_image_travels_as_bytes() {
    let _end = HoldsNothing;
    let image = template("{{ n }}").compile().unwrap();
    let bytes = image.to_bytes().unwrap();
    let stranger = Image::from_bytes(&bytes).unwrap();
    assert_eq!(stranger.to_bytes().unwrap(), bytes);
    assert_ne!(template("{{ m }}").compile().unwrap().to_bytes().unwrap(), bytes);
    assert_eq!(stranger.run(&context(r#"{"n": 7}"#), Budget::default()), text("7"));
}

#[test]
fn options_are_kept_apart() {
    let _end = HoldsNothing;
    let usual = Options::default();
    for (source, options, wanted) in [
        ("{{ '<' }}\n", Options { autoescape: false, ..usual }, "<"),
        ("{{ '<' }}\n", Options { keep_trailing_newline: true, ..usual }, "&lt;\n"),
        ("{% if true %}\na{% endif %}", Options { trim_blocks: true, ..usual }, "a"),
        ("  {% if true %}a{% endif %}", Options { lstrip_blocks: true, ..usual }, "a"),
    ] {
        let template = Template::new("t", &[("t", source)], options);
        assert_eq!(template.render(&context("{}"), Budget::default()), text(wanted));
    }
    for (strict, faulty) in [(true, true), (false, false)] {
        let template = Template::new("t", &[("t", "{{ nope }}")], Options { strict, ..usual });
        let outcome = template.render(&context("{}"), Budget::default()).unwrap();
        assert_eq!(matches!(outcome, Outcome::Fault(Fault::Undefined, Some(_))), faulty);
    }
}

#[test]
fn a_later_source_replaces_an_earlier_one() {
    let _end = HoldsNothing;
    let mut templates = Templates::new(&[("t", "a"), ("u", "b")]);
    templates.add("t", "{% include 'u' %}");
    templates.add("u", "c");
    let image = templates.compile("t", Options::default()).unwrap();
    assert_eq!(image.run(&context("{}"), Budget::default()), text("c"));
}

#[test]
fn a_site_is_compiled_from_one_library() {
    let mut templates = Templates::default();
    for at in 0..100 {
        templates.add(&format!("page{at}"), &format!("{{% extends 'layout{}' %}}", at % 5));
    }
    for at in 0..5 {
        templates.add(&format!("layout{at}"), &format!("{at}:{{{{ n }}}}"));
    }
    let text_of = |templates: &Templates, at: usize| {
        let image = templates.compile(&format!("page{at}"), Options::default()).unwrap();
        image.run(&context(r#"{"n": 7}"#), Budget::default())
    };
    let held_elsewhere = AtomicI64::new(0);
    thread::scope(|scope| {
        for _ in 0..4 {
            scope.spawn(|| {
                for at in 0..100 {
                    assert_eq!(text_of(&templates, at), text(&format!("{}:7", at % 5)));
                }
                held_elsewhere.fetch_add(held(), Ordering::SeqCst);
            });
        }
    });
    // A source that is added later counts, and not in an earlier clone.
    let clone = templates.clone();
    templates.add("layout1", "new");
    assert_eq!(text_of(&templates, 1), text("new"));
    assert_eq!(text_of(&clone, 1), text("1:7"));
    drop((templates, clone));
    // (One of the threads has read the sources.)
    assert_eq!(held() + held_elsewhere.into_inner(), 0);
}

#[test]
fn a_template_needs_names_and_templates() {
    let _end = HoldsNothing;
    let many: Vec<_> = (0..500).map(|n| format!("name_{n:03}")).collect();
    let long: String = many.iter().map(|name| format!("{{{{ {name} }}}}")).collect();
    let templates = Templates::new(&[
        ("page", "{% extends 'base' %}{% block b %}{{ x }}{{ title }}{% endblock %}"),
        ("base", "{{ site }}{% include 'a b' ignore missing %}{% block b %}{% endblock %}"),
        ("bad", "{{ x|uper }}"),
        ("long", &long),
    ]);
    let needs = templates.needs("page", Options::default()).unwrap();
    assert_eq!(needs.names, ["site", "title", "x"]);
    assert_eq!(needs.templates, ["base", "page"]);
    assert_eq!(needs.missing, ["a b"]);
    assert_eq!(templates.needs("long", Options::default()).unwrap().names, many);
    assert_eq!(template("").needs().unwrap().templates, ["t"]);
    for name in ["bad", "none"] {
        let error = templates.needs(name, Options::default()).unwrap_err();
        assert_eq!(error, templates.compile(name, Options::default()).unwrap_err());
    }
}

#[test]
fn a_folder_has_its_files_as_templates() {
    let _end = HoldsNothing;
    let folder = std::env::temp_dir().join(format!("jt-{}", std::process::id()));
    fs::create_dir_all(folder.join("mail/parts")).unwrap();
    fs::write(folder.join("page"), "{% include 'mail/parts/foot.html' %}!").unwrap();
    fs::write(folder.join("mail/parts/foot.html"), "foot").unwrap();
    fs::write(folder.join("picture"), b"\xff").unwrap();
    std::os::unix::fs::symlink("page", folder.join("link")).unwrap();
    let templates = Templates::from_folder(&folder);
    fs::remove_dir_all(&folder).unwrap();
    let templates = templates.unwrap();
    let image = templates.compile("page", Options::default()).unwrap();
    assert_eq!(image.run(&context("{}"), Budget::default()), text("foot!"));
    for name in ["picture", "link", "foot.html"] {
        assert_eq!(code(templates.compile(name, Options::default())), "C1");
    }
    let error = Templates::from_folder(&folder).unwrap_err();
    assert_eq!(error.kind(), io::ErrorKind::NotFound);
}

#[test]
fn a_writer_has_the_whole_text_or_nothing() {
    let _end = HoldsNothing;
    let image = template("{{ 10 // n }}").compile().unwrap();
    let mut out = Vec::new();
    image.run_to(&context(r#"{"n": 5}"#), Budget::default(), &mut out).unwrap();
    assert_eq!(out, b"2");
    let error = image.run_to(&context(r#"{"n": 0}"#), Budget::default(), &mut out).unwrap_err();
    let place = Place { template: "t".into(), line: 1 };
    let inner = error.get_ref().unwrap().downcast_ref::<Error>();
    assert_eq!(inner, Some(&Error::Fault(Fault::ZeroDivide, Some(place))));
    assert_eq!(out, b"2");
    let error = image.run_to(&context(r#"{"n": 5}"#), Budget::default(), &mut [][..]);
    assert_eq!(error.unwrap_err().kind(), io::ErrorKind::WriteZero);
}

#[test]
fn handles_are_dropped_in_any_order() {
    let _end = HoldsNothing;
    let image = template("{{ n }}").compile().unwrap();
    let (first, second) = (image.try_clone().unwrap(), image.try_clone().unwrap());
    let context = context(r#"{"n": 7}"#);
    drop(image);
    assert_eq!(first.run(&context, Budget::default()), text("7"));
    drop(first);
    let moved = Box::new((context, second));
    assert_eq!(moved.1.run(&moved.0, Budget::default()), text("7"));
    let (context, second) = *moved;
    drop(second);
    drop(context);
}

const LIST: &str = "{% for i in range(n) %}{{ i }},{% endfor %}";

fn runs_of(image: &Image) {
    for n in 0..40 {
        let wanted: String = (0..n).map(|i| format!("{i},")).collect();
        let context = context(&format!("{{\"n\": {n}}}"));
        assert_eq!(image.run(&context, Budget::default()), text(&wanted));
    }
}

#[test]
fn threads_share_an_image() {
    let _end = HoldsNothing;
    let image = template(LIST).compile().unwrap();
    thread::scope(|scope| {
        for _ in 0..4 {
            scope.spawn(|| {
                let _end = HoldsNothing;
                runs_of(&image);
            });
        }
    });
}

#[test]
fn an_image_goes_to_another_thread() {
    let image = template(LIST).compile().unwrap();
    let clones = [(); 4].map(|()| image.try_clone().unwrap());
    let threads = clones.map(|image| {
        thread::spawn(move || {
            runs_of(&image);
            drop(image);
            held()
        })
    });
    drop(image);
    let mut all: i64 = threads.map(|thread| thread.join().unwrap()).iter().sum();
    let thread = thread::spawn(|| {
        let made = template(LIST).compile().unwrap();
        (made, held())
    });
    let (made, of_its_thread) = thread.join().unwrap();
    all += of_its_thread;
    runs_of(&made);
    drop(made);
    assert_eq!(all + held(), 0);
}

/// Runs a template for each context by some threads.
fn each<I>(source: &str, contexts: I, budget: Budget, workers: usize) -> Vec<Result<Outcome, Error>>
where
    I: IntoIterator + Send,
    I::Item: AsRef<[u8]> + Send,
{
    let image = template(source).compile().unwrap();
    let workers = NonZeroUsize::new(workers).unwrap();
    thread::scope(|scope| image.run_each(scope, contexts, budget, workers).collect())
}

#[test]
fn each_context_has_its_outcome() {
    let budget = Budget { fuel: 2000, memory: 50_000, ..Budget::default() };
    let source = "{{ 12 // n }}{% for i in range(n) %}{{ i }}{% endfor %}";
    let kinds = ["{\"n\": 3}", "{\"n\": 0}", "{\"n\": 9999}", "{\"n\": 1.5}", "{", "{}", ""];
    let image = template(source).compile().unwrap();
    for count in [0, 1, 31, 32, 33, 64, 1000] {
        let contexts: Vec<&str> = kinds.iter().copied().cycle().take(count).collect();
        let wanted: Vec<_> =
            contexts.iter().map(|json| image.run(&Context::from_json(json)?, budget)).collect();
        for workers in [1, 3, 40] {
            assert_eq!(each(source, contexts.clone(), budget, workers), wanted);
        }
    }
    let texts = each("{{ n * 70000 }}", ["{\"n\": \"a\"}"; 3], Budget::default(), 2);
    assert_eq!(texts, vec![text(&"a".repeat(70_000)); 3]);
}

#[test]
fn few_contexts_are_read_ahead() {
    let image = template("{{ n }}").compile().unwrap();
    let read = Cell::new(0);
    let endless = || {
        read.set(read.get() + 1);
        Some(format!("{{\"n\": {}}}", read.get()))
    };
    thread::scope(|scope| {
        let workers = NonZeroUsize::new(2).unwrap();
        let contexts = iter::from_fn(endless);
        let outcomes = image.run_each(scope, contexts, Budget::default(), workers);
        for (n, outcome) in (1..=1000).zip(outcomes) {
            assert_eq!(outcome, text(&n.to_string()));
        }
    });
    assert!(read.get() <= 1000 + 1 + 32 * 3 * 2, "{}", read.get());
}

#[test]
fn a_dropped_iterator_ends_its_threads() {
    /// A context that counts its run. After the first batch it waits until the iterator is dropped.
    struct Counting<'a> {
        at: usize,
        begun: &'a AtomicUsize,
        is_dropped: &'a AtomicBool,
    }
    impl AsRef<[u8]> for Counting<'_> {
        fn as_ref(&self) -> &[u8] {
            self.begun.fetch_add(1, Ordering::SeqCst);
            while self.at >= 32 && !self.is_dropped.load(Ordering::SeqCst) {
                thread::sleep(Duration::from_millis(1));
            }
            b"{}"
        }
    }
    let image = template("a").compile().unwrap();
    let (begun, is_dropped) = (AtomicUsize::new(0), AtomicBool::new(false));
    thread::scope(|scope| {
        let contexts = (0..).map(|at| Counting { at, begun: &begun, is_dropped: &is_dropped });
        let workers = NonZeroUsize::new(2).unwrap();
        let mut outcomes = image.run_each(scope, contexts, Budget::default(), workers);
        assert_eq!(outcomes.next(), Some(text("a")));
        drop(outcomes);
        is_dropped.store(true, Ordering::SeqCst);
    });
    // The first batch is run, and of 5 other batches at most one context by each thread.
    assert!((32..=34).contains(&begun.into_inner()));
}

#[test]
fn a_panic_of_a_context_is_passed_on() {
    struct Odd;
    impl AsRef<[u8]> for Odd {
        fn as_ref(&self) -> &[u8] {
            panic!("odd")
        }
    }
    let run = || each("a", [Odd], Budget::default(), 2);
    assert!(panic::catch_unwind(run).is_err());
}

#[test]
fn what_may_go_to_other_threads_says_so() {
    fn is_shared<T: Send + Sync + 'static>() {}
    is_shared::<Image>();
    is_shared::<Templates>();
    is_shared::<Template>();
    is_shared::<Outcome>();
    is_shared::<Error>();
}

const ENDLESS: &str = "{% for a in range(1000) %}{% for b in range(1000) %}\
    {% for c in range(1000) %}{% for d in range(1000) %}\
    {% endfor %}{% endfor %}{% endfor %}{% endfor %}";

/// Returns a run that does not end within hours.
fn endless() -> Run {
    let ample = Budget { fuel: u64::MAX, ..Budget::default() };
    template(ENDLESS).compile().unwrap().start(&context("{}"), ample).unwrap()
}

/// Returns how a run in slices of a number of instructions ends.
fn by_slices(mut run: Run, steps: u32) -> Result<Outcome, Error> {
    while run.advance(steps)? == Progress::Going {
        assert_eq!(run.outcome(), Ok(None));
    }
    Ok(run.outcome()?.unwrap())
}

#[test]
fn a_run_in_slices_ends_as_one_call() {
    let _end = HoldsNothing;
    let calls = "{% macro m(x) %}{{ x }}{% endmacro %}{% for i in xs %}{{ m(i) }}{% endfor %}";
    let (plain, json) = (Budget::default(), r#"{"xs": ["a", 1, "b"], "n": 0}"#);
    let long = "{% for i in range(5000) %}{{ i }}{% endfor %}";
    for (source, budget) in [
        (calls, plain),
        (calls, Budget { fuel: 20, ..plain }),
        (calls, Budget { output: 3, ..plain }),
        (calls, Budget { depth: 0, ..plain }),
        (calls, Budget { nesting: 0, ..plain }),
        ("a{{ 1 // n }}", plain),
        ("{{ xs }}", plain),
        ("", plain),
        (long, plain),
    ] {
        let (image, context) = (template(source).compile().unwrap(), context(json));
        let wanted = image.run(&context, budget);
        for steps in [1, 7, 1000, u32::MAX] {
            let found = image.start(&context, budget).and_then(|run| by_slices(run, steps));
            assert_eq!(found, wanted, "{source}");
        }
        let mut whole = image.start(&context, budget).unwrap();
        assert_eq!(whole.run_while(|| true), Ok(Progress::Ended));
        assert_eq!(whole.outcome().map(Option::unwrap), wanted);
        assert_eq!(whole.outcome().map(Option::unwrap), wanted);
    }
}

#[test]
fn the_memory_of_a_run_in_slices_is_limited() {
    let source = "{% for x in xs %}{{ x ~ '!' }}{% endfor %}";
    let image = template(source).compile().unwrap();
    let context = context(r#"{"xs": ["a", 1, "b", 2, "c", 3, "d", 4]}"#);
    let mut refused = 0;
    for memory in (0..16_384).step_by(64) {
        for steps in [1, 3, 1000] {
            let budget = Budget { memory, ..Budget::default() };
            match image.start(&context, budget).and_then(|run| by_slices(run, steps)) {
                Err(Error::NoMemory) => refused += 1,
                outcome => assert_eq!(outcome, text("a!1!b!2!c!3!d!4!")),
            }
        }
    }
    assert!((10..600).contains(&refused), "{refused}");
    // A run that was refused memory has no outcome.
    let lists = "{% for i in range(99) %}{% set a = range(60000)|map('abs') %}{% endfor %}";
    let budget = Budget { memory: 100_000, ..Budget::default() };
    let mut run = template(lists).compile().unwrap().start(&context, budget).unwrap();
    assert_eq!(run.run_while(|| true), Err(Error::NoMemory));
    assert_eq!((run.advance(1), run.outcome()), (Err(Error::NoMemory), Err(Error::NoMemory)));
}

#[test]
fn a_stop_at_each_slice_gives_all_memory_back() {
    let _end = HoldsNothing;
    let source = "{% set a = xs|map('upper')|list %}{% for x in a %}{{ x ~ '!' }}{% endfor %}";
    let (image, context) =
        (template(source).compile().unwrap(), context(r#"{"xs": ["abc", "de", "f", 1]}"#));
    let before = held();
    for stop in 0.. {
        let mut run = image.start(&context, Budget::default()).unwrap();
        let progress = (0..stop).map(|_| run.advance(1).unwrap()).last();
        assert!(held() > before);
        drop(run);
        assert_eq!(held(), before, "after {stop} slices");
        if progress == Some(Progress::Ended) {
            assert!(stop > 20);
            return;
        }
    }
}

#[test]
fn a_run_needs_neither_its_image_nor_its_context() {
    let _end = HoldsNothing;
    let started = || {
        let image = template("{% for x in xs %}{{ x }},{% endfor %}").compile().unwrap();
        image.start(&context(r#"{"xs": [1, "a"]}"#), Budget::default()).unwrap()
    };
    let (mut first, mut second) = (started(), started());
    while first.advance(2).unwrap() == Progress::Going {
        second.advance(1).unwrap();
    }
    assert_eq!(by_slices(first, 1), text("1,a,"));
    assert_eq!(by_slices(second, 1), text("1,a,"));
}

#[test]
fn a_run_is_stopped_at_a_deadline() {
    let _end = HoldsNothing;
    let (mut run, begin) = (endless(), Instant::now());
    let deadline = begin + Duration::from_millis(100);
    assert_eq!(run.run_until(deadline), Ok(Progress::Going));
    assert!(Instant::now() >= deadline && Instant::now() < deadline + LATE);
    assert_eq!(run.outcome(), Ok(None));
    let used = run.used();
    // (A machine that is busy may execute one slice alone.)
    assert!(used.fuel > 0 && used.output == 0 && used.depth == 0, "{used}");
    // It goes on where it was.
    assert_eq!(run.run_until(deadline), Ok(Progress::Going));
    assert_eq!(run.used(), used);
    assert_eq!(run.advance(10), Ok(Progress::Going));
    assert!(run.used().fuel >= used.fuel + 10);
}

#[test]
fn a_run_is_cancelled_by_another_thread() {
    let _end = HoldsNothing;
    let cancel = AtomicBool::new(false);
    thread::scope(|scope| {
        scope.spawn(|| {
            thread::sleep(Duration::from_millis(50));
            cancel.store(true, Ordering::Relaxed);
        });
        let (mut run, begin) = (endless(), Instant::now());
        assert_eq!(run.run_unless(&cancel), Ok(Progress::Going));
        assert!(begin.elapsed() < LATE);
        let used = run.used();
        assert_eq!(run.run_unless(&cancel), Ok(Progress::Going));
        assert_eq!(run.used(), used);
    });
}

#[test]
fn the_least_budget_is_what_was_used() {
    let _end = HoldsNothing;
    let calls = "{% macro m(x) %}{% if x %}{{ m(x - 1) }}{% endif %}a{% endmacro %}{{ m(4) }}";
    let (image, context) = (template(calls).compile().unwrap(), context("{}"));
    let mut run = image.start(&context, Budget::default()).unwrap();
    assert_eq!(run.used(), Used::default());
    run.run_while(|| true).unwrap();
    let Used { fuel, output, depth, size, nesting } = run.used();
    // The text that is printed last has five bytes.
    assert_eq!((depth, size, nesting), (5, 6, 0));
    let least = Budget { fuel, output, depth, size, nesting, ..Budget::default() };
    assert_eq!(image.run(&context, least), text("aaaaa"));
    for (less, spent) in [
        (Budget { fuel: fuel - 1, ..least }, Spent::Fuel),
        (Budget { output: output - 1, ..least }, Spent::Output),
        (Budget { depth: depth - 1, ..least }, Spent::Depth),
        (Budget { size: size - 1, ..least }, Spent::Size),
    ] {
        assert_eq!(image.run(&context, less), Ok(Outcome::Spent(spent)));
    }
}
