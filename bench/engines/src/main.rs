//! Times renderings by `jt` and by tera in one process: engines SECONDS CONTEXTS FOLDER ..
//!
//! A FOLDER is one of bench/speed/templates, whose context is CONTEXTS/NAME.json (make_contexts.py
//! makes them), or one of examples/. For each it prints microseconds of processor time for a
//! rendering, of three kinds:
//!
//! - `ready`: of templates that were compiled before, for a context that was read before;
//! - `run`: of templates that were compiled before, for a context in JSON;
//! - `whole`: of sources, for a context in JSON.
//!
//! After tera's time, ×N is N times that of `jt`. The texts must be equal, so tera escapes as `jt`
//! does.

use std::error::Error;
use std::path::Path;
use std::{env, fs};

type Outcome = Result<String, Box<dyn Error>>;

const BUDGET: jt::Budget = jt::Budget {
    fuel: 1_000_000_000,
    output: 100_000_000,
    depth: 64,
    size: 100_000_000,
    nesting: 32,
    memory: u64::MAX,
};

/// What is rendered.
struct Workload {
    name: String,
    entry: String,
    sources: Vec<(String, String)>,
    options: jt::Options,
    json: String,
}
impl Workload {
    /// Reads a folder of bench/speed/templates, or of examples/, which has a file `command`.
    fn read(folder: &Path, contexts: &Path) -> Result<Workload, Box<dyn Error>> {
        let name = folder.file_name().ok_or("a folder has a name")?.to_string_lossy().into_owned();
        let mut options = jt::Options::default();
        let Ok(command) = fs::read_to_string(folder.join("command")) else {
            let json = fs::read_to_string(contexts.join(format!("{name}.json")))?;
            let sources = sources_of(folder)?;
            return Ok(Workload { name, entry: "main".into(), sources, options, json });
        };
        let mut words = command.split_whitespace();
        let entry = words.next().ok_or("a command has an entry")?.to_string();
        for word in words {
            match word {
                "--trim-blocks" => options.trim_blocks = true,
                "--lstrip-blocks" => options.lstrip_blocks = true,
                "--keep-trailing-newline" => options.keep_trailing_newline = true,
                "--no-autoescape" => options.autoescape = false,
                other => return Err(format!("{name}: an option {other}").into()),
            }
        }
        let json = fs::read_to_string(folder.join("context.json"))?;
        let sources = sources_of(&folder.join("templates"))?;
        Ok(Workload { name, entry, sources, options, json })
    }
}

/// Returns the names and sources of a folder, without the line end at the end of a source.
fn sources_of(folder: &Path) -> Result<Vec<(String, String)>, Box<dyn Error>> {
    let mut sources = Vec::new();
    for file in fs::read_dir(folder)? {
        let file = file?;
        let source = fs::read_to_string(file.path())?;
        let source = source.strip_suffix('\n').unwrap_or(&source).to_string();
        sources.push((file.file_name().to_string_lossy().into_owned(), source));
    }
    Ok(sources)
}

fn escaped(text: &str) -> String {
    let mut escaped = String::with_capacity(text.len() + text.len() / 8);
    for letter in text.chars() {
        match letter {
            '<' => escaped.push_str("&lt;"),
            '>' => escaped.push_str("&gt;"),
            '&' => escaped.push_str("&amp;"),
            '"' => escaped.push_str("&#34;"),
            '\'' => escaped.push_str("&#39;"),
            other => escaped.push(other),
        }
    }
    escaped
}

fn loaded(given: &Workload) -> tera::Result<tera::Tera> {
    let mut tera = tera::Tera::default();
    tera.autoescape_on(if given.options.autoescape { vec![""] } else { vec![] });
    tera.set_escape_fn(escaped);
    tera.add_raw_templates(given.sources.iter().map(|(name, source)| (name, source)))?;
    Ok(tera)
}

fn rendered(tera: &tera::Tera, given: &Workload) -> Outcome {
    let context = tera::Context::from_value(serde_json::from_str(&given.json)?)?;
    Ok(tera.render(&given.entry, &context)?)
}

/// Returns the processor time of this process in seconds.
fn processor_seconds() -> f64 {
    #[repr(C)]
    struct Time {
        seconds: i64,
        nanoseconds: i64,
    }
    extern "C" {
        fn clock_gettime(clock: i32, time: *mut Time) -> i32;
    }
    let mut time = Time { seconds: 0, nanoseconds: 0 };
    // SAFETY: the clock of the process is number 2, and `time` is a `timespec`.
    assert_eq!(unsafe { clock_gettime(2, &mut time) }, 0);
    time.seconds as f64 + time.nanoseconds as f64 / 1e9
}

/// Returns the microseconds of a call, or none if it does not return the wanted text.
fn took(call: impl Fn() -> Outcome, wanted: &str, seconds: f64) -> Option<f64> {
    if call().ok()? != wanted {
        return None;
    }
    let begin = processor_seconds();
    let mut count = 0;
    while processor_seconds() - begin < seconds {
        call().ok()?;
        count += 1;
    }
    Some((processor_seconds() - begin) / f64::from(count) * 1e6)
}

/// Formats a time beside that of `jt`.
fn beside(micros: Option<f64>, own: Option<f64>) -> String {
    match (micros, own) {
        (Some(micros), Some(own)) => format!("{micros:.0} (×{:.1})", micros / own),
        _ => "differs".into(),
    }
}

/// The kinds of a rendering, and the times of an engine in their order.
const KINDS: [&str; 3] = ["ready", "run", "whole"];
type Times = [Option<f64>; 3];

/// Times `jt`. Returns the text too.
fn by_jt(given: &Workload, seconds: f64) -> Result<(String, Times), Box<dyn Error>> {
    let pairs: Vec<_> =
        given.sources.iter().map(|(name, text)| (name.as_str(), text.as_str())).collect();
    // (Templates keep what they have read, so each call makes them anew.)
    let compiled = || jt::Templates::new(&pairs).compile(&given.entry, given.options);
    let (image, read) = (compiled()?, || jt::Context::from_json(&given.json));
    let context = read()?;
    let text = image.run(&context, BUDGET)?.into_text()?;
    let times = [
        took(|| Ok(image.run(&context, BUDGET)?.into_text()?), &text, seconds),
        took(|| Ok(image.run(&read()?, BUDGET)?.into_text()?), &text, seconds),
        took(|| Ok(compiled()?.run(&read()?, BUDGET)?.into_text()?), &text, seconds),
    ];
    Ok((text, times))
}

/// Times tera, if it takes the sources.
fn by_tera(given: &Workload, text: &str, seconds: f64) -> Option<Times> {
    let tera = loaded(given).ok()?;
    let context = tera::Context::from_value(serde_json::from_str(&given.json).ok()?).ok()?;
    Some([
        took(|| Ok(tera.render(&given.entry, &context)?), text, seconds),
        took(|| rendered(&tera, given), text, seconds),
        took(|| rendered(&loaded(given)?, given), text, seconds),
    ])
}

fn main() -> Result<(), Box<dyn Error>> {
    let words: Vec<String> = env::args().skip(1).collect();
    let [seconds, contexts, folders @ ..] = words.as_slice() else {
        return Err("usage: engines SECONDS CONTEXTS FOLDER ..".into());
    };
    let seconds: f64 = seconds.parse()?;
    for folder in folders {
        let given = Workload::read(Path::new(folder), Path::new(contexts))?;
        let (text, own) = by_jt(&given, seconds)?;
        print!("{}: {} bytes", given.name, text.len());
        for (kind, micros) in KINDS.iter().zip(own) {
            print!(", {kind} {:.1}", micros.ok_or("a second text differs")?);
        }
        match by_tera(&given, &text, seconds) {
            None => print!("; tera refuses it"),
            Some(times) => {
                let times = KINDS.iter().zip(times).zip(own);
                let shown =
                    times.map(|((kind, time), own)| format!("{kind} {}", beside(time, own)));
                print!("; tera {}", shown.collect::<Vec<_>>().join(", "));
            }
        }
        println!();
    }
    Ok(())
}
