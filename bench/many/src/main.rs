//! Times an image for many contexts: many IMAGE CONTEXTS ROUNDS
//!
//! CONTEXTS has a JSON object on each line. Of each way it prints how many contexts are rendered in
//! a second: in the best of the rounds, and in the middle one. The outcomes have to be equal.
//!
//! [`by_rayon`] is all that a host with rayon needs, since threads may share an image.

use jt::{Budget, Context, Error, Image, Outcome};
use rayon::prelude::*;
use std::num::NonZeroUsize;
use std::time::Instant;
use std::{env, fs, thread};

type Outcomes = Vec<Result<Outcome, Error>>;

fn run(image: &Image, json: &str) -> Result<Outcome, Error> {
    image.run(&Context::from_json(json)?, Budget::default())
}

fn serial(image: &Image, contexts: &[&str]) -> Outcomes {
    contexts.iter().map(|json| run(image, json)).collect()
}

/// By `run_each`, which takes any iterator, reads few contexts ahead and keeps their order.
fn by_scope(image: &Image, contexts: &[&str], workers: usize) -> Outcomes {
    let workers = NonZeroUsize::new(workers).expect("some worker");
    thread::scope(|scope| image.run_each(scope, contexts, Budget::default(), workers).collect())
}

/// By rayon, which divides a slice among its threads. (`par_bridge` takes an iterator, and does not
/// keep its order.)
fn by_rayon(image: &Image, contexts: &[&str]) -> Outcomes {
    contexts.par_iter().map(|json| run(image, json)).collect()
}

fn main() -> Result<(), Box<dyn std::error::Error>> {
    let words: Vec<String> = env::args().skip(1).collect();
    let [image, contexts, rounds] = words.as_slice() else {
        return Err("usage: many IMAGE CONTEXTS ROUNDS".into());
    };
    let (image, text) = (Image::from_bytes(fs::read(image)?)?, fs::read_to_string(contexts)?);
    let (contexts, rounds): (Vec<&str>, usize) = (text.lines().collect(), rounds.parse()?);
    let wanted = serial(&image, &contexts);
    let pool = |threads| rayon::ThreadPoolBuilder::new().num_threads(threads).build();
    let (two, four) = (pool(2)?, pool(4)?);
    let ways: [(&str, &dyn Fn() -> Outcomes); 6] = [
        ("serial", &|| serial(&image, &contexts)),
        ("run_each, 1 thread", &|| by_scope(&image, &contexts, 1)),
        ("run_each, 2 threads", &|| by_scope(&image, &contexts, 2)),
        ("run_each, 4 threads", &|| by_scope(&image, &contexts, 4)),
        ("rayon, 2 threads", &|| two.install(|| by_rayon(&image, &contexts))),
        ("rayon, 4 threads", &|| four.install(|| by_rayon(&image, &contexts))),
    ];
    let mut rates = vec![Vec::new(); ways.len()];
    for _ in 0..rounds {
        for ((name, way), rates) in ways.iter().zip(&mut rates) {
            let begin = Instant::now();
            let outcomes = way();
            rates.push(contexts.len() as f64 / begin.elapsed().as_secs_f64());
            assert!(outcomes == wanted, "{name} differs");
        }
    }
    for ((name, _), rates) in ways.iter().zip(&mut rates) {
        rates.sort_by(f64::total_cmp);
        let (best, middle) = (rates[rates.len() - 1], rates[rates.len() / 2]);
        println!("{name}: {best:.0} in a second, {middle:.0} in the middle");
    }
    Ok(())
}
