//! Renders the page of the tutorial: host PAGES CONTEXT.

use jt::{Budget, Context, Options, Templates};
use std::error::Error;

fn main() -> Result<(), Box<dyn Error>> {
    let words: Vec<String> = std::env::args().collect();
    let image = Templates::from_folder(&words[1])?.compile("page.html", Options::default())?;
    let context = Context::from_json(std::fs::read(&words[2])?)?;
    image.run_to(&context, Budget::default(), std::io::stdout())?;
    Ok(())
}
