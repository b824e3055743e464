//! A host in Rust: a template and one that it extends, an image, a text and a fault.

use jt::{Budget, Context, Error, Options, Outcome, Templates};

const SOURCES: [(&str, &str); 2] = [
    ("page", "{% extends 'base' %}{% block body %}Hello {{ name }}!{% endblock %}"),
    ("base", "<p>{% block body %}{% endblock %}</p>"),
];

fn main() -> Result<(), Error> {
    let image = Templates::new(&SOURCES).compile("page", Options::default())?;
    for json in [r#"{"name": "<World>"}"#, r#"{"name": []}"#] {
        match image.run(&Context::from_json(json)?, Budget::default())? {
            Outcome::Text(text) => println!("{text}"),
            Outcome::Fault(fault, Some(place)) => println!("fault {fault} {place}"),
            Outcome::Fault(fault, None) => println!("fault {fault}"),
            Outcome::Spent(spent) => println!("spent {spent}"),
        }
    }
    Ok(())
}
