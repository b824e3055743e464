//! Why there is no image, no context or no text.

use crate::{Fault, Place, Spent};
use std::{error, fmt, io};

/// The reason why there is no image, no context or no text.
///
/// ```
/// use jt::{Error, Options, Templates};
///
/// let templates = Templates::new(&[("page", "a\n{{ 1 + }}")]);
/// let error = templates.compile("page", Options::default()).unwrap_err();
/// assert_eq!(error.code(), Some("P1"));
/// assert_eq!((error.template(), error.line()), (Some("page"), Some(2)));
/// match error {
///     Error::Refused(refusal) => assert_eq!(refusal.name, "Syntax"),
///     _ => unreachable!(),
/// }
/// ```
///
/// The error of a template prints as its author reads it:
///
/// ```
/// let templates = jt::Templates::new(&[("page", "a\n{{ x|uper }}")]);
/// let error = templates.compile("page", jt::Options::default()).unwrap_err();
/// let lines = error.to_string();
/// assert!(lines.starts_with("page:2: P3 UnknownFilter \"uper\"\n  {{ x|uper }}\n"));
/// ```
#[derive(Clone, Debug, PartialEq, Eq)]
#[non_exhaustive]
pub enum Error {
    /// A refusal of templates, of an image or of a context.
    Refused(Box<Refusal>),
    /// A fault of a template, from [`Outcome::into_text`](crate::Outcome::into_text).
    Fault(Fault, Option<Place>),
    /// A spent number of the budget, from [`Outcome::into_text`](crate::Outcome::into_text).
    Spent(Spent),
    /// A refused growth.
    NoMemory,
}

/// The parts of a refusal.
#[derive(Clone, Debug, Default, PartialEq, Eq)]
#[non_exhaustive]
pub struct Refusal {
    /// The code, as `P1`.
    pub code: String,
    /// The name of the code, as `Syntax`.
    pub name: String,
    /// The refused template, if the refusal has a place.
    pub template: Option<String>,
    /// The line of the refused tag, counted from 1, if the refusal has a place.
    pub line: Option<u32>,
    /// The name that the refusal is about, as of an unknown filter, if it has one.
    pub subject: Option<String>,
    /// The path of the refused value of a context, as `order.lines[3].price`, if it is known.
    pub path: Option<String>,
    /// The line of the program `jt`, as `P1 Syntax in page line 2`.
    pub reason: String,
    /// What `jt explain` prints of the template, if templates were refused. Of a value of a context
    /// whose path is known, the path and what the value is.
    pub explanation: Option<String>,
}

impl Error {
    /// Returns the code of a refusal or a fault, as `P1` or `F2`.
    pub fn code(&self) -> Option<&str> {
        match self {
            Error::Refused(refusal) => Some(&refusal.code),
            Error::Fault(fault, _) => Some(fault.code()),
            Error::Spent(_) | Error::NoMemory => None,
        }
    }
    /// Returns the template of a refusal or a fault, if it is known.
    pub fn template(&self) -> Option<&str> {
        match self {
            Error::Refused(refusal) => refusal.template.as_deref(),
            Error::Fault(_, place) => place.as_ref().map(|place| place.template.as_str()),
            Error::Spent(_) | Error::NoMemory => None,
        }
    }
    /// Returns the line of a refusal or a fault in its template, counted from 1, if it is known.
    pub fn line(&self) -> Option<u32> {
        match self {
            Error::Refused(refusal) => refusal.line,
            Error::Fault(_, place) => place.as_ref().map(|place| place.line),
            Error::Spent(_) | Error::NoMemory => None,
        }
    }
    /// Returns the path of the refused value of a context, if it is known.
    pub fn path(&self) -> Option<&str> {
        match self {
            Error::Refused(refusal) => refusal.path.as_deref(),
            _ => None,
        }
    }
    /// Parses `CODE NAME`, after which there may be a place or the point of an image.
    pub(crate) fn refused(reason: &str) -> Error {
        let mut words = reason.splitn(3, ' ').map(str::to_string);
        let (code, name) = (words.next(), words.next());
        let rest = words.next().unwrap_or_default();
        let place = rest.strip_prefix("in ").and_then(|place| place.rsplit_once(" line "));
        Error::Refused(Box::new(Refusal {
            code: code.unwrap_or_default(),
            name: name.unwrap_or_default(),
            template: place.map(|(template, _)| template.to_string()),
            line: place.and_then(|(_, line)| line.parse().ok()),
            reason: reason.to_string(),
            ..Refusal::default()
        }))
    }
    /// Adds the explanation of a refusal, whose first line is `TEMPLATE:LINE: CODE NAME "SUBJECT"`,
    /// without the place if `at` is 0, and without the subject if there is none.
    pub(crate) fn explained(mut self, text: String, at: u32) -> Error {
        if let Error::Refused(refusal) = &mut self {
            let heading = text.lines().next().unwrap_or_default();
            let rule = format!("{} {}", refusal.code, refusal.name);
            let about = if at == 0 {
                heading.strip_prefix(&rule)
            } else {
                heading.split_once(&format!(":{at}: {rule}")).map(|(place, about)| {
                    (refusal.template, refusal.line) = (Some(place.to_string()), Some(at));
                    about
                })
            };
            refusal.subject = about
                .and_then(|about| about.strip_prefix(" \"")?.strip_suffix('"'))
                .map(str::to_string);
            refusal.explanation = Some(text);
        }
        self
    }
}
impl error::Error for Error {}
impl fmt::Display for Error {
    fn fmt(&self, f: &mut fmt::Formatter<'_>) -> fmt::Result {
        match self {
            Error::Refused(refusal) => match &refusal.explanation {
                Some(lines) => f.write_str(lines.trim_end()),
                None => write!(f, "refused {}", refusal.reason),
            },
            Error::Fault(fault, Some(place)) => write!(f, "fault {fault} {place}"),
            Error::Fault(fault, None) => write!(f, "fault {fault}"),
            Error::Spent(spent) => write!(f, "spent {spent}"),
            Error::NoMemory => write!(f, "no memory"),
        }
    }
}
/// The error becomes the inner error of an [`io::Error`].
impl From<Error> for io::Error {
    fn from(error: Error) -> io::Error {
        io::Error::new(io::ErrorKind::Other, error)
    }
}
