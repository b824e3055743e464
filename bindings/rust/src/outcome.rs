//! What a run may use, and how it ends.

use crate::raw::Answer;
use crate::Error;
use std::fmt;

/// What a run may use. The default is that of the program `jt`.
///
/// ```
/// let strict = jt::Budget { fuel: 10_000, output: 4096, ..jt::Budget::default() };
/// ```
#[derive(Clone, Copy, Debug, PartialEq, Eq)]
pub struct Budget {
    /// The sum of the costs of the instructions.
    pub fuel: u64,
    /// The number of written bytes, those of kept texts included.
    pub output: u64,
    /// The number of open calls.
    pub depth: u32,
    /// The size of each value.
    pub size: u32,
    /// The nesting of each value.
    pub nesting: u8,
    /// The bytes of memory that the library holds for the run, by default without a bound. A run
    /// that needs more ends with [`Error::NoMemory`]. The text that is returned does not count.
    ///
    /// ```
    /// use jt::{Budget, Context, Error, Templates};
    ///
    /// let lists = Templates::new(&[("t", "{% set a = range(60000)|map('abs') %}")]);
    /// let image = lists.compile("t", jt::Options::default())?;
    /// let few = Budget { memory: 100_000, ..Budget::default() };
    /// let outcome = image.run(&Context::from_json("{}")?, few);
    /// assert_eq!(outcome, Err(Error::NoMemory));
    /// # Ok::<(), Error>(())
    /// ```
    pub memory: u64,
}
impl Default for Budget {
    fn default() -> Budget {
        Budget {
            fuel: 1_000_000,
            output: 1_048_576,
            depth: 64,
            size: 1_048_576,
            nesting: 32,
            memory: u64::MAX,
        }
    }
}

/// How a run ends.
#[derive(Clone, Debug, PartialEq, Eq)]
#[must_use]
pub enum Outcome {
    /// The whole text.
    Text(String),
    /// A fault of the template with its place, if the image has places.
    Fault(Fault, Option<Place>),
    /// The number of the budget that did not suffice.
    Spent(Spent),
}
impl Outcome {
    /// Returns the text.
    ///
    /// # Errors
    ///
    /// `Fault` and `Spent` if the run ended so.
    ///
    /// ```
    /// use jt::{Budget, Context, Error, Options, Spent, Template};
    ///
    /// let template = Template::new("t", &[("t", "a")], Options::default());
    /// let context = Context::from_json("{}")?;
    /// assert_eq!(template.render(&context, Budget::default())?.into_text()?, "a");
    /// let none = Budget { fuel: 0, ..Budget::default() };
    /// let spent = template.render(&context, none)?.into_text();
    /// assert_eq!(spent, Err(Error::Spent(Spent::Fuel)));
    /// # Ok::<(), Error>(())
    /// ```
    pub fn into_text(self) -> Result<String, Error> {
        match self {
            Outcome::Text(text) => Ok(text),
            Outcome::Fault(fault, place) => Err(Error::Fault(fault, place)),
            Outcome::Spent(spent) => Err(Error::Spent(spent)),
        }
    }
    /// Returns the outcome of a run from its answer and what it reports.
    pub(crate) fn of((answer, reported): (Answer, Vec<u8>)) -> Outcome {
        let text = String::from_utf8(reported).expect("the library reports UTF-8");
        let place = (answer.line != 0).then(|| Place { template: text.clone(), line: answer.line });
        match answer.status {
            0 => Outcome::Text(text),
            1 => Outcome::Fault(Fault::numbered(answer.code), place),
            _ => Outcome::Spent(Spent::numbered(answer.code)),
        }
    }
}

/// The place of a tag.
#[derive(Clone, Debug, PartialEq, Eq)]
pub struct Place {
    /// The name of the template.
    pub template: String,
    /// The line in the template, counted from 1.
    pub line: u32,
}
impl fmt::Display for Place {
    fn fmt(&self, f: &mut fmt::Formatter<'_>) -> fmt::Result {
        write!(f, "in {} line {}", self.template, self.line)
    }
}

/// Declares an enum whose variants the library numbers from 1.
macro_rules! numbered {
    ($(#[$type_doc:meta])* $type:ident { $($(#[$doc:meta])* $name:ident,)+ }) => {
        $(#[$type_doc])*
        #[derive(Clone, Copy, Debug, PartialEq, Eq, Hash)]
        pub enum $type { $($(#[$doc])* $name,)+ }
        impl $type {
            /// Returns the name of the variant.
            pub fn name(self) -> &'static str {
                match self { $($type::$name => stringify!($name),)+ }
            }
            /// Returns the number of the variant, counted from 1.
            pub fn number(self) -> u32 {
                self as u32 + 1
            }
            fn numbered(number: u32) -> $type {
                let all = [$($type::$name,)+];
                all.into_iter().find(|it| it.number() == number).expect("a number of this version")
            }
        }
    };
}
numbered! {
    /// A fault of a template. It is displayed with its code, as `F2 Undefined`.
    ///
    /// ```
    /// assert_eq!(jt::Fault::Undefined.to_string(), "F2 Undefined");
    /// assert_eq!((jt::Fault::Undefined.number(), jt::Fault::Undefined.name()), (2, "Undefined"));
    /// ```
    Fault {
        /// A value of a kind that an operator, a filter or a test does not take.
        BadType,
        /// An undefined value that is needed.
        Undefined,
        /// A number outside 64 signed bits.
        Overflow,
        /// A division by 0.
        ZeroDivide,
        /// A list or a map that is printed or joined.
        Unprintable,
        /// A value that has no items.
        NotIterable,
        /// A number of items that is not the number of targets.
        Unpack,
        /// A range with a step of 0.
        Range,
        /// An argument of a kind that a filter does not take.
        BadArgument,
    }
}
impl Fault {
    /// Returns the code, as `F2`.
    pub fn code(self) -> &'static str {
        ["F1", "F2", "F3", "F4", "F5", "F6", "F7", "F8", "F9"][self as usize]
    }
}
impl fmt::Display for Fault {
    fn fmt(&self, f: &mut fmt::Formatter<'_>) -> fmt::Result {
        write!(f, "{} {}", self.code(), self.name())
    }
}
numbered! {
    /// A number of a [`Budget`].
    ///
    /// ```
    /// assert_eq!(jt::Spent::Fuel.to_string(), "Fuel");
    /// ```
    Spent {
        /// `fuel` of the budget.
        Fuel,
        /// `depth` of the budget.
        Depth,
        /// `output` of the budget.
        Output,
        /// `size` of the budget.
        Size,
        /// `nesting` of the budget.
        Nesting,
    }
}
impl fmt::Display for Spent {
    fn fmt(&self, f: &mut fmt::Formatter<'_>) -> fmt::Result {
        f.write_str(self.name())
    }
}
