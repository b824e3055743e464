//! Jinja templates, compiled and run in a sandbox: safe Rust over the proved library `jt`.
//!
//! 1. [`Templates`] become an [`Image`], once.
//! 2. The image runs for a [`Context`] under a [`Budget`], as often as you like.
//! 3. Each run ends with exactly one [`Outcome`]: a text, a fault of the template with its place,
//!    or the spent number of the budget.
//!
//! ```
//! use jt::{Budget, Context, Options, Templates};
//!
//! let templates = Templates::new(&[("page", "Hello {{ name }}!")]);
//! let page = templates.compile("page", Options::default())?;
//! let context = Context::from_json(r#"{"name": "<World>"}"#)?;
//! let text = page.run(&context, Budget::default())?.into_text()?;
//! assert_eq!(text, "Hello &lt;World&gt;!");
//! # Ok::<(), jt::Error>(())
//! ```
//!
//! Threads may share an image; a context stays on its thread. Make no call in the forked child of a
//! process with threads. A call takes less than 256 KiB of the stack; threads of the standard
//! library have 2 MiB.
//!
//! The crate links `libjt_ffi.a`: from the folder in the variable `JT_LIBRARY_DIR`, else from the
//! checkout around it, else from where `pkg-config` finds `jt`. It is for x86-64 Linux with glibc.
//!
//! With the feature `serde` a context is made from what serde serializes, by
//! `Context::from_serialize`.

#![warn(missing_docs)]
#![deny(unsafe_code)]

mod each;
mod error;
mod image;
mod needs;
mod outcome;
#[allow(unsafe_code)]
mod raw;
mod run;
#[cfg(feature = "serde")]
mod serialize;
mod templates;
#[cfg(test)]
mod tests;

/// Returns the version of the linked library. It ends in `-unproved` if the library was built
/// without a proof, by `bindings/unproved.py`, which is only for trials.
///
/// ```
/// assert!(jt::version().starts_with(env!("CARGO_PKG_VERSION")));
/// ```
pub fn version() -> String {
    let told = raw::called(32, raw::jt_version).map(|(_, text)| text).unwrap_or_default();
    String::from_utf8_lossy(&told).into_owned()
}

pub use each::RunEach;
pub use error::{Error, Refusal};
pub use image::{Context, Image};
pub use needs::Needs;
pub use outcome::{Budget, Fault, Outcome, Place, Spent};
pub use run::{Progress, Run, Used};
pub use templates::{Options, Template, Templates};
