//! Images and contexts that are read once, and runs.

use crate::raw::{self, called, ContextHandle, ImageHandle, MemoryLimit, OutcomeHandle};
use crate::{Budget, Error, Outcome};
use std::cell::RefCell;
use std::io::{self, Write};
use std::sync::{Mutex, MutexGuard, PoisonError};
use std::{fmt, mem};

/// The room for a reason, and for a text that needs no second buffer.
const ROOM: usize = 1024;
/// The room for the bytes of an image that need no second buffer.
const IMAGE_ROOM: usize = 4096;

/// The values of names. It is read once, and stays on its thread:
///
/// ```compile_fail
/// let context = jt::Context::from_json("{}").unwrap();
/// std::thread::spawn(move || drop(context));
/// ```
pub struct Context(RefCell<ContextHandle>);
impl Context {
    /// Reads the text of a JSON object.
    ///
    /// # Errors
    ///
    /// `Refused` if the text is no context, `NoMemory` if a growth is refused.
    ///
    /// ```
    /// assert!(jt::Context::from_json(r#"{"name": "World"}"#).is_ok());
    /// let error = jt::Context::from_json("[1]").unwrap_err();
    /// assert_eq!(error.to_string(), "refused X2 NotObject");
    /// ```
    pub fn from_json(text: impl AsRef<[u8]>) -> Result<Context, Error> {
        let mut handle = ContextHandle::empty();
        called(ROOM, |out| raw::jt_context_load(text.as_ref(), &mut handle, out))?;
        Ok(Context(RefCell::new(handle)))
    }
    /// Serializes a value to a JSON object and reads that. An enum becomes what `serde_json` makes
    /// of it. Floats, whole numbers outside 64 signed bits, and keys that are no texts are refused.
    ///
    /// # Errors
    ///
    /// `Refused` if the value is no context, with the path of what is refused; `NoMemory` if a
    /// growth is refused.
    ///
    /// ```
    /// use std::collections::BTreeMap;
    ///
    /// let prices = BTreeMap::from([("tea", vec![3, 4]), ("cake", vec![])]);
    /// assert!(jt::Context::from_serialize(&prices).is_ok());
    /// let floats = BTreeMap::from([("tea", vec![3.0, 4.5])]);
    /// let error = jt::Context::from_serialize(&floats).unwrap_err();
    /// assert_eq!((error.code(), error.path()), (Some("X3"), Some("tea[0]")));
    /// assert_eq!(error.to_string(), "tea[0]: a float");
    /// ```
    #[cfg(feature = "serde")]
    pub fn from_serialize<T>(value: &T) -> Result<Context, Error>
    where
        T: serde::Serialize + ?Sized,
    {
        Context::from_json(crate::serialize::to_json(value)?)
    }
    /// Uses the handle of the context.
    pub(crate) fn with<T>(&self, call: impl FnOnce(&mut ContextHandle) -> T) -> T {
        call(&mut self.0.borrow_mut())
    }
}
impl fmt::Debug for Context {
    fn fmt(&self, f: &mut fmt::Formatter<'_>) -> fmt::Result {
        f.debug_struct("Context").finish_non_exhaustive()
    }
}

/// A compiled template, verified once. Threads may share it, as in an `Arc`, and run it at the same
/// time.
///
/// ```
/// use jt::{Budget, Context, Options, Template};
///
/// let image = Template::new("t", &[("t", "{{ n }}")], Options::default()).compile()?;
/// std::thread::scope(|scope| {
///     for n in 0..4 {
///         let image = &image;
///         scope.spawn(move || {
///             let context = Context::from_json(format!("{{\"n\": {n}}}")).unwrap();
///             let outcome = image.run(&context, Budget::default()).unwrap();
///             assert_eq!(outcome, jt::Outcome::Text(n.to_string()));
///         });
///     }
/// });
/// # Ok::<(), jt::Error>(())
/// ```
pub struct Image {
    // Each run has a handle of its own, so the lock is held only to share or save this one.
    handle: Mutex<ImageHandle>,
}
impl Image {
    pub(crate) fn of(handle: ImageHandle) -> Image {
        Image { handle: Mutex::new(handle) }
    }
    /// Reads and verifies the bytes of an image. They may come from anyone.
    ///
    /// # Errors
    ///
    /// `Refused` if the bytes are no accepted image, `NoMemory` if a growth is refused.
    ///
    /// ```
    /// use jt::{Image, Options, Template};
    ///
    /// let image = Template::new("t", &[("t", "a")], Options::default()).compile()?;
    /// assert!(Image::from_bytes(image.to_bytes()?).is_ok());
    /// assert!(Image::from_bytes("no image").is_err());
    /// # Ok::<(), jt::Error>(())
    /// ```
    pub fn from_bytes(bytes: impl AsRef<[u8]>) -> Result<Image, Error> {
        let mut handle = ImageHandle::empty();
        called(ROOM, |out| raw::jt_image_load(bytes.as_ref(), &mut handle, out))?;
        Ok(Image::of(handle))
    }
    /// Returns the bytes of the image, for a file.
    ///
    /// # Errors
    ///
    /// `NoMemory` if a growth is refused.
    pub fn to_bytes(&self) -> Result<Vec<u8>, Error> {
        let mut handle = self.lock();
        called(IMAGE_ROOM, |out| raw::jt_image_save(&mut handle, out)).map(|(_, bytes)| bytes)
    }
    /// Returns a second image over the same verified code, without a copy.
    ///
    /// # Errors
    ///
    /// `NoMemory` if a growth is refused.
    ///
    /// ```
    /// let image = jt::Templates::new(&[("t", "a")]).compile("t", jt::Options::default())?;
    /// let other = image.try_clone()?;
    /// std::thread::spawn(move || drop(other)).join().unwrap();
    /// # Ok::<(), jt::Error>(())
    /// ```
    pub fn try_clone(&self) -> Result<Image, Error> {
        self.share().map(Image::of)
    }
    /// Returns a handle of the image for one run.
    pub(crate) fn share(&self) -> Result<ImageHandle, Error> {
        self.lock().share()
    }
    fn lock(&self) -> MutexGuard<'_, ImageHandle> {
        self.handle.lock().unwrap_or_else(PoisonError::into_inner)
    }
    /// Runs the image for a context.
    ///
    /// # Errors
    ///
    /// `NoMemory` if a growth is refused, by the system or by the `memory` of the budget.
    ///
    /// ```
    /// use jt::{Budget, Context, Fault, Options, Outcome, Template};
    ///
    /// let image = Template::new("t", &[("t", "{{ 1 // n }}")], Options::default()).compile()?;
    /// match image.run(&Context::from_json(r#"{"n": 0}"#)?, Budget::default())? {
    ///     Outcome::Fault(fault, Some(place)) => {
    ///         assert_eq!((fault, place.line), (Fault::ZeroDivide, 1))
    ///     }
    ///     _ => unreachable!(),
    /// }
    /// # Ok::<(), jt::Error>(())
    /// ```
    pub fn run(&self, context: &Context, budget: Budget) -> Result<Outcome, Error> {
        let mut image = self.share()?;
        let mut context = context.0.borrow_mut();
        let _limit = (budget.memory != u64::MAX).then(|| MemoryLimit::new(budget.memory));
        let (mut outcome, mut has_run) = (OutcomeHandle::empty(), false);
        called(ROOM, |out| {
            if mem::replace(&mut has_run, true) {
                return raw::jt_outcome_read(&mut outcome, out);
            }
            #[cfg(test)]
            crate::tests::runs();
            raw::jt_image_run(&mut image, &mut context, budget.into(), &mut outcome, out)
        })
        .map(Outcome::of)
    }
    /// Runs the image for a context, and writes the text. Nothing is written without a whole text.
    ///
    /// # Errors
    ///
    /// That of the writer, or an error whose inner error is the [`Error`] of the run.
    ///
    /// ```
    /// use jt::{Budget, Context, Options, Template};
    ///
    /// let image = Template::new("t", &[("t", "{{ n }}")], Options::default()).compile()?;
    /// let context = Context::from_json(r#"{"n": 7}"#)?;
    /// image.run_to(&context, Budget::default(), std::io::stdout())?;
    /// # Ok::<(), Box<dyn std::error::Error>>(())
    /// ```
    pub fn run_to(&self, context: &Context, budget: Budget, mut to: impl Write) -> io::Result<()> {
        to.write_all(self.run(context, budget)?.into_text()?.as_bytes())
    }
}
impl fmt::Debug for Image {
    fn fmt(&self, f: &mut fmt::Formatter<'_>) -> fmt::Result {
        f.debug_struct("Image").finish_non_exhaustive()
    }
}
