//! Sources, and their compilation to images.

use crate::raw::{
    called, jt_library_compile, jt_library_explain, jt_library_load, jt_library_needs, ImageHandle,
    LibraryHandle,
};
use crate::{Budget, Context, Error, Image, Needs, Outcome};
use std::path::Path;
use std::sync::{Mutex, PoisonError};
use std::{fmt, fs, io};

/// The room for a reason.
const ROOM: usize = 256;
/// The room for an explanation, and for needs, that takes no second buffer.
const LINES_ROOM: usize = 1024;

/// How templates are read. By default escaping is on and everything else is off.
#[derive(Clone, Copy, Debug, PartialEq, Eq)]
#[repr(C)]
pub struct Options {
    /// Drops a line end directly after a block tag.
    pub trim_blocks: bool,
    /// Drops spaces and tabs from the start of a line to a block tag.
    pub lstrip_blocks: bool,
    /// Keeps a line end at the end of a source.
    pub keep_trailing_newline: bool,
    /// Escapes printed values for HTML.
    pub autoescape: bool,
    /// Makes an undefined value a fault where it is printed, iterated over, joined by `~`, or the
    /// input of a filter other than `default`.
    pub strict: bool,
}
impl Default for Options {
    fn default() -> Options {
        let [trim_blocks, lstrip_blocks, keep_trailing_newline, strict] = [false; 4];
        Options { trim_blocks, lstrip_blocks, keep_trailing_newline, autoescape: true, strict }
    }
}

/// Sources by name. They are read once, when the first template is compiled, and all templates are
/// compiled from them. Threads may share them.
///
/// ```
/// use jt::{Budget, Context, Options, Templates};
///
/// let mut templates = Templates::new(&[("base", "<p>{% block body %}{% endblock %}</p>")]);
/// templates.add("page", "{% extends 'base' %}{% block body %}{{ n }}{% endblock %}");
/// let page = templates.compile("page", Options::default())?;
/// let text = page.run(&Context::from_json(r#"{"n": 7}"#)?, Budget::default())?.into_text()?;
/// assert_eq!(text, "<p>7</p>");
/// # Ok::<(), jt::Error>(())
/// ```
#[derive(Default)]
pub struct Templates {
    texts: Vec<u8>,
    lengths: Vec<[u64; 2]>,
    // Each compilation has a handle of its own: the lock is held only to fill or share this one.
    library: Mutex<Option<LibraryHandle>>,
}
impl Templates {
    /// Returns the templates with these names and sources.
    pub fn new(sources: &[(&str, &str)]) -> Templates {
        let mut templates = Templates::default();
        for (name, source) in sources {
            templates.add(name, source);
        }
        templates
    }
    /// Reads all files of a folder and of the folders in it. The name of a template is its path
    /// from the folder, with `/` between the parts. Links, and files that are not UTF-8, are no
    /// templates.
    ///
    /// # Errors
    ///
    /// That of a folder or a file that cannot be read.
    ///
    /// ```no_run
    /// let templates = jt::Templates::from_folder("templates")?;
    /// let page = templates.compile("mail/letter.html", jt::Options::default())?;
    /// # Ok::<(), Box<dyn std::error::Error>>(())
    /// ```
    pub fn from_folder(folder: impl AsRef<Path>) -> io::Result<Templates> {
        let mut templates = Templates::default();
        templates.add_folder(folder.as_ref(), "")?;
        Ok(templates)
    }
    fn add_folder(&mut self, folder: &Path, prefix: &str) -> io::Result<()> {
        for entry in fs::read_dir(folder)? {
            let entry = entry?;
            let kind = entry.file_type()?;
            let name = match entry.file_name().into_string() {
                Ok(name) => format!("{prefix}{name}"),
                Err(_) => continue,
            };
            if kind.is_dir() {
                self.add_folder(&entry.path(), &format!("{name}/"))?;
            } else if kind.is_file() {
                if let Ok(source) = String::from_utf8(fs::read(entry.path())?) {
                    self.add(&name, &source);
                }
            }
        }
        Ok(())
    }
    /// Adds a source. It replaces an earlier one of the same name.
    pub fn add(&mut self, name: &str, source: &str) {
        self.texts.extend_from_slice(name.as_bytes());
        self.texts.extend_from_slice(source.as_bytes());
        self.lengths.push([name.len() as u64, source.len() as u64]);
        *self.library.get_mut().unwrap_or_else(PoisonError::into_inner) = None;
    }
    /// Compiles a template with all that it extends, includes and imports.
    ///
    /// # Errors
    ///
    /// `Refused` if the templates are refused, `NoMemory` if a growth is.
    pub fn compile(&self, entry: &str, options: Options) -> Result<Image, Error> {
        let (mut library, mut image) = (self.library()?, ImageHandle::empty());
        #[cfg(test)]
        crate::tests::compiles();
        let compiled = called(ROOM, |out| {
            jt_library_compile(&mut library, entry.as_bytes(), options, &mut image, out)
        });
        match compiled {
            Ok(_) => Ok(Image::of(image)),
            Err(error) => Err(explained(&mut library, entry, options, error)),
        }
    }
    /// Returns what the image of a template depends on. The template is compiled for that.
    ///
    /// # Errors
    ///
    /// `Refused` if the templates are refused, `NoMemory` if a growth is.
    ///
    /// ```
    /// use jt::{Options, Templates};
    ///
    /// let templates = Templates::new(&[
    ///     ("page", "{{ title }}{% include 'foot' %}{% include 'ad' ignore missing %}"),
    ///     ("foot", "{{ year }}"),
    ///     ("other", "{{ x }}"),
    /// ]);
    /// let needs = templates.needs("page", Options::default())?;
    /// assert_eq!(needs.names, ["title", "year"]);
    /// assert_eq!(needs.templates, ["foot", "page"]);
    /// assert_eq!(needs.missing, ["ad"]);
    /// # Ok::<(), jt::Error>(())
    /// ```
    pub fn needs(&self, entry: &str, options: Options) -> Result<Needs, Error> {
        let mut library = self.library()?;
        match called(LINES_ROOM, |out| {
            jt_library_needs(&mut library, entry.as_bytes(), options, out)
        }) {
            Ok((_, lines)) => Ok(Needs::read(&String::from_utf8_lossy(&lines))),
            Err(error) => Err(explained(&mut library, entry, options, error)),
        }
    }
    /// Returns a handle of the library of the sources, which are read if that is the first one.
    fn library(&self) -> Result<LibraryHandle, Error> {
        let mut first = self.library.lock().unwrap_or_else(PoisonError::into_inner);
        if let Some(handle) = first.as_mut() {
            return handle.share();
        }
        let mut handle = LibraryHandle::empty();
        called(ROOM, |out| jt_library_load(&self.texts, &self.lengths, &mut handle, out))?;
        first.insert(handle).share()
    }
}
/// Adds to the refusal of a template what its author has to know. Without memory nothing is added.
fn explained(library: &mut LibraryHandle, entry: &str, options: Options, refusal: Error) -> Error {
    if refusal == Error::NoMemory {
        return refusal;
    }
    match called(LINES_ROOM, |out| jt_library_explain(library, entry.as_bytes(), options, out)) {
        Ok((answer, lines)) => {
            refusal.explained(String::from_utf8_lossy(&lines).into_owned(), answer.line)
        }
        Err(_) => refusal,
    }
}

impl Clone for Templates {
    fn clone(&self) -> Templates {
        Templates {
            texts: self.texts.clone(),
            lengths: self.lengths.clone(),
            library: Mutex::new(self.library().ok()),
        }
    }
}
impl fmt::Debug for Templates {
    fn fmt(&self, f: &mut fmt::Formatter<'_>) -> fmt::Result {
        f.debug_struct("Templates").field("count", &self.lengths.len()).finish_non_exhaustive()
    }
}

/// A template, with the sources of all that it reaches.
#[derive(Clone, Debug)]
pub struct Template {
    templates: Templates,
    entry: String,
    options: Options,
}
impl Template {
    /// Returns the template `entry` of these names and sources.
    pub fn new(entry: &str, sources: &[(&str, &str)], options: Options) -> Template {
        Template { templates: Templates::new(sources), entry: entry.into(), options }
    }
    /// Compiles the template, for many runs.
    ///
    /// # Errors
    ///
    /// `Refused` if the templates are refused, `NoMemory` if a growth is.
    pub fn compile(&self) -> Result<Image, Error> {
        self.templates.compile(&self.entry, self.options)
    }
    /// Returns what the image of the template depends on. The template is compiled for that.
    ///
    /// # Errors
    ///
    /// `Refused` if the templates are refused, `NoMemory` if a growth is.
    pub fn needs(&self) -> Result<Needs, Error> {
        self.templates.needs(&self.entry, self.options)
    }
    /// Compiles the template and runs it once.
    ///
    /// # Errors
    ///
    /// `Refused` if the templates are refused, `NoMemory` if a growth is.
    ///
    /// ```
    /// let page = jt::Template::new("page", &[("page", "{{ n }}")], jt::Options::default());
    /// let context = jt::Context::from_json(r#"{"n": "<"}"#)?;
    /// let outcome = page.render(&context, jt::Budget::default())?;
    /// assert_eq!(outcome, jt::Outcome::Text("&lt;".into()));
    /// # Ok::<(), jt::Error>(())
    /// ```
    pub fn render(&self, context: &Context, budget: Budget) -> Result<Outcome, Error> {
        self.compile()?.run(context, budget)
    }
}
