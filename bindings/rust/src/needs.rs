//! What a template depends on.

/// What the image of a template depends on. Each list is in ascending order.
///
/// While the sources of `templates` stay the same and those of `missing` do not exist, the image
/// stays the same. While the values of `names` stay the same too, so does its text.
#[derive(Clone, Debug, Default, PartialEq, Eq)]
#[non_exhaustive]
pub struct Needs {
    /// The names of a context that the image reads, those that its templates set too.
    pub names: Vec<String>,
    /// The templates that the image is made of: the template itself, and all that it extends,
    /// includes and imports, also through others.
    pub templates: Vec<String>,
    /// The templates that an `include` names and that do not exist.
    pub missing: Vec<String>,
}
impl Needs {
    /// Reads the lines of `jt_library_needs`.
    pub(crate) fn read(lines: &str) -> Needs {
        let mut needs = Needs::default();
        for line in lines.split_terminator('\n') {
            let (kind, name) = line.split_once(' ').unwrap_or((line, ""));
            let names = match kind {
                "name" => &mut needs.names,
                "template" => &mut needs.templates,
                _ => &mut needs.missing,
            };
            names.push(name.to_string());
        }
        needs
    }
}
