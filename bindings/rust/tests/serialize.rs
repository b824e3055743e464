//! Tests contexts that serde serializes.

use jt::{Budget, Context, Error, Options, Outcome, Template};
use serde::ser::{Serialize, SerializeStruct, SerializeStructVariant, SerializeTupleVariant};
use std::collections::BTreeMap;

fn rendered<T: Serialize + ?Sized>(source: &str, value: &T) -> Result<Outcome, Error> {
    let context = Context::from_serialize(value)?;
    Template::new("t", &[("t", source)], Options::default()).render(&context, Budget::default())
}

/// A map with one value.
fn of<T>(value: T) -> BTreeMap<&'static str, T> {
    BTreeMap::from([("a", value)])
}

/// A value with a name and a weight, as `derive(Serialize)` writes it.
struct Weighed<T>(&'static str, T);
impl<T: Serialize> Serialize for Weighed<T> {
    fn serialize<S: serde::Serializer>(&self, serializer: S) -> Result<S::Ok, S::Error> {
        let mut fields = serializer.serialize_struct("Weighed", 2)?;
        fields.serialize_field("name", self.0)?;
        fields.serialize_field("weight", &self.1)?;
        fields.end()
    }
}

/// An enum, as `derive(Serialize)` writes it.
enum Shape<T> {
    Point,
    Circle(T),
    Box(T, T),
    Named { side: T },
}
impl<T: Serialize> Serialize for Shape<T> {
    fn serialize<S: serde::Serializer>(&self, serializer: S) -> Result<S::Ok, S::Error> {
        match self {
            Shape::Point => serializer.serialize_unit_variant("Shape", 0, "Point"),
            Shape::Circle(radius) => {
                serializer.serialize_newtype_variant("Shape", 1, "Circle", radius)
            }
            Shape::Box(width, height) => {
                let mut parts = serializer.serialize_tuple_variant("Shape", 2, "Box", 2)?;
                parts.serialize_field(width)?;
                parts.serialize_field(height)?;
                parts.end()
            }
            Shape::Named { side } => {
                let mut parts = serializer.serialize_struct_variant("Shape", 3, "Named", 1)?;
                parts.serialize_field("side", side)?;
                parts.end()
            }
        }
    }
}

#[test]
fn each_kind_has_its_value() {
    let text = |source, wanted: &str, outcome: Result<Outcome, Error>| {
        assert_eq!(outcome, Ok(Outcome::Text(wanted.into())), "{source}");
    };
    let print = "{{ a }}";
    text(print, "&lt;&#34;\\\n\u{1}é&gt;", rendered(print, &of("<\"\\\n\u{1}é>")));
    text(print, "x", rendered(print, &of('x')));
    text(print, "True", rendered(print, &of(true)));
    text(print, "-128", rendered(print, &of(i8::MIN)));
    text(print, "-9223372036854775808", rendered(print, &of(i64::MIN)));
    text(print, "9223372036854775807", rendered(print, &of(i64::MAX as u64)));
    text(print, "7", rendered(print, &of(7_u128)));
    text(print, "7", rendered(print, &of(Some(7))));
    text(print, "None", rendered(print, &of(None::<i32>)));
    text(print, "None", rendered(print, &of(())));
    text(print, "Point", rendered(print, &of(Shape::<i32>::Point)));
    for (source, wanted, shape) in [
        ("{{ a.Circle }}", "1", Shape::Circle(1)),
        ("{{ a.Box[1] }}", "2", Shape::Box(1, 2)),
        ("{{ a.Named.side }}", "3", Shape::Named { side: 3 }),
    ] {
        text(source, wanted, rendered(source, &of(shape)));
    }
    let item = "{{ name }} {{ weight[0] }} {{ weight[1]['b c'] }} {{ weight[2]|length }}";
    let value = Weighed("tea", (1, BTreeMap::from([("b c", 2)]), Vec::<i32>::new()));
    text(item, "tea 1 2 0", rendered(item, &value));
    text("{{ x }}", "1", rendered("{{ x }}", &BTreeMap::from([('x', 1)])));
}

#[test]
fn what_is_refused_has_its_path() {
    let refused = |result: Result<Outcome, Error>, code: &str, wanted: &str| {
        let error = result.unwrap_err();
        assert_eq!((error.code(), &*error.to_string()), (Some(code), wanted));
        let path = wanted.split_once(": ").map(|(path, _)| path);
        assert_eq!((error.path(), error.line(), error.template()), (path, None, None));
    };
    let lines = vec![Weighed("a", Some(1.5)), Weighed("b", None)];
    refused(rendered("", &of(lines)), "X3", "a[0].weight: a float");
    refused(rendered("", &of(f32::NAN)), "X3", "a: a float (NaN)");
    refused(rendered("", &of([0, u64::MAX])), "X4", "a[1]: an integer of more than 64 bits");
    refused(rendered("", &of(i128::MIN)), "X4", "a: an integer of more than 64 bits");
    refused(rendered("", &of(Shape::Box(1.0, 2.0))), "X3", "a.Box[0]: a float");
    refused(rendered("", &of(Shape::Circle(1.0))), "X3", "a.Circle: a float");
    refused(rendered("", &of(Shape::Named { side: 1.0 })), "X3", "a.Named.side: a float");
    refused(rendered("", &of(BTreeMap::from([(1, 2)]))), "X1", "a: a key that is no text: 1");
    refused(rendered("", &BTreeMap::from([("b\t\"c", 1.5)])), "X3", r#"["b\u0009\"c"]: a float"#);
    refused(rendered("", &1.5), "X3", "the context: a float");
    let error = rendered("", &[1]).unwrap_err();
    assert_eq!((error.code(), error.path()), (Some("X2"), None));
}

/// A list in a list, to a depth.
struct Nested(usize);
impl Serialize for Nested {
    fn serialize<S: serde::Serializer>(&self, serializer: S) -> Result<S::Ok, S::Error> {
        match self.0 {
            0 => serializer.collect_seq([0; 0]),
            depth => serializer.collect_seq([Nested(depth - 1)]),
        }
    }
}

#[test]
fn the_deepest_nesting_is_that_of_the_library() {
    assert_eq!(rendered("", &of(Nested(125))), Ok(Outcome::Text(String::new())));
    let error = rendered("", &of(Nested(126))).unwrap_err();
    let wanted = format!("a{}...: nested deeper than 127 levels", "[0]".repeat(15));
    assert_eq!((error.code(), error.to_string()), (Some("X1"), wanted));
}
