//! Values as JSON has them, and their text.

use std::fmt;

/// A value of data, of an extra or of an attribute. The engine has whole numbers of 64 bits alone; what has a fraction goes
/// as a text.
#[derive(Clone, Debug, Default, PartialEq)]
pub enum Value {
    /// Nothing, by which [`Scope`](crate::Scope) removes an entry.
    #[default]
    Null,
    /// True or false.
    Bool(bool),
    /// A whole number, of those that an `i64` or a `u64` has.
    Number(Number),
    /// A text.
    String(String),
    /// A list.
    Array(Vec<Value>),
    /// Values by name.
    Object(Map),
}

/// A whole number of 64 bits, with or without a sign.
#[derive(Clone, Copy, Debug, PartialEq, Eq)]
pub struct Number(i128);

/// Values by name, in the order in which the names were set first.
#[derive(Clone, Debug, Default, PartialEq)]
pub struct Map(Vec<(String, Value)>);

impl Map {
    /// A map without entries.
    pub fn new() -> Map {
        Map::default()
    }

    /// Sets the value of a name.
    pub fn insert(&mut self, name: impl Into<String>, value: impl Into<Value>) {
        let (name, value) = (name.into(), value.into());
        match self.0.iter_mut().find(|it| it.0 == name) {
            Some(found) => found.1 = value,
            None => self.0.push((name, value)),
        }
    }

    /// The value of a name.
    pub fn get(&self, name: &str) -> Option<&Value> {
        self.0.iter().find(|it| it.0 == name).map(|it| &it.1)
    }

    /// Whether there is no entry.
    pub fn is_empty(&self) -> bool {
        self.0.is_empty()
    }

    /// Names and values in order.
    pub fn iter(&self) -> impl Iterator<Item = (&str, &Value)> {
        self.0.iter().map(|(name, value)| (name.as_str(), value))
    }

    /// Sets the value of a name, if there is one.
    pub(crate) fn insert_some<T: Into<Value>>(&mut self, name: &str, value: Option<T>) {
        if let Some(value) = value {
            self.insert(name, value);
        }
    }

    /// Sets the values of a name, if there are some.
    pub(crate) fn insert_filled(&mut self, name: &str, value: impl Into<Value>) {
        match value.into() {
            Value::Array(items) if items.is_empty() => {}
            Value::Object(map) if map.is_empty() => {}
            value => self.insert(name, value),
        }
    }
}

impl<N: Into<String>, V: Into<Value>> FromIterator<(N, V)> for Map {
    fn from_iter<I: IntoIterator<Item = (N, V)>>(entries: I) -> Map {
        let mut map = Map::new();
        for (name, value) in entries {
            map.insert(name, value);
        }
        map
    }
}

impl<N: Into<String>, V: Into<Value>, const COUNT: usize> From<[(N, V); COUNT]> for Map {
    fn from(entries: [(N, V); COUNT]) -> Map {
        entries.into_iter().collect()
    }
}

macro_rules! from_numbers {
    ($($number:ty)*) => {$(
        impl From<$number> for Value {
            fn from(number: $number) -> Value {
                Value::Number(Number(number as i128))
            }
        }
    )*};
}

from_numbers! { i8 i16 i32 i64 isize u8 u16 u32 u64 usize }

impl From<bool> for Value {
    fn from(flag: bool) -> Value {
        Value::Bool(flag)
    }
}

impl From<&str> for Value {
    fn from(text: &str) -> Value {
        Value::String(text.into())
    }
}

impl From<String> for Value {
    fn from(text: String) -> Value {
        Value::String(text)
    }
}

impl From<Map> for Value {
    fn from(map: Map) -> Value {
        Value::Object(map)
    }
}

impl<T: Into<Value>> From<Vec<T>> for Value {
    fn from(items: Vec<T>) -> Value {
        Value::Array(items.into_iter().map(Into::into).collect())
    }
}

impl<T: Into<Value>> From<Option<T>> for Value {
    fn from(value: Option<T>) -> Value {
        value.map_or(Value::Null, Into::into)
    }
}

/// A text as JSON has it.
struct Quoted<'a>(&'a str);

impl fmt::Display for Quoted<'_> {
    fn fmt(&self, f: &mut fmt::Formatter<'_>) -> fmt::Result {
        f.write_str("\"")?;
        for it in self.0.chars() {
            match it {
                '"' => f.write_str("\\\"")?,
                '\\' => f.write_str("\\\\")?,
                '\0'..='\u{1f}' => write!(f, "\\u{:04x}", it as u32)?,
                it => write!(f, "{it}")?,
            }
        }
        f.write_str("\"")
    }
}

/// Items between brackets, with commas.
fn write_all<T>(
    f: &mut fmt::Formatter<'_>,
    brackets: [&str; 2],
    items: &[T],
    write: impl Fn(&mut fmt::Formatter<'_>, &T) -> fmt::Result,
) -> fmt::Result {
    f.write_str(brackets[0])?;
    for (place, item) in items.iter().enumerate() {
        if place > 0 {
            f.write_str(",")?;
        }
        write(f, item)?;
    }
    f.write_str(brackets[1])
}

/// As JSON.
impl fmt::Display for Map {
    fn fmt(&self, f: &mut fmt::Formatter<'_>) -> fmt::Result {
        write_all(f, ["{", "}"], &self.0, |f, (name, value)| write!(f, "{}:{value}", Quoted(name)))
    }
}

/// As JSON.
impl fmt::Display for Value {
    fn fmt(&self, f: &mut fmt::Formatter<'_>) -> fmt::Result {
        match self {
            Value::Null => f.write_str("null"),
            Value::Bool(flag) => write!(f, "{flag}"),
            Value::Number(number) => write!(f, "{}", number.0),
            Value::String(text) => write!(f, "{}", Quoted(text)),
            Value::Array(items) => write_all(f, ["[", "]"], items, |f, it| write!(f, "{it}")),
            Value::Object(map) => write!(f, "{map}"),
        }
    }
}

#[cfg(test)]
mod tests {
    use super::{Map, Value};

    #[test]
    fn values_are_json() {
        let map =
            Map::from([("a\"\\\n", Value::from(u64::MAX)), ("b", vec![Value::Null, (-3).into(), true.into()].into())]);
        assert_eq!(map.to_string(), r#"{"a\"\\\u000a":18446744073709551615,"b":[null,-3,true]}"#);
    }

    #[test]
    fn a_name_has_one_value() {
        let mut map = Map::new();
        map.insert("a", 1);
        map.insert("b", 2);
        map.insert("a", 3);
        assert_eq!(map.to_string(), r#"{"a":3,"b":2}"#);
        assert_eq!(map.get("a"), Some(&Value::from(3)));
        assert_eq!(map.iter().map(|it| it.0).collect::<Vec<_>>(), ["a", "b"]);
    }
}
