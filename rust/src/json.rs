//! JSON as the cases of `tests/cases` and the requests of the command have it: whole numbers, no blanks between the parts,
//! and texts with no escape but `\n`. What is asked for and is not there is a mistake of whoever wrote the line, and ends
//! the program.

use std::collections::BTreeMap;
use std::fmt;

/// A value. An object's entries stand by rising name.
#[derive(Clone, Debug, PartialEq)]
pub enum Json {
    Null,
    Bool(bool),
    Number(u64),
    Text(String),
    List(Vec<Json>),
    Object(BTreeMap<String, Json>),
}

/// What is left to be read of a line without blanks between its parts.
struct Reader<'a>(&'a str);

impl Reader<'_> {
    /// Whether the rest begins so; then that is read.
    fn takes(&mut self, text: &str) -> bool {
        let rest = self.0.strip_prefix(text);
        self.0 = rest.unwrap_or(self.0);
        rest.is_some()
    }

    fn value(&mut self) -> Json {
        if self.takes("{") {
            let mut entries = BTreeMap::new();
            self.list("}", |reader| {
                let Json::Text(name) = reader.value() else { panic!("no name before {}", reader.0) };
                assert!(reader.takes(":"), "no value before {}", reader.0);
                entries.insert(name, reader.value());
            });
            Json::Object(entries)
        } else if self.takes("[") {
            let mut entries = Vec::new();
            self.list("]", |reader| entries.push(reader.value()));
            Json::List(entries)
        } else if self.takes("\"") {
            let (text, rest) = self.0.split_once('"').expect("a text ends");
            self.0 = rest;
            Json::Text(text.replace("\\n", "\n"))
        } else if self.takes("null") {
            Json::Null
        } else if self.takes("true") {
            Json::Bool(true)
        } else if self.takes("false") {
            Json::Bool(false)
        } else {
            let digits = self.0.find(|c: char| !c.is_ascii_digit()).unwrap_or(self.0.len());
            let (number, rest) = self.0.split_at(digits);
            self.0 = rest;
            Json::Number(number.parse().unwrap_or_else(|_| panic!("no value before {rest}")))
        }
    }

    /// Reads entries with commas between them, up to the end mark.
    fn list(&mut self, end: &str, mut entry: impl FnMut(&mut Self)) {
        while !self.takes(end) {
            entry(self);
            assert!(self.takes(",") || self.0.starts_with(end), "no end before {}", self.0);
        }
    }
}

impl Json {
    /// An object with these entries.
    pub fn object<'a>(entries: impl IntoIterator<Item = (&'a str, Json)>) -> Json {
        Json::Object(entries.into_iter().map(|(name, value)| (name.to_string(), value)).collect())
    }

    /// A text.
    pub fn of_text(text: impl Into<String>) -> Json {
        Json::Text(text.into())
    }

    /// Bytes as a text in hex.
    pub fn of_bytes(bytes: &[u8]) -> Json {
        Json::Text(bytes.iter().map(|byte| format!("{byte:02x}")).collect())
    }

    /// A list of numbers.
    pub fn of_numbers<T: Into<u64>>(numbers: impl IntoIterator<Item = T>) -> Json {
        Json::List(numbers.into_iter().map(|number| Json::Number(number.into())).collect())
    }

    /// The value that a line holds.
    pub fn read(line: &str) -> Json {
        let mut reader = Reader(line);
        let value = reader.value();
        assert_eq!(reader.0, "");
        value
    }

    pub fn get(&self, name: &str) -> Option<&Json> {
        let Json::Object(entries) = self else { panic!("no object: {self:?}") };
        entries.get(name)
    }

    pub fn number(&self, name: &str) -> u64 {
        let Some(Json::Number(number)) = self.get(name) else { panic!("no number {name}") };
        *number
    }

    /// A number of a smaller type.
    pub fn number_as<T: TryFrom<u64>>(&self, name: &str) -> T {
        let number = self.number(name);
        T::try_from(number).unwrap_or_else(|_| panic!("{name} is {number}, too large for its type"))
    }

    pub fn is(&self, name: &str) -> bool {
        let Some(Json::Bool(value)) = self.get(name) else { panic!("no truth value {name}") };
        *value
    }

    pub fn text(&self, name: &str) -> &str {
        let Some(Json::Text(text)) = self.get(name) else { panic!("no text {name}") };
        text
    }

    pub fn bytes(&self, name: &str) -> Vec<u8> {
        self.get(name).expect(name).as_bytes()
    }

    /// The bytes that a text gives in hex.
    pub fn as_bytes(&self) -> Vec<u8> {
        let Json::Text(hex) = self else { panic!("no text: {self:?}") };
        let byte = |at: usize| u8::from_str_radix(&hex[at..at + 2], 16).expect("a byte in hex");
        (0..hex.len()).step_by(2).map(byte).collect()
    }

    pub fn list(&self, name: &str) -> &[Json] {
        let Some(Json::List(entries)) = self.get(name) else { panic!("no list {name}") };
        entries
    }

    pub fn numbers<T: TryFrom<u64>>(&self, name: &str) -> Vec<T> {
        self.get(name).expect(name).as_numbers()
    }

    /// The entries of a list of numbers.
    pub fn as_numbers<T: TryFrom<u64>>(&self) -> Vec<T> {
        let Json::List(entries) = self else { panic!("no list: {self:?}") };
        let number = |entry: &Json| match entry {
            Json::Number(number) => T::try_from(*number).ok(),
            _ => None,
        };
        entries.iter().map(|entry| number(entry).expect("a number of the call's type")).collect()
    }

    /// The object with another value under a name.
    pub fn with(mut self, name: &str, value: Json) -> Json {
        let Json::Object(entries) = &mut self else { panic!("no object: {self:?}") };
        entries.insert(name.to_string(), value);
        self
    }

    /// The object with no value under a name.
    pub fn without(mut self, name: &str) -> Json {
        let Json::Object(entries) = &mut self else { panic!("no object: {self:?}") };
        entries.remove(name);
        self
    }
}

/// One line, no blanks between the parts.
impl fmt::Display for Json {
    fn fmt(&self, f: &mut fmt::Formatter<'_>) -> fmt::Result {
        match self {
            Json::Null => f.write_str("null"),
            Json::Bool(value) => write!(f, "{value}"),
            Json::Number(number) => write!(f, "{number}"),
            Json::Text(text) => put_text(f, text),
            Json::List(entries) => {
                f.write_str("[")?;
                for (index, entry) in entries.iter().enumerate() {
                    write!(f, "{}{entry}", if index > 0 { "," } else { "" })?;
                }
                f.write_str("]")
            }
            Json::Object(entries) => {
                f.write_str("{")?;
                for (index, (name, value)) in entries.iter().enumerate() {
                    f.write_str(if index > 0 { "," } else { "" })?;
                    put_text(f, name)?;
                    write!(f, ":{value}")?;
                }
                f.write_str("}")
            }
        }
    }
}

/// A text in quotation marks.
fn put_text(f: &mut fmt::Formatter<'_>, text: &str) -> fmt::Result {
    let escaped = text.replace('\\', "\\\\").replace('"', "\\\"").replace('\n', "\\n");
    write!(f, "\"{escaped}\"")
}

#[cfg(test)]
mod tests {
    use super::*;

    #[test]
    fn what_is_written_is_read() {
        let lists = [Json::of_numbers([0u64, u64::MAX]), Json::List(vec![]), Json::of_bytes(&[0, 171])];
        let value = Json::object([
            ("empty", Json::object([])),
            ("lists", Json::List(lists.to_vec())),
            ("none", Json::Null),
            ("text", Json::of_text("1→2\n")),
            ("true", Json::Bool(true)),
        ]);
        let line =
            r#"{"empty":{},"lists":[[0,18446744073709551615],[],"00ab"],"none":null,"text":"1→2\n","true":true}"#;
        assert_eq!(value.to_string(), line);
        assert_eq!(Json::read(line), value);
        assert_eq!(Json::of_text("a \"b\" \\").to_string(), r#""a \"b\" \\""#);
    }
}
