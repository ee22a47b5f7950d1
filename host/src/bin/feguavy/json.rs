//! Lines of JSON.

use std::fmt::Write;

/// An object, key by key.
pub struct Object(String);

impl Object {
    pub fn new() -> Object {
        Object("{".to_string())
    }

    fn key(mut self, key: &str) -> Object {
        if self.0.len() > 1 {
            self.0.push(',');
        }
        self.0.push_str(&string(key));
        self.0.push(':');
        self
    }

    /// A key whose value is given as JSON.
    pub fn with(self, key: &str, value: &str) -> Object {
        let mut object = self.key(key);
        object.0.push_str(value);
        object
    }

    pub fn text(self, key: &str, value: &str) -> Object {
        self.with(key, &string(value))
    }

    pub fn number(self, key: &str, value: usize) -> Object {
        self.with(key, &value.to_string())
    }

    pub fn words(self, key: &str, words: &[u16]) -> Object {
        let words: Vec<String> = words.iter().map(|word| word.to_string()).collect();
        self.with(key, &format!("[{}]", words.join(",")))
    }

    /// The value, or null.
    pub fn optional(self, key: &str, value: Option<String>) -> Object {
        self.with(key, value.as_deref().unwrap_or("null"))
    }

    pub fn objects(self, key: &str, objects: impl Iterator<Item = Object>) -> Object {
        let objects: Vec<String> = objects.map(Object::end).collect();
        self.with(key, &format!("[{}]", objects.join(",")))
    }

    pub fn end(mut self) -> String {
        self.0.push('}');
        self.0
    }
}

pub fn string(text: &str) -> String {
    let mut quoted = String::with_capacity(text.len() + 2);
    quoted.push('"');
    for letter in text.chars() {
        match letter {
            '"' => quoted.push_str("\\\""),
            '\\' => quoted.push_str("\\\\"),
            '\n' => quoted.push_str("\\n"),
            letter if (letter as u32) < 32 => _ = write!(quoted, "\\u{:04x}", letter as u32),
            letter => quoted.push(letter),
        }
    }
    quoted.push('"');
    quoted
}
