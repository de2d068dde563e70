//! JSON, written by hand.

use std::fmt::Write;

use crate::text::is_plain;

/// An object in the making.
#[derive(Default)]
pub struct Object {
    members: Vec<String>,
}

impl Object {
    pub fn number(self, name: &str, number: usize) -> Self {
        self.raw(name, &number.to_string())
    }

    pub fn truth(self, name: &str, truth: bool) -> Self {
        self.raw(name, if truth { "true" } else { "false" })
    }

    /// Text; bytes that aren't UTF-8 become U+FFFD.
    pub fn text(self, name: &str, text: impl AsRef<[u8]>) -> Self {
        let quoted = string(&String::from_utf8_lossy(text.as_ref()));
        self.raw(name, &quoted)
    }

    pub fn list(self, name: &str, items: &[String]) -> Self {
        let list = format!("[{}]", items.join(","));
        self.raw(name, &list)
    }

    pub fn done(self) -> String {
        format!("{{{}}}", self.members.join(","))
    }

    fn raw(mut self, name: &str, value: &str) -> Self {
        self.members.push(format!("{}:{value}", string(name)));
        self
    }
}

fn string(text: &str) -> String {
    let mut quoted = String::from("\"");
    for character in text.chars() {
        match character {
            '"' => quoted.push_str("\\\""),
            '\\' => quoted.push_str("\\\\"),
            _ if is_plain(character) => quoted.push(character),
            _ => {
                let units = character.encode_utf16(&mut [0; 2]).to_vec();
                units.iter().for_each(|unit| write!(quoted, "\\u{unit:04x}").expect("a string takes all"));
            }
        }
    }
    quoted.push('"');
    quoted
}

#[cfg(test)]
mod tests {
    use super::*;

    #[test]
    fn written() {
        let inner = Object::default().truth("t", true).done();
        let object = Object::default().number("n", 7).text("s", b"a\"\\\n\xff").list("l", &[inner]);
        assert_eq!(object.done(), "{\"n\":7,\"s\":\"a\\\"\\\\\\u000a\u{fffd}\",\"l\":[{\"t\":true}]}");
        let object = Object::default().text("s", "\u{9b}\u{202e}\u{e0041}é'");
        assert_eq!(object.done(), "{\"s\":\"\\u009b\\u202e\\udb40\\udc41é'\"}");
    }
}
