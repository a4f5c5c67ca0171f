//! A line as it is to be written into its area.

use crate::model::fletcher::{fletcher, Edition};

/// What `fletcher` says.
#[derive(Clone, Copy, Debug, PartialEq, Eq)]
pub enum Sum {
    /// The line has no such field of its own.
    None,
    /// The right sum, changed by these bits.
    Xor(u64),
}

#[derive(Clone, Debug)]
pub struct LinePlan {
    /// Names and values as text, so that either can break a rule.
    pub fields: Vec<(String, String)>,
    pub sum: Sum,
    /// The edition by which a sum is right.
    pub edition: Edition,
    /// Bytes put between the text and the newline.
    pub trailing: Vec<u8>,
    /// Where the newline is due at the earliest: spaces fill the room before it.
    pub newline_from: usize,
    pub newline: bool,
}

impl LinePlan {
    pub fn new(fields: &[(&str, u64)], sum: Sum) -> LinePlan {
        let text = |&(name, value): &(&str, u64)| (name.to_string(), format!("{value:x}"));
        LinePlan {
            fields: fields.iter().map(text).collect(),
            sum,
            edition: Edition::First,
            trailing: Vec::new(),
            newline_from: 0,
            newline: true,
        }
    }

    /// Sets a field, or adds it at the end.
    pub fn set(&mut self, name: &str, value: u64) {
        self.set_text(name, &format!("{value:x}"));
    }

    pub fn set_text(&mut self, name: &str, value: &str) {
        match self.fields.iter_mut().find(|(n, _)| n == name) {
            Some(field) => field.1 = value.to_string(),
            None => self.add(name, value),
        }
    }

    /// Adds a field at the end, whether or not the line has one of that name.
    pub fn add(&mut self, name: &str, value: &str) {
        self.fields.push((name.to_string(), value.to_string()));
    }

    pub fn remove(&mut self, name: &str) {
        self.fields.retain(|(n, _)| n != name);
    }

    /// Gives the text before the sum an odd or an even length, by the field `ee` where it takes one.
    pub fn set_odd(&mut self, odd: bool) {
        let bare = LinePlan { sum: Sum::None, ..self.clone() };
        if bare.text().len() % 2 != usize::from(odd) {
            self.add("ee", "1");
        }
    }

    /// The text with its sum, before trailing bytes.
    pub fn text(&self) -> Vec<u8> {
        let fields: Vec<String> = self.fields.iter().map(|(n, v)| format!("{n}:{v}")).collect();
        let text = fields.join(",");
        match self.sum {
            Sum::None => text.into_bytes(),
            Sum::Xor(bits) => {
                let sum = fletcher(self.edition, text.as_bytes()) ^ bits;
                format!("{text},fletcher:{sum:x}").into_bytes()
            }
        }
    }

    /// The bytes from the area's start to the newline, and the newline's place.
    pub fn bytes(&self) -> (Vec<u8>, u64) {
        let mut bytes = [self.text(), self.trailing.clone()].concat();
        while bytes.len() < self.newline_from {
            bytes.push(b' ');
        }
        let newline = bytes.len() as u64;
        if self.newline {
            bytes.push(b'\n');
        }
        (bytes, newline)
    }
}
