//! A line of output: words with single spaces between them and a newline at the end.

use std::io::{self, Write};

#[derive(Default)]
pub struct Line(Vec<String>);

impl Line {
    pub fn new() -> Line {
        Line::default()
    }

    pub fn add(&mut self, word: impl ToString) -> &mut Line {
        self.0.push(word.to_string());
        self
    }

    pub fn add_all<W: ToString>(&mut self, words: impl IntoIterator<Item = W>) -> &mut Line {
        for word in words {
            self.add(word);
        }
        self
    }

    pub fn write(&self, out: &mut impl Write) -> io::Result<()> {
        writeln!(out, "{}", self.0.join(" "))
    }
}
