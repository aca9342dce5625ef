//! Logical lines: comments, quotes and joined lines, cut into words.

use std::io::BufRead;
use std::ops::Range;

const LONGEST: usize = 4096;

/// Why a run ends early.
#[derive(Debug, PartialEq)]
pub enum Fault {
    /// The number of the bad line, and the reason.
    Line(u64, &'static str),
    Reading,
    Writing,
}

/// A logical line without comments and quotes, and where its words stand in it.
#[derive(Default)]
pub struct Line {
    pub number: u64,
    text: String,
    words: Vec<Range<usize>>,
}

impl Line {
    pub fn word(&self, place: usize) -> Option<&str> {
        let range = self.words.get(place)?;
        Some(&self.text[range.clone()])
    }

    fn begin(&mut self, number: u64) {
        self.number = number;
        self.text.clear();
        self.words.clear();
    }

    /// Takes a line that is nothing but words and blanks.
    fn take_plain(&mut self, line: &str) {
        self.text.push_str(line);
        let bytes = line.as_bytes();
        let mut end = 0;
        while let Some(blanks) = bytes[end..].iter().position(|byte| !is_blank(*byte)) {
            let start = end + blanks;
            let rest = &bytes[start..];
            end = start
                + rest
                    .iter()
                    .position(|byte| is_blank(*byte))
                    .unwrap_or(rest.len());
            self.words.push(start..end);
        }
    }
}

fn is_blank(byte: u8) -> bool {
    byte == b' ' || byte == b'\t'
}

pub struct Lines<R> {
    input: R,
    physical: Vec<u8>,
    passed: u64,
}

impl<R: BufRead> Lines<R> {
    pub fn new(input: R) -> Self {
        Lines {
            input,
            physical: Vec::new(),
            passed: 0,
        }
    }

    /// Reads the next logical line, which may have no words. False at the end of the input.
    pub fn read(&mut self, line: &mut Line) -> Result<bool, Fault> {
        line.begin(self.passed + 1);
        if !self.read_physical()? {
            return Ok(false);
        }
        match plain(&self.physical) {
            Some(text) => line.take_plain(text),
            None => self.scan(line)?,
        }
        Ok(true)
    }

    fn scan(&mut self, line: &mut Line) -> Result<(), Fault> {
        let number = line.number;
        let bad = |reason| Fault::Line(number, reason);
        let mut scan = Scan::default();
        while scan.physical(&self.physical, line).map_err(bad)? {
            if !self.read_physical()? {
                return Err(bad("cut"));
            }
        }
        scan.finish(line).map_err(bad)
    }

    fn read_physical(&mut self) -> Result<bool, Fault> {
        self.physical.clear();
        let length = self
            .input
            .read_until(b'\n', &mut self.physical)
            .map_err(|_| Fault::Reading)?;
        if self.physical.last() == Some(&b'\n') {
            self.physical.pop();
        }
        self.passed += u64::from(length > 0);
        Ok(length > 0)
    }
}

/// The common line: no comment, no quote, no backslash, and not too long.
fn plain(bytes: &[u8]) -> Option<&str> {
    let stops = |byte: u8| matches!(byte, 0..=8 | 10..=31 | b'#' | b'\'' | b'"' | b'\\' | 127..);
    let any = bytes.iter().fold(false, |any, byte| any | stops(*byte));
    if any || bytes.len() > LONGEST {
        return None;
    }
    str::from_utf8(bytes).ok()
}

/// Where a scan stands within a logical line.
#[derive(Default)]
struct Scan {
    quote: Option<u8>,
    word: Option<usize>,
    length: usize,
}

impl Scan {
    /// Takes a physical line; true where it joins the next one.
    fn physical(&mut self, bytes: &[u8], line: &mut Line) -> Result<bool, &'static str> {
        let joins = bytes.last() == Some(&b'\\');
        let bytes = &bytes[..bytes.len() - usize::from(joins)];
        self.length += bytes.len();
        if self.length > LONGEST {
            return Err("long");
        }
        for &byte in bytes {
            match (self.quote, byte) {
                (None, b'#') => return Ok(false),
                (_, 0..=8 | 10..=31 | 127..) => return Err("byte"),
                (Some(quote), _) if byte == quote => self.quote = None,
                (None, b'\'' | b'"') => {
                    self.quote = Some(byte);
                    self.word.get_or_insert(line.text.len());
                }
                (None, _) if is_blank(byte) => self.end_word(line),
                _ => {
                    self.word.get_or_insert(line.text.len());
                    line.text.push(char::from(byte));
                }
            }
        }
        Ok(joins)
    }

    fn end_word(&mut self, line: &mut Line) {
        if let Some(start) = self.word.take() {
            line.words.push(start..line.text.len());
        }
    }

    fn finish(&mut self, line: &mut Line) -> Result<(), &'static str> {
        if self.quote.is_some() {
            return Err("quote");
        }
        self.end_word(line);
        Ok(())
    }
}

#[cfg(test)]
mod tests {
    use super::*;

    fn read(input: &str) -> Result<Vec<(u64, Vec<String>)>, Fault> {
        let mut lines = Lines::new(input.as_bytes());
        let (mut line, mut all) = (Line::default(), Vec::new());
        while lines.read(&mut line)? {
            let words = (0..)
                .map_while(|place| line.word(place).map(String::from))
                .collect();
            all.push((line.number, words));
        }
        Ok(all)
    }

    #[test]
    fn lines_are_cut_into_words() {
        for (input, expected) in [
            ("", &[] as &[(u64, &[&str])]),
            ("a \t b", &[(1, &["a", "b"])]),
            ("a # b\\\nc\n", &[(1, &["a"]), (2, &["c"])]),
            ("a\\\nb c\nd", &[(1, &["ab", "c"]), (3, &["d"])]),
            ("a\\b # \\\nc", &[(1, &["a\\b"]), (2, &["c"])]),
            ("\n'a b'\"#\"c ''\n", &[(1, &[]), (2, &["a b#c", ""])]),
        ] {
            let words = |words: &[&str]| words.iter().map(|word| String::from(*word)).collect();
            let expected = expected
                .iter()
                .map(|(number, list)| (*number, words(list)))
                .collect();
            assert_eq!(read(input), Ok(expected), "{input:?}");
        }
    }

    #[test]
    fn faults_are_told() {
        for (input, number, reason) in [
            ("a\n'b\n'", 2, "quote"),
            ("a\\\n", 1, "cut"),
            ("a\u{7f}", 1, "byte"),
            (&"a".repeat(4097), 1, "long"),
        ] {
            assert_eq!(read(input), Err(Fault::Line(number, reason)), "{input:?}");
        }
    }
}
