//! One line of a description: the six forms.

use crate::{code::Code, measure::Measure, run_length::RunLength, taps::Taps};

/// The most taps or generators that a line can have.
const MOST_NUMBERS: usize = 7;

#[derive(Clone, Debug, PartialEq, Eq)]
pub enum Line {
    Code(Code),
    RunLength(RunLength),
    Taps(Taps),
    Measure(Measure),
    Start(Option<i32>),
    End(Option<i32>),
}

impl Line {
    /// What a line says, given without the byte 10 that ends it; nothing where it has none of the forms.
    pub fn parse(line: &[u8]) -> Option<Line> {
        let words = words(line)?;
        let (&name, rest) = words.split_first()?;
        match (name, rest) {
            (b"code", [constraint, inversion, generators @ ..]) => Some(Line::Code(Code {
                constraint: number(constraint)?,
                inversion: number(inversion)?,
                generators: list(generators, octal)?,
            })),
            (b"rll", [least, most]) => Some(Line::RunLength(RunLength {
                least: number(least)?,
                most: number(most)?,
            })),
            (b"taps", [letters, taps @ ..]) => Some(Line::Taps(Taps {
                letters: number(letters)?,
                taps: list(taps, number)?,
            })),
            (b"measure", [b"square"]) => Some(Line::Measure(Measure::Square)),
            (b"measure", [b"bits", width]) => Some(Line::Measure(Measure::Bits(number(width)?))),
            (b"start", [state]) => Some(Line::Start(state_or_any(state)?)),
            (b"end", [state]) => Some(Line::End(state_or_any(state)?)),
            _ => None,
        }
    }

    /// Whether both lines have the same first word.
    pub fn repeats(&self, other: &Line) -> bool {
        std::mem::discriminant(self) == std::mem::discriminant(other)
    }
}

/// The words of a line; nothing where it has a byte that no word has, or a space at either end.
fn words(line: &[u8]) -> Option<Vec<&[u8]>> {
    let is_allowed = |byte: &u8| matches!(byte, b'a'..=b'z' | b'0'..=b'9' | b'-' | b' ');
    if line.starts_with(b" ") || line.ends_with(b" ") || !line.iter().all(is_allowed) {
        return None;
    }
    let parts = line.split(|&byte| byte == b' ');
    Some(parts.filter(|part| !part.is_empty()).collect())
}

fn list(words: &[&[u8]], read: fn(&[u8]) -> Option<i32>) -> Option<Vec<i32>> {
    if words.is_empty() || words.len() > MOST_NUMBERS {
        return None;
    }
    words.iter().map(|word| read(word)).collect()
}

fn state_or_any(word: &[u8]) -> Option<Option<i32>> {
    if word == b"any" {
        Some(None)
    } else {
        number(word).map(Some)
    }
}

fn number(word: &[u8]) -> Option<i32> {
    match word {
        [b'-', digits @ ..] => digits_in(digits, 10).map(|value| -value),
        digits => digits_in(digits, 10),
    }
}

fn octal(word: &[u8]) -> Option<i32> {
    digits_in(word, 8)
}

/// The value of one to six digits.
fn digits_in(digits: &[u8], base: i32) -> Option<i32> {
    if !(1..=6).contains(&digits.len()) {
        return None;
    }
    digits.iter().try_fold(0, |value, &digit| {
        let digit = i32::from(digit) - i32::from(b'0');
        (0..base).contains(&digit).then_some(value * base + digit)
    })
}

#[cfg(test)]
mod tests {
    use super::*;

    #[test]
    fn numbers() {
        assert_eq!(number(b"-0"), Some(0));
        assert_eq!(number(b"-000012"), Some(-12));
        assert_eq!(number(b"0000001"), None);
        assert_eq!(number(b"-"), None);
        assert_eq!(number(b"--1"), None);
        assert_eq!(octal(b"171"), Some(121));
        assert_eq!(octal(b"18"), None);
        assert_eq!(octal(b"-7"), None);
    }

    #[test]
    fn forms() {
        assert_eq!(
            Line::parse(b"rll  1   3"),
            Some(Line::RunLength(RunLength { least: 1, most: 3 }))
        );
        assert_eq!(Line::parse(b"start any"), Some(Line::Start(None)));
        assert_eq!(Line::parse(b"end -1"), Some(Line::End(Some(-1))));
        assert_eq!(Line::parse(b""), None);
        assert_eq!(Line::parse(b"taps 2"), None);
        assert_eq!(Line::parse(b"taps 2 1 1 1 1 1 1 1 1"), None);
        assert_eq!(Line::parse(b"measure square "), None);
        assert_eq!(Line::parse(b"measure\tsquare"), None);
    }
}
