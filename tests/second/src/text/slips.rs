//! This evaluator with a slip put in, to see that the comparison finds it.

use super::judge::{Engine, Second};
use super::{second_format, size, Fault, Refused};

/// The two calls, each changed somewhere.
pub struct Slip {
    pub name: &'static str,
    read: fn(&[u8], &mut [u16], &mut usize, &mut usize) -> u32,
    write: fn(&[u16], &mut [u8], &mut usize) -> u32,
}

impl Engine for Slip {
    fn read(&self, text: &[u8], deck: &mut [u16], words: &mut usize, place: &mut usize) -> u32 {
        (self.read)(text, deck, words, place)
    }

    fn write(&self, deck: &[u16], text: &mut [u8], bytes: &mut usize) -> u32 {
        (self.write)(deck, text, bytes)
    }
}

type Read = fn(&[u8], &mut [u16], &mut usize, &mut usize) -> u32;
type Write = fn(&[u16], &mut [u8], &mut usize) -> u32;

const fn reading(name: &'static str, read: Read) -> Slip {
    let write = |deck: &[u16], text: &mut [u8], bytes: &mut usize| Second.write(deck, text, bytes);
    Slip { name, read, write }
}

const fn writing(name: &'static str, write: Write) -> Slip {
    let read: Read = |text, deck, words, place| Second.read(text, deck, words, place);
    Slip { name, read, write }
}

/// Reads another text than the one given.
fn instead(text: Vec<u8>, deck: &mut [u16], words: &mut usize, place: &mut usize) -> u32 {
    Second.read(&text, deck, words, place)
}

fn fault(text: &[u8]) -> Option<Fault> {
    match super::read(text, usize::MAX) {
        Err(Refused::Text(fault, _)) => Some(fault),
        _ => None,
    }
}

pub const SLIPS: [Slip; 58] = [
    reading("a tab is spacing", |text, deck, words, place| {
        let spaced = text.iter().map(|byte| if *byte == 9 { 32 } else { *byte });
        instead(spaced.collect(), deck, words, place)
    }),
    reading(
        "the end of a line can be byte 13",
        |text, deck, words, place| {
            let spaced = text.iter().map(|byte| if *byte == 13 { 10 } else { *byte });
            instead(spaced.collect(), deck, words, place)
        },
    ),
    reading(
        "bytes above 127 are classed by their low bits",
        |text, deck, words, place| {
            instead(
                text.iter().map(|byte| byte & 127).collect(),
                deck,
                words,
                place,
            )
        },
    ),
    reading(
        "upper case letters are letters",
        |text, deck, words, place| instead(text.to_ascii_lowercase(), deck, words, place),
    ),
    reading(
        "a name of 17 bytes is let through",
        |text, deck, words, place| instead(shorter_names(text), deck, words, place),
    ),
    reading(
        "a leading zero is let through",
        |text, deck, words, place| instead(without_leading_zeros(text), deck, words, place),
    ),
    reading(
        "variable 1,024 is let through",
        |text, deck, words, place| {
            let text = String::from_utf8_lossy(text).replace("_1024", "_1023");
            instead(text.into_bytes(), deck, words, place)
        },
    ),
    reading("arity 16 is let through", |text, deck, words, place| {
        let text = String::from_utf8_lossy(text).replace("/16.", "/15.");
        instead(text.into_bytes(), deck, words, place)
    }),
    reading("a colon is enough", |text, deck, words, place| {
        let text = String::from_utf8_lossy(text)
            .replace(":", ":-")
            .replace(":--", ":-");
        instead(text.into_bytes(), deck, words, place)
    }),
    reading(
        "a last dot may be missing",
        |text, deck, words, place| match fault(text) {
            Some(Fault::End) => instead([text, b"."].concat(), deck, words, place),
            _ => Second.read(text, deck, words, place),
        },
    ),
    reading(
        "declared twice is let through",
        |text, deck, words, place| match fault(text) {
            Some(Fault::Twice) => 5,
            _ => Second.read(text, deck, words, place),
        },
    ),
    reading(
        "undeclared is let through",
        |text, deck, words, place| match fault(text) {
            Some(Fault::Undeclared) => 5,
            _ => Second.read(text, deck, words, place),
        },
    ),
    reading(
        "another arity is left to 5",
        |text, deck, words, place| match fault(text) {
            Some(Fault::Arity) => 5,
            _ => Second.read(text, deck, words, place),
        },
    ),
    reading("brackets nest to 1,024", |text, deck, words, place| {
        let deep = "f(".repeat(1_024);
        let deepest = text.windows(2_048).any(|part| part == deep.as_bytes());
        if deepest {
            11
        } else {
            Second.read(text, deck, words, place)
        }
    }),
    reading("11 before 10", |text, deck, words, place| {
        match fault(text) {
            Some(_) if deck.len() < 8 => 11,
            _ => Second.read(text, deck, words, place),
        }
    }),
    reading("1 before 11", |text, deck, words, place| {
        let none = size(text) == Some(8);
        if none {
            1
        } else {
            Second.read(text, deck, words, place)
        }
    }),
    reading(
        "over 4,096 declarations is 11",
        |text, deck, words, place| match Second.read(text, deck, words, place) {
            1 if size(text) > Some(4_096) => 11,
            number => number,
        },
    ),
    reading(
        "a deck of 16,385 words is let through to 5",
        |text, deck, words, place| match Second.read(text, deck, words, place) {
            11 if size(text) == Some(16_385) && deck.len() > 16_384 => 5,
            number => number,
        },
    ),
    reading(
        "the whole lent list is opened",
        |text, deck, words, place| match Second.read(text, deck, words, place) {
            0 if *words < deck.len() => 1,
            number => number,
        },
    ),
    reading(
        "the list exactly full is refused",
        |text, deck, words, place| {
            let full = size(text) == Some(deck.len()) && super::read(text, deck.len()).is_ok();
            if full {
                11
            } else {
                Second.read(text, deck, words, place)
            }
        },
    ),
    reading(
        "the list is written before 11",
        |text, deck, words, place| {
            let number = Second.read(text, deck, words, place);
            if let (11, [first, ..]) = (number, deck) {
                *first = 1;
            }
            number
        },
    ),
    reading(
        "the list is written before 10",
        |text, deck, words, place| {
            let number = Second.read(text, deck, words, place);
            if let (10, [.., last]) = (number, deck) {
                *last = 1;
            }
            number
        },
    ),
    reading(
        "a word after the deck is cleared",
        |text, deck, words, place| {
            let number = Second.read(text, deck, words, place);
            if let (0, Some(word)) = (number, deck.get_mut(*words)) {
                *word = 0;
            }
            number
        },
    ),
    reading(
        "the place at the end is the last byte",
        |text, deck, words, place| {
            let number = Second.read(text, deck, words, place);
            *place -= (number == 10 && *place == text.len() && *place > 0) as usize;
            number
        },
    ),
    reading(
        "the place is the token's last byte",
        |text, deck, words, place| {
            let number = Second.read(text, deck, words, place);
            let longer = number == 10 && text.get(*place + 1).is_some_and(u8::is_ascii_lowercase);
            *place += longer as usize;
            number
        },
    ),
    reading(
        "the place of a name declared twice is the first",
        |text, deck, words, place| {
            let number = Second.read(text, deck, words, place);
            if fault(text) == Some(Fault::Twice) {
                *place = 3;
            }
            number
        },
    ),
    reading(
        "the words are told on a refusal",
        |text, deck, words, place| {
            let number = Second.read(text, deck, words, place);
            *words = if number == 5 { deck.len() } else { *words };
            number
        },
    ),
    writing("a comma with a space", |deck, text, bytes| {
        let number = Second.write(deck, text, bytes);
        let comma = text
            .windows(2)
            .position(|pair| pair[0] == b',' && pair[1] == b'_');
        if let (0, Some(at)) = (number, comma) {
            text[at + 1] = b' ';
        }
        number
    }),
    writing("the last clause is not written", |deck, text, bytes| {
        let number = Second.write(deck, text, bytes);
        if number == 0 && deck[3] > 0 {
            let lines = text[..*bytes - 1].iter().rposition(|byte| *byte == 10);
            *bytes = lines.map_or(0, |at| at + 1);
        }
        number
    }),
    writing("the last line is not ended", |deck, text, bytes| {
        let number = Second.write(deck, text, bytes);
        *bytes -= (number == 0) as usize;
        number
    }),
    writing("the list exactly full is refused", |deck, text, bytes| {
        let full = super::write(deck, text.len()).is_ok_and(|found| found.len() == text.len());
        if full {
            11
        } else {
            Second.write(deck, text, bytes)
        }
    }),
    writing("a byte after the text is ended", |deck, text, bytes| {
        let number = Second.write(deck, text, bytes);
        if let (0, Some(byte)) = (number, text.get_mut(*bytes)) {
            *byte = 0;
        }
        number
    }),
    writing("11 before 5", |deck, text, bytes| {
        match Second.write(deck, text, bytes) {
            5 if text.is_empty() => 11,
            number => number,
        }
    }),
    reading("-0 is let through", |text, deck, words, place| replaced(text, "-0.", " 0.", deck, words, place)),
    reading("32,768 is let through", |text, deck, words, place| {
        replaced(text, " 32768.", " -32768.", deck, words, place)
    }),
    reading("-32,769 is let through", |text, deck, words, place| {
        replaced(text, "-32769.", " 32767.", deck, words, place)
    }),
    reading("-32,768 is refused", |text, deck, words, place| {
        replaced(text, "-32768.", "-32769.", deck, words, place)
    }),
    reading("values are cut to 16 bits", |text, deck, words, place| {
        replaced(text, "65536.", "0.", deck, words, place)
    }),
    reading("a plus is let through", |text, deck, words, place| replaced(text, "+", "", deck, words, place)),
    reading("a minus may stand apart", |text, deck, words, place| replaced(text, "- ", "-", deck, words, place)),
    reading("a minus may stand after the digits", |text, deck, words, place| {
        replaced(text, "5-.", "-5.", deck, words, place)
    }),
    reading("a leading zero of a value is let through", |text, deck, words, place| {
        let places = (1..text.len()).filter(|at| text[*at] == b'0' && matches!(text[at - 1], b'-' | b' '));
        let before_digit = |at: &usize| text.get(at + 1).is_some_and(u8::is_ascii_digit);
        let left_out: Vec<usize> = places.filter(before_digit).collect();
        let kept = (0..text.len()).filter(|at| !left_out.contains(at) || !second_format(text));
        instead(kept.map(|at| text[at]).collect(), deck, words, place)
    }),
    reading("`v2.` may be missing", |text, deck, words, place| match super::read(text, deck.len()) {
        Err(Refused::Text(..)) if super::read(&marked(text), deck.len()).is_ok() => instead(marked(text), deck, words, place),
        _ => Second.read(text, deck, words, place),
    }),
    reading("`v2.` may come later", |text, deck, words, place| {
        let later = String::from_utf8_lossy(text).replacen("v2.", "", 1);
        match super::read(&marked(later.as_bytes()), deck.len()) {
            Ok(_) => instead(marked(later.as_bytes()), deck, words, place),
            _ => Second.read(text, deck, words, place),
        }
    }),
    reading("`v2.` twice is let through", |text, deck, words, place| {
        replaced(text, "v2.v2.", "v2.", deck, words, place)
    }),
    reading("spacing before `v2.` is refused", |text, deck, words, place| {
        spaced_mark_refused(text, deck, words, place, |text| !text.starts_with(b"v2"))
    }),
    reading("spacing inside `v2.` is refused", |text, deck, words, place| {
        spaced_mark_refused(text, deck, words, place, |text| !text.trim_ascii_start().starts_with(b"v2."))
    }),
    reading("without numbers format 2 gives format 1", |text, deck, words, place| {
        let without: Vec<u8> = text.trim_ascii_start().strip_prefix(b"v2.").unwrap_or(text).to_vec();
        match super::read(text, deck.len()) {
            Ok(_) if super::read(&without, deck.len()).is_ok() => instead(without, deck, words, place),
            _ => Second.read(text, deck, words, place),
        }
    }),
    reading("equal values are 10", |text, deck, words, place| match Second.read(text, deck, words, place) {
        2 => {
            *place = 0;
            10
        }
        number => number,
    }),
    reading("2 before 11", |text, deck, words, place| match super::read(text, usize::MAX) {
        Err(Refused::Deck(2)) => 2,
        _ => Second.read(text, deck, words, place),
    }),
    reading("2 before 1", |text, deck, words, place| match Second.read(text, deck, words, place) {
        1 if second_format(text) && text.ends_with(b"nu b -32768.") => 2,
        number => number,
    }),
    reading("a name of 16 bytes and a digit are one", |text, deck, words, place| {
        let long = |part: &[u8]| part.iter().all(|byte| byte.is_ascii_lowercase() || byte.is_ascii_digit());
        match super::read(text, deck.len()) {
            Ok(_) if text.windows(17).any(long) => {
                *place = 0;
                10
            }
            _ => Second.read(text, deck, words, place),
        }
    }),
    writing("a text of format 2 without `v2.`", |deck, text, bytes| {
        rewritten(deck, text, bytes, |found| found.replacen("v2.\n", "", 1))
    }),
    writing("`v2.` has no line of its own", |deck, text, bytes| {
        rewritten(deck, text, bytes, |found| found.replacen("v2.\n", "v2.", 1))
    }),
    writing("`v2.` only where there are numbers", |deck, text, bytes| {
        rewritten(deck, text, bytes, |found| match found.contains("\nnu ") {
            true => found,
            false => found.replacen("v2.\n", "", 1),
        })
    }),
    writing("values are written without sign", |deck, text, bytes| {
        rewritten(deck, text, bytes, |found| found.replace(" -", " "))
    }),
    writing("values are written as 16 bits", |deck, text, bytes| {
        rewritten(deck, text, bytes, |found| found.replace(" -1.", " 65535."))
    }),
    writing("numbers are written as functors", |deck, text, bytes| {
        rewritten(deck, text, bytes, |found| {
            let line = |line: &str| match line.strip_prefix("nu ").and_then(|rest| rest.split_once(' ')) {
                Some((name, _)) => format!("fn {name}/0.\n"),
                None => format!("{line}\n"),
            };
            found.lines().map(line).collect()
        })
    }),
];

/// Reads the text with these bytes for those.
fn replaced(text: &[u8], from: &str, to: &str, deck: &mut [u16], words: &mut usize, place: &mut usize) -> u32 {
    let text = String::from_utf8_lossy(text).replace(from, to);
    instead(text.into_bytes(), deck, words, place)
}

/// With the mark of format 2.
fn marked(text: &[u8]) -> Vec<u8> {
    [b"v2.", text].concat()
}

/// A text that is read has its mark spaced so.
fn spaced_mark_refused(text: &[u8], deck: &mut [u16], words: &mut usize, place: &mut usize, spaced: fn(&[u8]) -> bool) -> u32 {
    match super::read(text, deck.len()) {
        Ok(_) if second_format(text) && spaced(text) => {
            *place = 0;
            10
        }
        _ => Second.read(text, deck, words, place),
    }
}

/// Another text in place of the one that should be written.
fn rewritten(deck: &[u16], text: &mut [u8], bytes: &mut usize, change: fn(String) -> String) -> u32 {
    match super::write(deck, usize::MAX) {
        Ok(found) => {
            let found = change(String::from_utf8_lossy(&found).into_owned()).into_bytes();
            if found.len() > text.len() {
                return 11;
            }
            text[..found.len()].copy_from_slice(&found);
            *bytes = found.len();
            0
        }
        Err(number) => number,
    }
}

/// Names cut to 16 bytes.
fn shorter_names(text: &[u8]) -> Vec<u8> {
    let mut cut = Vec::new();
    let mut length = 0;
    for byte in text {
        let word = byte.is_ascii_lowercase() || byte.is_ascii_digit();
        length = if word { length + 1 } else { 0 };
        if length <= 16 {
            cut.push(*byte);
        }
    }
    cut
}

/// `007` is 7, after a stroke or an underline.
fn without_leading_zeros(text: &[u8]) -> Vec<u8> {
    let mut cut: Vec<u8> = Vec::new();
    for (at, byte) in text.iter().enumerate() {
        let starts = matches!(cut.last(), Some(b'/' | b'_'));
        let more = text.get(at + 1).is_some_and(u8::is_ascii_digit);
        if !(starts && *byte == b'0' && more) {
            cut.push(*byte);
        }
    }
    cut
}
