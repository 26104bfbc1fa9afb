//! From bytes to tokens, each taken as long as it can be.

#[derive(Clone, Copy, Debug, PartialEq, Eq)]
pub enum Kind<'a> {
    Name(&'a [u8]),
    /// Its value; past a million it is a million.
    Number(u32),
    Variable(u32),
    /// A number with a minus before it: the number.
    Negative(u32),
    /// `:-`
    If,
    /// A dot, a comma, a stroke, a tilde or a bracket.
    Mark(u8),
    /// The bytes here begin no token.
    Nothing,
    /// The text's end.
    End,
}

#[derive(Clone, Copy, Debug, PartialEq, Eq)]
pub struct Token<'a> {
    pub place: usize,
    pub kind: Kind<'a>,
}

const LONGEST_NAME: usize = 16;
const LARGE: u32 = 1_000_000;

/// The tokens, up to the end or the first bytes that are none.
pub fn tokens(text: &[u8]) -> Vec<Token<'_>> {
    let mut list = Vec::new();
    let mut place = 0;
    loop {
        let spaces = text[place..]
            .iter()
            .take_while(|byte| matches!(byte, 32 | 10));
        place += spaces.count();
        let (kind, length) = token(&text[place..]);
        list.push(Token { place, kind });
        if matches!(kind, Kind::End | Kind::Nothing) {
            return list;
        }
        place += length;
    }
}

/// The token that a text begins with, and its length.
fn token(text: &[u8]) -> (Kind<'_>, usize) {
    match text {
        [] => (Kind::End, 0),
        [b'a'..=b'z', ..] => {
            let letters = text.iter().take(LONGEST_NAME);
            let length = letters
                .take_while(|byte| matches!(byte, b'a'..=b'z' | b'0'..=b'9'))
                .count();
            (Kind::Name(&text[..length]), length)
        }
        [b'0'..=b'9', ..] => {
            let length = digits(text);
            (Kind::Number(value(&text[..length])), length)
        }
        [b'_', b'0'..=b'9', ..] => {
            let length = digits(&text[1..]);
            (Kind::Variable(value(&text[1..1 + length])), 1 + length)
        }
        [b'-', b'0'..=b'9', ..] => {
            let length = digits(&text[1..]);
            (Kind::Negative(value(&text[1..1 + length])), 1 + length)
        }
        [b':', b'-', ..] => (Kind::If, 2),
        [mark @ (b'.' | b',' | b'/' | b'~' | b'(' | b')'), ..] => (Kind::Mark(*mark), 1),
        _ => (Kind::Nothing, 1),
    }
}

/// The digits of the number here: a zero is one by itself.
fn digits(text: &[u8]) -> usize {
    match text[0] {
        b'0' => 1,
        _ => text.iter().take_while(|byte| byte.is_ascii_digit()).count(),
    }
}

fn value(digits: &[u8]) -> u32 {
    let add = |sum: u32, digit: &u8| (10 * sum + u32::from(digit - b'0')).min(LARGE);
    digits.iter().fold(0, add)
}
