//! The fields of a case line: numbers, bytes and buffer lengths.

use crate::bytes::{generated, printable, MOST};

/// The fields not yet taken, separated by one space each; nothing after the
/// last one.
pub struct Fields<'a>(Option<&'a [u8]>);

impl<'a> Fields<'a> {
    /// The fields of `line` behind its call's name.
    pub fn after(line: &'a [u8], name: &[u8]) -> Self {
        Fields(line.get(name.len() + 1..))
    }

    pub fn is_done(&self) -> bool {
        self.0.is_none()
    }

    fn take(&mut self) -> Option<&'a [u8]> {
        let left = self.0?;
        let end = left.iter().position(|&b| b == b' ');
        self.0 = end.map(|end| &left[end + 1..]);
        Some(&left[..end.unwrap_or(left.len())])
    }

    pub fn number(&mut self) -> Option<u64> {
        number(self.take()?)
    }

    pub fn byte(&mut self) -> Option<u8> {
        u8::try_from(self.number()?).ok()
    }

    pub fn room(&mut self) -> Option<usize> {
        at_most_the_most(self.number()?)
    }

    pub fn bytes(&mut self) -> Option<Vec<u8>> {
        match self.take()? {
            b"-" => Some(Vec::new()),
            [b'@', rest @ ..] => len_and_seed(rest).map(|(len, seed)| generated(len, seed)),
            [b'=', rest @ ..] => len_and_seed(rest).map(|(len, seed)| printable(len, seed)),
            pairs => hex(pairs),
        }
    }
}

fn number(digits: &[u8]) -> Option<u64> {
    if digits.is_empty() {
        return None;
    }
    digits.iter().try_fold(0u64, |n, &d| {
        let digit = d.is_ascii_digit().then(|| u64::from(d - b'0'))?;
        n.checked_mul(10)?.checked_add(digit)
    })
}

fn at_most_the_most(n: u64) -> Option<usize> {
    (n <= MOST).then_some(n as usize)
}

fn len_and_seed(field: &[u8]) -> Option<(usize, u64)> {
    let colon = field.iter().position(|&b| b == b':')?;
    let len = at_most_the_most(number(&field[..colon])?)?;
    Some((len, number(&field[colon + 1..])?))
}

fn hex(pairs: &[u8]) -> Option<Vec<u8>> {
    if pairs.is_empty() || !pairs.len().is_multiple_of(2) {
        return None;
    }
    pairs.chunks_exact(2).map(|two| Some(digit(two[0])? << 4 | digit(two[1])?)).collect()
}

fn digit(d: u8) -> Option<u8> {
    match d {
        b'0'..=b'9' => Some(d - b'0'),
        b'a'..=b'f' => Some(d - b'a' + 10),
        _ => None,
    }
}
