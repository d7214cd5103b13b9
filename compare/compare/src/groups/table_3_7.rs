//! The rows of Unicode's table 3-7, "Well-Formed UTF-8 Byte Sequences": per
//! byte of a character its lowest and its highest value.

type Row = &'static [(u8, u8)];

const ROWS: [Row; 9] = [
    &[(0x00, 0x7F)],
    &[(0xC2, 0xDF), (0x80, 0xBF)],
    &[(0xE0, 0xE0), (0xA0, 0xBF), (0x80, 0xBF)],
    &[(0xE1, 0xEC), (0x80, 0xBF), (0x80, 0xBF)],
    &[(0xED, 0xED), (0x80, 0x9F), (0x80, 0xBF)],
    &[(0xEE, 0xEF), (0x80, 0xBF), (0x80, 0xBF)],
    &[(0xF0, 0xF0), (0x90, 0xBF), (0x80, 0xBF), (0x80, 0xBF)],
    &[(0xF1, 0xF3), (0x80, 0xBF), (0x80, 0xBF), (0x80, 0xBF)],
    &[(0xF4, 0xF4), (0x80, 0x8F), (0x80, 0xBF), (0x80, 0xBF)],
];

/// Strings that no row allows.
pub const ILL_FORMED: &[&[u8]] = &[
    // Overlong forms of U+0000, U+007F, U+07FF and U+FFFF.
    b"\xC0\x80",
    b"\xC1\xBF",
    b"\xE0\x80\x80",
    b"\xE0\x9F\xBF",
    b"\xF0\x80\x80\x80",
    b"\xF0\x8F\xBF\xBF",
    // Surrogates, alone and as a pair.
    b"\xED\xA0\x80",
    b"\xED\xAF\xBF",
    b"\xED\xB0\x80",
    b"\xED\xBF\xBF",
    b"\xED\xA0\x80\xED\xB0\x80",
    // Past U+10FFFF, and leads that no row has.
    b"\xF4\x90\x80\x80",
    b"\xF4\xBF\xBF\xBF",
    b"\xF5\x80\x80\x80",
    b"\xF7\xBF\xBF\xBF",
    b"\xF8\x88\x80\x80\x80",
    b"\xFC\x84\x80\x80\x80\x80",
    b"\xFE",
    b"\xFF",
    b"\xFE\xFF",
    b"\xFF\xFE",
    // Following bytes without a lead, and one too many.
    b"\x80",
    b"\xBF",
    b"\x80\x80",
    b"\xC3\xA9\xA9",
    b"\xE2\x82\xAC\x80",
    b"\xF0\x9F\x98\x80\x80",
    // A broken character after a good one, and a good one after a broken.
    b"\xC3\xA9\xC3",
    b"\xC3\xC3\xA9",
    b"\xE2\x82\xC3\xA9",
];

pub fn rows() -> impl Iterator<Item = Row> {
    ROWS.into_iter()
}

/// All strings whose bytes are at or just outside their range's two ends.
pub fn boundaries(row: Row) -> Vec<Vec<u8>> {
    row.iter().fold(vec![Vec::new()], |strings, &(low, high)| {
        let ends = ends(low, high);
        strings
            .iter()
            .flat_map(|string| ends.iter().map(move |&end| [&string[..], &[end]].concat()))
            .collect()
    })
}

fn ends(low: u8, high: u8) -> Vec<u8> {
    let mut ends = vec![low.wrapping_sub(1), low, high, high.wrapping_add(1)];
    ends.dedup();
    ends
}

#[cfg(test)]
mod tests {
    use super::*;

    #[test]
    fn rows_end_where_the_characters_do() {
        for row in rows() {
            let (low, high): (Vec<u8>, Vec<u8>) = row.iter().copied().unzip();
            assert!(core::str::from_utf8(&low).is_ok() && core::str::from_utf8(&high).is_ok());
        }
        for bytes in ILL_FORMED {
            assert!(core::str::from_utf8(bytes).is_err());
        }
    }

    #[test]
    fn boundaries_are_all_combinations() {
        assert_eq!(boundaries(ROWS[1]).len(), 16);
        assert_eq!(boundaries(ROWS[2]).len(), 3 * 16);
        assert_eq!(boundaries(ROWS[7]).len(), 256);
    }
}
