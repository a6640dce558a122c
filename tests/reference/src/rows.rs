//! The rows of words, one for each key that can yield one.

use crate::flags::{CAPS, NUM};

/// Columns of a row.
pub const PLAIN: usize = 0;
pub const SHIFT: usize = 1;
pub const CTRL: usize = 2;
pub const ALT: usize = 3;

/// A key's words by column, and the lock that reverses Shift for it (0 if none does).
#[derive(Clone, Copy, Debug, PartialEq, Eq)]
pub struct Row {
    pub words: [Option<u16>; 4],
    pub lock: u8,
}

type Rows = [Option<Row>; 128];

static ROWS: Rows = rows();
static EXTENDED_ROWS: Rows = extended_rows();

/// The row of a make, E0 codes as E0xx; breaks have none.
pub fn row(code: u16) -> Option<&'static Row> {
    let rows = if code < 0x100 { &ROWS } else { &EXTENDED_ROWS };
    rows.get(usize::from(code & 0xFF))?.as_ref()
}

/// Marks a column without a word where columns are given as low bytes.
const NONE: i16 = -1;

/// A row from low bytes; the high byte of each word is the code.
const fn low_bytes(code: u8, low: [i16; 4]) -> Row {
    let mut words = [None; 4];
    let mut column = 0;
    while column < 4 {
        if low[column] != NONE {
            words[column] = Some((code as u16) << 8 | low[column] as u16);
        }
        column += 1;
    }
    Row { words, lock: 0 }
}

/// Codes with the low bytes of their four columns.
const SINGLE_ROWS: [(u8, [i16; 4]); 19] = [
    (0x01, [0x1B, 0x1B, 0x1B, NONE]),
    (0x0C, [0x2D, 0x5F, 0x1F, NONE]),
    (0x0D, [0x3D, 0x2B, NONE, NONE]),
    (0x0E, [0x08, 0x08, 0x7F, NONE]),
    (0x0F, [0x09, 0x00, NONE, NONE]),
    (0x1A, [0x5B, 0x7B, 0x1B, NONE]),
    (0x1B, [0x5D, 0x7D, 0x1D, NONE]),
    (0x1C, [0x0D, 0x0D, 0x0A, NONE]),
    (0x27, [0x3B, 0x3A, NONE, NONE]),
    (0x28, [0x27, 0x22, NONE, NONE]),
    (0x29, [0x60, 0x7E, NONE, NONE]),
    (0x2B, [0x5C, 0x7C, 0x1C, NONE]),
    (0x33, [0x2C, 0x3C, NONE, NONE]),
    (0x34, [0x2E, 0x3E, NONE, NONE]),
    (0x35, [0x2F, 0x3F, NONE, NONE]),
    (0x37, [0x2A, NONE, NONE, NONE]),
    (0x39, [0x20, 0x20, 0x20, 0x20]),
    (0x4A, [0x2D, 0x2D, NONE, NONE]),
    (0x4E, [0x2B, 0x2B, NONE, NONE]),
];

/// First codes of the three runs of letters.
const LETTERS: [(u8, &[u8]); 3] = [
    (0x10, b"qwertyuiop"),
    (0x1E, b"asdfghjkl"),
    (0x2C, b"zxcvbnm"),
];

/// Codes of the keypad with the digit or point under Shift and the word under Ctrl (0 for none).
const KEYPAD: [(u8, u8, u16); 11] = [
    (0x47, b'7', 0x7700),
    (0x48, b'8', 0),
    (0x49, b'9', 0x8400),
    (0x4B, b'4', 0x7300),
    (0x4C, b'5', 0),
    (0x4D, b'6', 0x7400),
    (0x4F, b'1', 0x7500),
    (0x50, b'2', 0),
    (0x51, b'3', 0x7600),
    (0x52, b'0', 0),
    (0x53, b'.', 0),
];

const fn rows() -> Rows {
    let mut rows: Rows = [None; 128];
    let mut place = 0;
    while place < SINGLE_ROWS.len() {
        let (code, low) = SINGLE_ROWS[place];
        rows[code as usize] = Some(low_bytes(code, low));
        place += 1;
    }
    with_function_keys(with_keypad(with_letters(with_digits(rows))))
}

/// The digit keys, and the words that they and the two keys after them have under Alt.
const fn with_digits(mut rows: Rows) -> Rows {
    let plain = b"1234567890";
    let shift = b"!@#$%^&*()";
    let mut place = 0;
    while place < plain.len() {
        let code = 0x02 + place as u8;
        let ctrl = match code {
            0x03 => 0x00,
            0x07 => 0x1E,
            _ => NONE,
        };
        let low = [plain[place] as i16, shift[place] as i16, ctrl, NONE];
        rows[code as usize] = Some(low_bytes(code, low));
        place += 1;
    }
    let mut code = 0x02;
    while code <= 0x0D {
        if let Some(mut row) = rows[code] {
            row.words[ALT] = Some(0x7800 + 0x100 * (code as u16 - 0x02));
            rows[code] = Some(row);
        }
        code += 1;
    }
    rows
}

const fn with_letters(mut rows: Rows) -> Rows {
    let mut run = 0;
    while run < LETTERS.len() {
        let (first, letters) = LETTERS[run];
        let mut place = 0;
        while place < letters.len() {
            let code = first + place as u8;
            let lower = letters[place] as i16;
            let upper = letters[place].to_ascii_uppercase() as i16;
            let mut row = low_bytes(code, [lower, upper, lower - 0x60, 0x00]);
            row.lock = CAPS;
            rows[code as usize] = Some(row);
            place += 1;
        }
        run += 1;
    }
    rows
}

const fn with_keypad(mut rows: Rows) -> Rows {
    let mut place = 0;
    while place < KEYPAD.len() {
        let (code, digit, ctrl) = KEYPAD[place];
        let mut row = low_bytes(code, [0x00, digit as i16, NONE, NONE]);
        if ctrl != 0 {
            row.words[CTRL] = Some(ctrl);
        }
        row.lock = NUM;
        rows[code as usize] = Some(row);
        place += 1;
    }
    rows
}

/// Runs of function keys: the first code, how many keys, and the first key's words. Each word is
/// one hundred above that of the key before it. F11 and F12 have the enhanced words.
const FUNCTION_KEYS: [(usize, usize, [u16; 4]); 2] = [
    (0x3B, 10, [0x3B00, 0x5400, 0x5E00, 0x6800]),
    (0x57, 2, [0x8500, 0x8700, 0x8900, 0x8B00]),
];

const fn with_function_keys(mut rows: Rows) -> Rows {
    let mut run = 0;
    while run < FUNCTION_KEYS.len() {
        let (first, keys, words) = FUNCTION_KEYS[run];
        let mut place = 0;
        while place < keys {
            rows[first + place] = Some(every_column(words, 0x100 * place as u16));
            place += 1;
        }
        run += 1;
    }
    rows
}

/// A row with a word in each column, so far above the given ones.
const fn every_column(words: [u16; 4], above: u16) -> Row {
    let [plain, shift, ctrl, alt] = words;
    Row {
        words: [
            Some(plain + above),
            Some(shift + above),
            Some(ctrl + above),
            Some(alt + above),
        ],
        lock: 0,
    }
}

/// Codes of the grey keys after E0, with the words alone and under Ctrl.
const GREY_KEYS: [(u8, u16, Option<u16>); 12] = [
    (0x1C, 0xE00D, Some(0xE00A)),
    (0x35, 0xE02F, None),
    (0x47, 0x47E0, Some(0x77E0)),
    (0x48, 0x48E0, None),
    (0x49, 0x49E0, Some(0x84E0)),
    (0x4B, 0x4BE0, Some(0x73E0)),
    (0x4D, 0x4DE0, Some(0x74E0)),
    (0x4F, 0x4FE0, Some(0x75E0)),
    (0x50, 0x50E0, None),
    (0x51, 0x51E0, Some(0x76E0)),
    (0x52, 0x52E0, None),
    (0x53, 0x53E0, None),
];

/// Rows after E0. Plain and shift are the same there, so Shift and locks change nothing.
const fn extended_rows() -> Rows {
    let mut extended: Rows = [None; 128];
    let mut place = 0;
    while place < GREY_KEYS.len() {
        let (code, plain, ctrl) = GREY_KEYS[place];
        let words = [Some(plain), Some(plain), ctrl, None];
        extended[code as usize] = Some(Row { words, lock: 0 });
        place += 1;
    }
    extended[0x37] = Some(low_bytes(0x37, [NONE; 4]));
    extended[0x46] = Some(low_bytes(0x46, [NONE; 4]));
    extended
}

#[cfg(test)]
mod tests {
    use super::*;
    use crate::queue::as_an_old_program_sees;

    #[test]
    fn counts_rows() {
        assert_eq!(ROWS.iter().flatten().count(), 78);
        assert_eq!(EXTENDED_ROWS.iter().flatten().count(), 14);
    }

    #[test]
    fn breaks_have_no_row() {
        assert!((0x80..=0xFF).all(|code| row(code).is_none() && row(0xE000 | code).is_none()));
    }

    /// So neither Shift nor Num matters to these two, though they lie among the keypad's codes.
    #[test]
    fn keypad_signs_ignore_shift() {
        for code in [0x4A, 0x4E] {
            let words = row(code).unwrap().words;
            assert_eq!(words[PLAIN], words[SHIFT]);
        }
    }

    /// Samples at the ends of each run of rows.
    #[test]
    fn holds_printed_words() {
        let samples: [(u16, [i32; 4]); 15] = [
            (0x02, [0x0231, 0x0221, -1, 0x7800]),
            (0x03, [0x0332, 0x0340, 0x0300, 0x7900]),
            (0x0B, [0x0B30, 0x0B29, -1, 0x8100]),
            (0x0C, [0x0C2D, 0x0C5F, 0x0C1F, 0x8200]),
            (0x0D, [0x0D3D, 0x0D2B, -1, 0x8300]),
            (0x19, [0x1970, 0x1950, 0x1910, 0x1900]),
            (0x32, [0x326D, 0x324D, 0x320D, 0x3200]),
            (0x44, [0x4400, 0x5D00, 0x6700, 0x7100]),
            (0x53, [0x5300, 0x532E, -1, -1]),
            (0x57, [0x8500, 0x8700, 0x8900, 0x8B00]),
            (0x58, [0x8600, 0x8800, 0x8A00, 0x8C00]),
            (0xE01C, [0xE00D, 0xE00D, 0xE00A, -1]),
            (0xE047, [0x47E0, 0x47E0, 0x77E0, -1]),
            (0xE053, [0x53E0, 0x53E0, -1, -1]),
            (0xE035, [0xE02F, 0xE02F, -1, -1]),
        ];
        for (code, words) in samples {
            let expected = words.map(|word| u16::try_from(word).ok());
            assert_eq!(row(code).unwrap().words, expected, "{code:04X}");
        }
    }

    /// So a word tells which key put it, where one of the two is grey.
    #[test]
    fn grey_keys_share_no_word() {
        let codes = (0x00..0x80).chain(0xE000..0xE080);
        let words = |code| row(code).map_or([None; 4], |row| row.words);
        for (grey, ..) in GREY_KEYS {
            let grey = 0xE000 | u16::from(grey);
            for other in codes.clone().filter(|&other| other != grey) {
                let shared = |word: &Option<u16>| word.is_some() && words(other).contains(word);
                assert!(!words(grey).iter().any(shared), "{grey:04X}, {other:04X}");
            }
        }
    }

    #[test]
    fn old_programs_see_grey_keys_as_those_without_e0() {
        for (code, plain, ctrl) in GREY_KEYS {
            let seen = [Some(plain), ctrl].map(|word| word.map(as_an_old_program_sees));
            let words = row(code.into()).unwrap().words;
            assert_eq!(seen, [words[PLAIN], words[CTRL]], "{code:02X}");
        }
    }
}
