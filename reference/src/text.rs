//! Refusals, and the reader of `key=value` lines.

use std::ops::RangeInclusive;

/// Why an input was refused: the rule's number, and the line (or group)
/// it concerns, 0 where none does.
#[derive(Clone, Copy, Debug, PartialEq, Eq)]
pub struct Refusal {
    pub number: u32,
    pub line: u64,
}

impl Refusal {
    /// A refusal that concerns no line.
    pub(crate) fn whole(number: u32) -> Refusal {
        Refusal { number, line: 0 }
    }
}

/// The refusal numbers, in checking order but for the last, which is checked
/// after 9.
pub mod number {
    pub const IMPOSSIBLE_VALUES: u32 = 1;
    pub const TEXT_TOO_LONG: u32 = 2;
    pub const LINE_ABSENT: u32 = 3;
    pub const WRONG_KEY: u32 = 4;
    pub const EMPTY_VALUE: u32 = 5;
    pub const BADLY_WRITTEN: u32 = 6;
    pub const OUT_OF_RANGE: u32 = 7;
    pub const REPEATED_ID: u32 = 8;
    pub const BYTES_FOLLOW: u32 = 9;
    pub const GROUP_FULL: u32 = 10;
    pub const ERROR_TOO_LARGE: u32 = 11;
    pub const TOO_FEW_HOURS: u32 = 12;
    pub const SIGMA_ZERO: u32 = 13;
    pub const BUFFER_SHORT: u32 = 14;
    /// A number marked suspect on a unit that such a mark turns back.
    pub const SUSPECT: u32 = 15;
}

/// Reads a text line by line; every line is asked for by its key.
pub(crate) struct Lines<'a> {
    rest: &'a [u8],
    /// The number of the line read last.
    line: u64,
}

impl<'a> Lines<'a> {
    /// Reads `text` from its line 1, if it is within its limit of bytes.
    pub fn within(text: &'a [u8], limit: usize) -> Result<Lines<'a>, Refusal> {
        if text.len() > limit {
            return Err(Refusal::whole(number::TEXT_TOO_LONG));
        }
        Ok(Lines::numbered(text, 1))
    }

    /// Reads `text`, whose first line has the given number.
    pub fn numbered(text: &'a [u8], first_line: u64) -> Lines<'a> {
        Lines {
            rest: text,
            line: first_line - 1,
        }
    }

    /// A refusal of the line read last.
    pub fn refuse(&self, number: u32) -> Refusal {
        Refusal {
            number,
            line: self.line,
        }
    }

    /// The value of the next line, which must carry `key`.
    pub fn value(&mut self, key: &str) -> Result<&'a [u8], Refusal> {
        self.line += 1;
        let rest = self.rest;
        let Some(end) = rest.iter().position(|&byte| byte == b'\n') else {
            return Err(self.refuse(number::LINE_ABSENT));
        };
        self.rest = &rest[end + 1..];
        let after_key = rest[..end].strip_prefix(key.as_bytes());
        let Some([b'=', value @ ..]) = after_key else {
            return Err(self.refuse(number::WRONG_KEY));
        };
        if value.is_empty() {
            return Err(self.refuse(number::EMPTY_VALUE));
        }
        Ok(value)
    }

    /// The number on the next line, which can carry no mark.
    pub fn number(&mut self, key: &str, range: RangeInclusive<i64>) -> Result<i64, Refusal> {
        let value = self.value(key)?;
        self.in_range(value, range)
    }

    /// The number on the next line, and whether one `?` behind it marks it as
    /// suspect.
    pub fn markable_number(
        &mut self,
        key: &str,
        range: RangeInclusive<i64>,
    ) -> Result<(i64, bool), Refusal> {
        match self.value(key)? {
            [value @ .., b'?'] => Ok((self.in_range(value, range)?, true)),
            value => Ok((self.in_range(value, range)?, false)),
        }
    }

    /// The number that this value of the line read last stands for.
    fn in_range(&self, value: &[u8], range: RangeInclusive<i64>) -> Result<i64, Refusal> {
        match parse_number(value) {
            None => Err(self.refuse(number::BADLY_WRITTEN)),
            Some(number) if range.contains(&number) => Ok(number),
            Some(_) => Err(self.refuse(number::OUT_OF_RANGE)),
        }
    }

    /// The flag, 0 or 1, on the next line.
    pub fn flag(&mut self, key: &str) -> Result<bool, Refusal> {
        Ok(self.number(key, 0..=1)? == 1)
    }

    /// The word on the next line, as `meaning` translates it.
    pub fn word<T>(
        &mut self,
        key: &str,
        meaning: impl Fn(&'a [u8]) -> Option<T>,
    ) -> Result<T, Refusal> {
        let value = self.value(key)?;
        meaning(value).ok_or_else(|| self.refuse(number::BADLY_WRITTEN))
    }

    /// Checks that no byte follows the last due line.
    pub fn end(&self) -> Result<(), Refusal> {
        if self.rest.is_empty() {
            return Ok(());
        }
        Err(Refusal {
            number: number::BYTES_FOLLOW,
            line: self.line + 1,
        })
    }
}

/// The value of a well-written number, or `None`.
///
/// A number too large for the machine word is still well written. It becomes
/// the word's extreme, which lies outside every range a line can have.
fn parse_number(value: &[u8]) -> Option<i64> {
    let (negative, digits) = match value {
        [b'-', digits @ ..] => (true, digits),
        digits => (false, digits),
    };
    let well_written = match digits {
        [] => false,
        [b'0'] => !negative,
        [b'0', ..] => false,
        _ => digits.iter().all(u8::is_ascii_digit),
    };
    if !well_written {
        return None;
    }
    let size = digits.iter().fold(0_i64, |size, digit| {
        size.saturating_mul(10)
            .saturating_add(i64::from(digit - b'0'))
    });
    Some(if negative { -size } else { size })
}

#[cfg(test)]
mod tests {
    use super::*;

    #[test]
    fn well_written_numbers() {
        for (text, value) in [
            ("0", 0),
            ("7", 7),
            ("10", 10),
            ("-1", -1),
            ("-90", -90),
            ("9223372036854775807", i64::MAX),
            ("9223372036854775808", i64::MAX),
            ("-99999999999999999999999999", -i64::MAX),
        ] {
            assert_eq!(parse_number(text.as_bytes()), Some(value), "{text}");
        }
    }

    #[test]
    fn badly_written_numbers() {
        for text in [
            "", "-", "-0", "00", "01", "-01", "+1", " 1", "1 ", "1\r", "1.0", "1e3", "--1", "x",
            "0x1", "1-", "\u{661}", "1?", "?",
        ] {
            assert_eq!(parse_number(text.as_bytes()), None, "{text}");
        }
    }

    #[test]
    fn a_line_is_checked_in_order_of_the_numbers() {
        let refusal = |text: &str| {
            let mut lines = Lines::numbered(text.as_bytes(), 4);
            lines
                .number("key", 0..=9)
                .map_err(|refusal| (refusal.number, refusal.line))
        };
        assert_eq!(refusal("key=9\n"), Ok(9));
        for (text, number) in [
            ("", 3),
            ("key=5", 3),
            ("wrong", 3),
            ("\n", 4),
            ("key\n", 4),
            ("ke=5\n", 4),
            ("keys=5\n", 4),
            (" key=5\n", 4),
            ("Key=5\n", 4),
            ("key=\n", 5),
            ("key= 5\n", 6),
            ("key=05\n", 6),
            ("key==5\n", 6),
            ("key=5\r\n", 6),
            ("key=10\n", 7),
            ("key=-5\n", 7),
            ("key=100000000000000000000000000000000000000000\n", 7),
        ] {
            assert_eq!(refusal(text), Err((number, 4)), "{text:?}");
        }
    }

    #[test]
    fn a_markable_number_hands_its_mark_on() {
        let read = |value: &str| {
            let text = format!("key={value}\n");
            Lines::numbered(text.as_bytes(), 4).markable_number("key", -9..=9)
        };
        for (value, number, marked) in [
            ("0", 0, false),
            ("0?", 0, true),
            ("9", 9, false),
            ("9?", 9, true),
            ("-9", -9, false),
            ("-9?", -9, true),
        ] {
            assert_eq!(read(value), Ok((number, marked)), "{value}");
        }
        for (value, number) in [
            ("", 5),
            ("?", 6),
            ("-?", 6),
            ("??", 6),
            ("5??", 6),
            ("?5", 6),
            ("?5?", 6),
            ("5?5", 6),
            ("-0?", 6),
            ("05?", 6),
            ("5 ?", 6),
            ("5? ", 6),
            ("5?\r", 6),
            ("10?", 7),
            ("-10?", 7),
            ("99999999999999999999999999?", 7),
            ("-99999999999999999999999999?", 7),
        ] {
            assert_eq!(read(value), Err(Refusal { number, line: 4 }), "{value}");
        }
    }

    #[test]
    fn numbers_and_flags_carry_no_mark() {
        for value in ["1?", "0?", "10?"] {
            let text = format!("key={value}\n");
            let lines = || Lines::numbered(text.as_bytes(), 4);
            let refusal = Refusal { number: 6, line: 4 };
            assert_eq!(lines().number("key", 0..=9), Err(refusal), "{value}");
            assert_eq!(lines().flag("key"), Err(refusal), "{value}");
        }
    }

    #[test]
    fn the_end_names_the_line_after_the_last() {
        let mut lines = Lines::within(b"a=1\nb=2\n\n", 9).unwrap();
        assert_eq!(lines.number("a", 0..=9), Ok(1));
        assert_eq!(lines.number("b", 0..=9), Ok(2));
        assert_eq!(lines.end(), Err(Refusal { number: 9, line: 3 }));
        assert!(Lines::within(b"a=1\nb=2\n\n", 8).is_err());
    }
}
