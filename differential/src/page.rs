//! What a reader of a page relies on, on random curve sets.
//!
//! Every row has its bytes and its one byte 10, at the end. Its words are its
//! season and block in group order, then the mean and the spread that the set
//! has for the group, then four probabilities, of which none is above the one
//! before: more reserve never raises a probability. VOLL and X stay out of the
//! page: another set with the same pairs has the same one.

use crate::generate::page_curves;
use crate::{show_curves, Curves, Library, Random};

const ROWS: usize = 24;
const ROW_LENGTH: usize = 72;
const PAGE_LENGTH: usize = ROWS * ROW_LENGTH;

const SEASONS: [&str; 4] = ["winter", "spring", "summer", "fall"];
const ONE: i64 = 1_000_000_000;

/// How many pages there were, and how telling they were.
#[derive(Clone, Copy, Debug, Default, PartialEq, Eq)]
pub struct Counts {
    pub pages: u64,
    pub rows: u64,
    /// All four probabilities of the row differ.
    pub falling: u64,
    /// The two sets of a page differ in VOLL and in X.
    pub apart: u64,
}

impl Counts {
    pub fn add(&mut self, other: &Counts) {
        self.pages += other.pages;
        self.rows += other.rows;
        self.falling += other.falling;
        self.apart += other.apart;
    }
}

/// Checks the page of one curve set, and that of another with the same pairs.
/// What is broken is told in the error.
pub fn check(library: &dyn Library, random: &mut Random) -> Result<Counts, String> {
    let curves = page_curves(random);
    let mut other = page_curves(random);
    other[2..].copy_from_slice(&curves[2..]);
    let told = |broken: String, page: &[u8]| {
        let mut out = format!("{broken}\n");
        show_curves(&mut out, &curves);
        for row in page.chunks(ROW_LENGTH) {
            out += &format!("  \"{}\"\n", row.escape_ascii());
        }
        out
    };
    let page = written(library, &curves).map_err(|broken| told(broken, b""))?;
    let mut counts = Counts {
        pages: 1,
        rows: ROWS as u64,
        ..Counts::default()
    };
    for (group, row) in page.chunks(ROW_LENGTH).enumerate() {
        let pair = [curves[2 + 2 * group], curves[3 + 2 * group]];
        let row = check_row(row, group, pair);
        let probabilities = row.map_err(|broken| told(format!("row {group}: {broken}"), &page))?;
        let falls = |pair: &[i64]| pair[0] > pair[1];
        counts.falling += u64::from(probabilities.windows(2).all(falls));
    }
    let same = written(library, &other).map_err(|broken| told(broken, &page))?;
    if same != page {
        let broken = format!(
            "the same pairs with VOLL {}, X {} have another page",
            other[0], other[1]
        );
        return Err(told(broken, &page));
    }
    counts.apart = u64::from(curves[0] != other[0] && curves[1] != other[1]);
    Ok(counts)
}

/// The page of a set in its ranges, which is accepted.
fn written(library: &dyn Library, curves: &Curves) -> Result<[u8; PAGE_LENGTH], String> {
    let mut page = [0; PAGE_LENGTH];
    let refusal = library.write_page(curves, &mut page);
    if refusal.accepted() {
        Ok(page)
    } else {
        Err(format!("refused {} line {}", refusal.number, refusal.line))
    }
}

/// The probabilities of a row in which nothing is wrong, or what is.
fn check_row(row: &[u8], group: usize, pair: [i64; 2]) -> Result<[i64; 4], String> {
    let [cells @ .., b'\n'] = row else {
        return Err("its last byte is not 10".to_string());
    };
    if cells.contains(&b'\n') {
        return Err("a byte 10 before its last".to_string());
    }
    let Ok(cells) = std::str::from_utf8(cells) else {
        return Err("bytes that are no text".to_string());
    };
    let words: Vec<&str> = cells.split(' ').filter(|word| !word.is_empty()).collect();
    let [season, block, numbers @ ..] = &words[..] else {
        return Err("words are missing".to_string());
    };
    if (*season, *block) != (SEASONS[group / 6], &*(group % 6).to_string()) {
        return Err(format!("it is called {season} {block}"));
    }
    let numbers: Option<Vec<i64>> = numbers.iter().map(|word| number(word)).collect();
    let Some([mu, sigma, probabilities @ ..]) = numbers.as_deref() else {
        return Err("words that are no numbers, or too few".to_string());
    };
    if [*mu, *sigma] != pair {
        return Err(format!("mean {mu} and spread {sigma}"));
    }
    let Ok(probabilities) = <[i64; 4]>::try_from(probabilities) else {
        return Err(format!("{} probabilities", probabilities.len()));
    };
    if !probabilities.iter().all(|one| (0..=ONE).contains(one)) {
        return Err("a probability that is none".to_string());
    }
    if probabilities.windows(2).any(|pair| pair[0] < pair[1]) {
        return Err("a probability rises with reserve".to_string());
    }
    Ok(probabilities)
}

/// A number as it is written, in no other way.
fn number(word: &str) -> Option<i64> {
    let number: i64 = word.parse().ok()?;
    (number.to_string() == word).then_some(number)
}
