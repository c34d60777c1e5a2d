//! A snapshot as a host holds it, written and read in every way there is.

use reference::{
    held_length, held_text, read_held, read_snapshot, snapshot_of_held, write_held, Refusal,
    ID_ROW, NUMBER_ROW,
};

/// What a host holds, or lends for reading.
#[derive(Clone, Debug, PartialEq, Eq)]
pub struct Held {
    pub header: [i64; 8],
    pub ids: Vec<u8>,
    pub numbers: Vec<i64>,
}

pub type Row = [i64; NUMBER_ROW];

pub fn id_row(id: &[u8]) -> [u8; ID_ROW] {
    let mut row = [0; ID_ROW];
    row[..id.len()].copy_from_slice(id);
    row
}

impl Held {
    pub fn of(resources: &[(&str, Row)]) -> Held {
        let ids = resources.iter().map(|(id, _)| id_row(id.as_bytes()));
        Held {
            header: [7, 14, -2500, 9750, 3_000_000, 2_300_000, 10, 0],
            ids: ids.flatten().collect(),
            numbers: resources.iter().flat_map(|(_, row)| *row).collect(),
        }
        .counted()
    }

    /// Space for this many resources, with something in every place.
    pub fn lent(rows: usize) -> Held {
        Held {
            header: [-77; 8],
            ids: vec![0x77; rows * ID_ROW],
            numbers: vec![-77; rows * NUMBER_ROW],
        }
    }

    pub fn rows(&self) -> usize {
        (self.ids.len() / ID_ROW).min(self.numbers.len() / NUMBER_ROW)
    }

    /// The same with the number of rows as its eighth header number, as
    /// reading leaves it.
    pub fn counted(mut self) -> Held {
        self.header[7] = self.rows() as i64;
        self
    }

    pub fn set_id(&mut self, row: usize, id: &[u8]) {
        self.ids[row * ID_ROW..(row + 1) * ID_ROW].copy_from_slice(&id_row(id));
    }

    pub fn number(&mut self, row: usize, place: usize) -> &mut i64 {
        &mut self.numbers[row * NUMBER_ROW + place]
    }

    /// Writes with room to spare. Whatever the answer, all that no rule lets
    /// be written must stay, and all ways to ask must agree.
    pub fn written(&self) -> Result<Vec<u8>, Refusal> {
        let Held {
            header,
            ids,
            numbers,
        } = self;
        let room = 200 + 130 * self.rows();
        let mut buffer = vec![0xAA; room];
        let answer = write_held(header, ids, numbers, &mut buffer);
        assert_eq!(held_length(header, ids, numbers), answer);
        let after = answer.unwrap_or(0);
        assert!(buffer[after..].iter().all(|&byte| byte == 0xAA));
        let text = answer.map(|length| buffer[..length].to_vec());
        assert_eq!(held_text(header, ids, numbers), text);
        assert_eq!(snapshot_of_held(header, ids, numbers).err(), answer.err());
        if let Ok(text) = &text {
            assert_eq!(snapshot_of_held(header, ids, numbers), read_snapshot(text));
        }
        text
    }

    /// Reads into this space. A refusal must leave it.
    pub fn read(&mut self, text: &[u8]) -> Result<(), Refusal> {
        let before = self.clone();
        let answer = read_held(text, &mut self.header, &mut self.ids, &mut self.numbers);
        if answer.is_err() {
            assert_eq!(*self, before);
        }
        answer
    }
}

/// The values of a text, read into as many rows as it needs.
pub fn values_of(text: &[u8]) -> Held {
    let rows = read_snapshot(text).unwrap().resources.len();
    let mut held = Held::lent(rows);
    assert_eq!(held.read(text), Ok(()));
    held
}
