//! Bytes taken one at a time, so that the first wrong byte decides, and counted as they are taken.

use crate::refusal::Refusal;

pub struct Cursor<'a> {
    bytes: &'a [u8],
    place: usize,
    taken: usize,
    /// The refusal's number when the bytes run out: 1 in a record, 17 inside a template.
    runs_out: u8,
}

impl<'a> Cursor<'a> {
    pub fn new(bytes: &'a [u8], place: usize, runs_out: u8) -> Cursor<'a> {
        Cursor {
            bytes,
            place,
            taken: 0,
            runs_out,
        }
    }

    /// The place of the byte that comes next.
    pub fn place(&self) -> usize {
        self.place
    }

    /// How many bytes were taken. One that breaks a rule is among them; one that is missing isn't.
    pub fn taken(&self) -> usize {
        self.taken
    }

    pub fn next(&mut self) -> Result<u8, Refusal> {
        let byte = self.bytes.get(self.place).copied();
        let byte = byte.ok_or(Refusal::bare(self.runs_out))?;
        self.place += 1;
        self.taken += 1;
        Ok(byte)
    }

    /// Goes on behind so many bytes, which are not taken, be they there or not.
    pub fn pass_over(&mut self, amount: usize) {
        self.place += amount;
    }

    /// A number of `width` bytes, high byte first.
    pub fn number(&mut self, width: usize) -> Result<i64, Refusal> {
        let mut number = 0;
        for _ in 0..width {
            number = number * 256 + i64::from(self.next()?);
        }
        Ok(number)
    }

    /// A byte that must satisfy `good`, or the refusal is `number` at its place.
    pub fn demand(&mut self, number: u8, good: impl Fn(u8) -> bool) -> Result<u8, Refusal> {
        let place = self.place;
        let byte = self.next()?;
        if good(byte) {
            Ok(byte)
        } else {
            Err(Refusal::at(number, place))
        }
    }
}
