//! Full records (002, clause 7): judged, read, and walked over.

use crate::cursor::Cursor;
use crate::description::{self, point_size, stored, value_range, value_width, Description, Format};
use crate::refusal::Refusal;
use crate::values::amount;

pub const IDENTIFIER: [u8; 4] = *b"SDI\0";
pub const VERSION: [u8; 4] = *b" 10\0";
pub const GREATEST_COUNT: i64 = 16_777_215;

/// A record at the front of some bytes.
#[derive(Clone, Debug, PartialEq, Eq)]
pub struct Record {
    pub length: usize,
    pub count: i64,
    pub description: Description,
    /// Where the first point starts.
    pub points: usize,
    /// Where the extended data start, if there are any.
    pub extended: Option<usize>,
}

impl Record {
    pub fn presence(&self) -> &'static str {
        match self.extended {
            Some(_) => "extended",
            None => "plain",
        }
    }
}

/// One place of a point.
#[derive(Clone, Copy, Debug, PartialEq, Eq)]
pub enum Place {
    Absent,
    Constant,
    Number(i64),
}

impl Place {
    pub fn text(self) -> String {
        match self {
            Place::Absent => ".".to_string(),
            Place::Constant => "-".to_string(),
            Place::Number(number) => number.to_string(),
        }
    }
}

/// What stands before the points: the header, the opening byte and the count.
pub struct Front {
    pub description: Description,
    pub extended: bool,
    pub count: i64,
}

/// Refusals 1 to 7, as the bytes come.
pub fn read_front(cursor: &mut Cursor) -> Result<Front, Refusal> {
    fixed(cursor, IDENTIFIER, 2)?;
    fixed(cursor, VERSION, 3)?;
    let description = description::read(cursor, Format::Full)?;
    cursor.demand(6, |byte| byte == 0)?;
    let opening = cursor.demand(7, |byte| byte & 0x7F == 0)?;
    Ok(Front {
        description,
        extended: opening != 0,
        count: cursor.number(3)?,
    })
}

pub fn judge(bytes: &[u8]) -> Result<Record, Refusal> {
    let mut cursor = Cursor::new(bytes, 0, 1);
    let front = read_front(&mut cursor)?;
    let points = cursor.place();
    skip_points(&mut cursor, &front.description, front.count)?;
    let extended = match front.extended {
        false => None,
        true => Some(skip_extended(&mut cursor)?),
    };
    Ok(Record {
        length: cursor.place(),
        count: front.count,
        description: front.description,
        points,
        extended,
    })
}

fn fixed(cursor: &mut Cursor, wanted: [u8; 4], number: u8) -> Result<(), Refusal> {
    for byte in wanted {
        cursor.demand(number, |found| found == byte)?;
    }
    Ok(())
}

fn skip_points(cursor: &mut Cursor, description: &Description, count: i64) -> Result<(), Refusal> {
    // A point without bytes is good any number of times.
    if point_size(description) == 0 {
        return Ok(());
    }
    for _ in 0..count {
        for channel in stored(description) {
            read_value(cursor, description.mark, channel)?;
        }
    }
    Ok(())
}

/// A two-byte length (notes A3) and that many bytes; answers where they start.
fn skip_extended(cursor: &mut Cursor) -> Result<usize, Refusal> {
    let length = cursor.number(2)?;
    let start = cursor.place();
    for _ in 0..length {
        cursor.next()?;
    }
    Ok(start)
}

/// The number of a channel that comes next: 1 or 8, as its bytes come.
pub fn read_value(cursor: &mut Cursor, format: Format, channel: usize) -> Result<i64, Refusal> {
    let (low, high) = value_range(format, channel);
    let place = cursor.place();
    let value = cursor.number(value_width(format, channel))? + low;
    // The bytes hold every number of the range and no other; only S can be out of it.
    if value > high {
        return Err(Refusal::at(8, place));
    }
    Ok(value)
}

pub fn whole(bytes: &[u8]) -> Result<Record, Refusal> {
    let record = judge(bytes)?;
    if record.length < bytes.len() {
        return Err(Refusal::at(9, record.length));
    }
    Ok(record)
}

pub fn extended(bytes: &[u8]) -> &[u8] {
    match judge(bytes) {
        Ok(Record {
            extended: Some(start),
            length,
            ..
        }) => bytes.get(start..length).unwrap_or(&[]),
        _ => &[],
    }
}

pub fn rest(bytes: &[u8]) -> &[u8] {
    match judge(bytes) {
        Ok(record) => bytes.get(record.length..).unwrap_or(&[]),
        Err(_) => &[],
    }
}

pub fn point(bytes: &[u8], index: i64) -> Result<[Place; 16], Refusal> {
    let record = judge(bytes)?;
    if index >= record.count {
        return Err(Refusal::bare(10));
    }
    read_point(bytes, &record, index)
}

/// The point with this index of a record that was judged good.
pub fn read_point(bytes: &[u8], record: &Record, index: i64) -> Result<[Place; 16], Refusal> {
    let start = record.points + index as usize * point_size(&record.description);
    read_places(&mut Cursor::new(bytes, start, 1), &record.description)
}

/// The numbers of a record that was judged good, point after point.
pub fn read_values(bytes: &[u8], record: &Record) -> Result<Vec<i64>, Refusal> {
    let description = &record.description;
    let mut cursor = Cursor::new(bytes, record.points, 1);
    let channels = stored(description).into_iter().cycle();
    channels
        .take(amount(description, record.count) as usize)
        .map(|channel| read_value(&mut cursor, description.mark, channel))
        .collect()
}

/// The point that comes next, in a record or in a body: 1 or 8, as its bytes come.
pub fn read_places(cursor: &mut Cursor, description: &Description) -> Result<[Place; 16], Refusal> {
    let mut places = [Place::Absent; 16];
    for (channel, place) in places.iter_mut().enumerate() {
        let said = &description[channel];
        *place = match (said.included, said.constant) {
            (false, _) => Place::Absent,
            (true, true) => Place::Constant,
            (true, false) => Place::Number(read_value(cursor, description.mark, channel)?),
        };
    }
    Ok(places)
}

/// One step of the walk over a file of joined records.
pub enum Step {
    End,
    Record(Box<Record>),
    Refused(Refusal),
}

/// Places count from the file's start. At or past the end the answer is the end.
pub fn step(file: &[u8], place: usize) -> Step {
    match file.get(place..) {
        None | Some([]) => Step::End,
        Some(front) => match judge(front) {
            Ok(record) => Step::Record(Box::new(record)),
            Err(refusal) => Step::Refused(refusal.later(place)),
        },
    }
}
