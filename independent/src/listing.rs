//! What the listing program prints for a file.

use crate::description::point_size;
use crate::record::{self, Place, Record, Step};
use crate::refusal::Carried;

pub const LARGEST: usize = 65536;

pub fn list(file: &[u8]) -> String {
    if file.len() > LARGEST {
        return "large\n".to_string();
    }
    let mut text = String::new();
    let mut place = 0;
    loop {
        match record::step(file, place) {
            Step::Record(record) => {
                text += &format!("record {place} {} {}\n", record.length, record.count);
                list_points(&mut text, &file[place..], &record);
                place += record.length;
            }
            Step::End => return text + &format!("end {place}\n"),
            Step::Refused(refusal) => {
                return text
                    + &match refusal.carried {
                        Carried::Place(_) => format!("{}\n", refusal.text()),
                        // Short is the only refusal of a step without a place.
                        _ => format!("short {place}\n"),
                    };
            }
        }
    }
}

/// No line is printed where a point has no bytes.
fn list_points(text: &mut String, bytes: &[u8], record: &Record) {
    if point_size(&record.description) == 0 {
        return;
    }
    for index in 0..record.count {
        // A judged record has all of its points.
        let Ok(places) = record::read_point(bytes, record, index) else {
            return;
        };
        *text += &format!("point {index}");
        for place in places.into_iter().filter(|place| *place != Place::Absent) {
            *text += " ";
            *text += &place.text();
        }
        *text += "\n";
    }
}
