//! The table of ops against the frames of the second implementation.

use reference::frame;
use tools::ops::{self, Place, TABLE};

/// A frame of zeros but for its op and one digit.
fn line(op: u64, one_at: Option<usize>) -> Vec<u8> {
    let mut line = format!("{op:02x}{}", "0".repeat(frame::DIGITS - 2)).into_bytes();
    if let Some(place) = one_at {
        line[place] = b'1';
    }
    line
}

#[test]
fn every_op_has_its_row() {
    for op in 0..=0xff {
        let exists = frame::parse(&line(op, None)).is_some();
        let rows = TABLE.iter().filter(|row| row.number == op).count();
        assert_eq!(rows, usize::from(exists), "op {op:02x}");
    }
}

#[test]
fn every_row_has_the_fields_of_its_frame() {
    let last_digits = [(Place::P, 19), (Place::Q, 23), (Place::R, 39)];
    for row in TABLE {
        for (place, digit) in last_digits {
            let used = frame::parse(&line(row.number, Some(digit))).is_some();
            let fields = row.fields.iter().filter(|field| field.place == place);
            assert_eq!(fields.count(), usize::from(used), "{}, {place:?}", row.name);
        }
    }
}

#[test]
fn fields_stand_in_the_order_of_the_frame() {
    for row in TABLE {
        let places: Vec<usize> = row
            .fields
            .iter()
            .map(|field| field.place as usize)
            .collect();
        assert!(places.is_sorted(), "{}", row.name);
    }
}

#[test]
fn each_name_is_one_op() {
    for row in TABLE {
        assert_eq!(
            ops::named(row.name).map(|found| found.number),
            Some(row.number)
        );
    }
}

/// The greatest number of a field is written in its digits and no more.
#[test]
fn greatest_numbers_are_the_frame_s() {
    for row in TABLE {
        let mut numbers = [0; 3];
        for field in row.fields {
            numbers[field.place as usize] = field.place.most();
        }
        let thread = 0xff;
        let op = row.op(numbers);
        let frame = frame::print(reference::calls::Call { thread, op });
        let zeros = frame.iter().skip(2).filter(|&&digit| digit != b'f').count();
        let unused = [(Place::P, 16), (Place::Q, 4), (Place::R, 16)];
        let unused = unused
            .iter()
            .filter(|(place, _)| row.fields.iter().all(|f| f.place != *place));
        assert_eq!(
            zeros,
            unused.map(|(_, digits)| digits).sum::<usize>(),
            "{}",
            row.name
        );
    }
}
