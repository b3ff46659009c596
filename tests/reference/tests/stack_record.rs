//! The stack record that the host's scheduler holds.

use reference::answer::Answer;
use reference::stack_record::StackRecord;

fn pair(answer: Answer) -> (u64, u64) {
    (answer.status, answer.value)
}

#[test]
fn begins_empty() {
    let mut record = StackRecord::new();
    assert_eq!(record.entries(), [0; 0]);
    assert_eq!(pair(record.pop()), (11, 0));
    assert_eq!(record.entries(), [0; 0]);
}

/// Areas that are not made and scopes that stand on it already are no matter.
#[test]
fn pops_what_was_pushed() {
    let mut record = StackRecord::new();
    for area in [5, 0, 63, 5] {
        assert_eq!(pair(record.push(area)), (0, 0));
    }
    assert_eq!(record.entries(), [5, 0, 63, 5]);
    for area in [5, 63, 0, 5] {
        assert_eq!(pair(record.pop()), (0, area));
    }
    assert_eq!(pair(record.pop()), (11, 0));
}

#[test]
fn refuses_areas_above_63() {
    let mut record = StackRecord::new();
    assert_eq!(pair(record.push(64)), (6, 0));
    assert_eq!(pair(record.push(u64::MAX)), (6, 0));
    assert_eq!(record.entries(), [0; 0]);
}

#[test]
fn refuses_the_33rd_entry() {
    let mut record = StackRecord::new();
    for area in 0..32 {
        assert_eq!(pair(record.push(area)), (0, 0));
    }
    let full = record.clone();
    assert_eq!(pair(record.push(1)), (9, 0));
    // 6 before 9.
    assert_eq!(pair(record.push(64)), (6, 0));
    assert_eq!(record, full);
    assert_eq!(pair(record.pop()), (0, 31));
    assert_eq!(pair(record.push(1)), (0, 0));
}
