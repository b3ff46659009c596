//! "as source document 000 searches": its jumping search against the naive lowest run, over every short
//! vector of used bits.

use reference::blocks::lowest_run;

/// The longest vectors.
const MOST: u32 = 14;

/// The first block of the run, if there is one, and how many bits were looked at.
type Found = (Option<u64>, usize);

/// Figure 6. Its test is `endIndex > elementCount`, which looks at a bit past the vector; this one
/// stops where the run would end past it.
fn jumping_search(used: &[bool], count: i64) -> Found {
    let elements = used.len() as i64;
    let mut looks = 0;
    let mut start = 0;
    let mut end = start + count - 1;
    while start != end + 1 {
        if end >= elements {
            return (None, looks);
        }
        looks += 1;
        if used[end as usize] {
            // A jump past the set bit.
            start = end + 1;
            end = start + count - 1;
        } else {
            // Reverse lookup.
            end -= 1;
        }
    }
    (Some(start as u64), looks)
}

/// Every vector of a length.
fn vectors(length: u32) -> impl Iterator<Item = Vec<bool>> {
    (0u32..1 << length).map(move |bits| (0..length).map(|bit| bits >> bit & 1 == 1).collect())
}

/// Calls `see` with every vector, every n up to its length, and what the jumping search finds.
fn each_search(mut see: impl FnMut(&[bool], u64, Found)) {
    for used in (1..=MOST).flat_map(vectors) {
        for count in 1..=used.len() as i64 {
            see(&used, count as u64, jumping_search(&used, count));
        }
    }
}

#[test]
fn jumping_search_finds_the_lowest_run() {
    each_search(|used, count, (start, _)| {
        assert_eq!(start, lowest_run(used, count), "{count} in {used:?}");
    });
}

/// The bound is not idle: some searches look at more bits than there are.
#[test]
fn jumping_search_looks_at_most_twice_as_often_as_there_are_bits() {
    let mut above_once = 0;
    each_search(|used, count, (_, looks)| {
        assert!(looks <= 2 * used.len(), "{looks}: {count} in {used:?}");
        above_once += u64::from(looks > used.len());
    });
    assert!(above_once > 0);
}

/// The naive search by its own words: the run is clear, ends within the vector, and no lower start
/// has one.
#[test]
fn lowest_run_is_the_lowest() {
    each_search(|used, count, _| {
        let clear = |start: u64| {
            let ends_within = start + count <= used.len() as u64;
            ends_within && (start..start + count).all(|bit| !used[bit as usize])
        };
        let bits = used.len() as u64;
        match lowest_run(used, count) {
            Some(found) => assert!(clear(found) && !(0..found).any(clear), "{used:?}"),
            None => assert!(!(0..bits).any(clear), "{count} in {used:?}"),
        }
    });
}

/// No vector holds more bits than it has, however many are asked for.
#[test]
fn longer_runs_than_the_vector() {
    for count in [4, 5, 1 << 32, 1 << 60] {
        assert_eq!(lowest_run(&[false; 3], count), None);
    }
    assert_eq!(lowest_run(&[], 1), None);
}
