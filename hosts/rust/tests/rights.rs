//! Rights tables of the host's own: what a load changes, and what refuses it.

mod common;

use common::{area, thread, Buffers};
use scopes::{Area, Core, Kind, Refusal};

const BUILT_IN: &[u8; 36] = b"111100110000111111111111000011111111";
/// Ordinary threads have all rights in immortal memory.
const OWN: &[u8; 36] = b"111111110000111111111111000011111111";

/// Whether an ordinary thread may enter immortal memory, which the built-in table denies it.
fn ordinary_enters_immortal(core: &mut Core) -> bool {
    core.start(thread(5), Kind::Ordinary).unwrap();
    let entered = core.enter(thread(5), Area::IMMORTAL);
    if entered.is_ok() {
        core.exit(thread(5)).unwrap();
    }
    core.end(thread(5)).unwrap();
    entered.is_ok()
}

#[test]
fn accepted_load_is_in_force_until_the_next() {
    let mut buffers = Buffers::new();
    let mut core = buffers.set_up();
    assert!(!ordinary_enters_immortal(&mut core));
    assert_eq!(core.load_rights(OWN), Ok(()));
    assert!(ordinary_enters_immortal(&mut core));
    assert_eq!(core.load_rights(BUILT_IN), Ok(()));
    assert!(!ordinary_enters_immortal(&mut core));
}

/// An ordinary thread works in immortal memory as another one would.
#[test]
fn ordinary_thread_uses_immortal_memory() {
    let mut buffers = Buffers::new();
    let mut core = buffers.set_up();
    core.load_rights(OWN).unwrap();
    core.start(thread(0), Kind::Ordinary).unwrap();
    core.enter(thread(0), Area::IMMORTAL).unwrap();
    let object = core.allocate(thread(0), 1, 1).unwrap();
    assert_eq!(object.area(), Area::IMMORTAL);
    assert_eq!(core.store(thread(0), object, 0, Some(object)), Ok(()));
    assert_eq!(core.load(thread(0), object, 0), Ok(Some(object)));
    assert_eq!(core.write(thread(0), object, 0, 7), Ok(()));
    assert_eq!(core.view(thread(0), object), Ok(&[7][..]));
    // Scopes are still closed to it.
    core.make(thread(0), area(2), 8).unwrap();
    assert_eq!(core.enter(thread(0), area(2)), Err(Refusal::Right));
}

/// What a real-time thread in an area is answered, under a table, when it starts a helper of each kind.
fn helpers_in(entered: Area, table: &[u8]) -> [Result<(), Refusal>; 3] {
    let mut buffers = Buffers::new();
    let mut core = buffers.set_up();
    core.load_rights(table).unwrap();
    core.start(thread(0), Kind::RealTime).unwrap();
    core.make(thread(0), area(2), 8).unwrap();
    core.enter(thread(0), entered).unwrap();
    let kinds = [Kind::Ordinary, Kind::RealTime, Kind::NoHeap];
    kinds.map(|kind| core.start_helper(thread(0), kind, thread(kind as u64)))
}

/// A helper needs E by the table in force, and no other right.
#[test]
fn helpers_by_the_table_in_force() {
    let (yes, no) = (Ok(()), Err(Refusal::Right));
    assert_eq!(helpers_in(Area::HEAP, BUILT_IN), [yes, yes, no]);
    assert_eq!(helpers_in(Area::IMMORTAL, BUILT_IN), [no, yes, yes]);
    assert_eq!(helpers_in(area(2), BUILT_IN), [no, yes, yes]);
    assert_eq!(helpers_in(Area::IMMORTAL, OWN), [yes, yes, yes]);
    let e_alone = b"100010001000100010001000100010001000";
    let others_lack_e = b"011101110111100010001000011101110111";
    for entered in [Area::HEAP, Area::IMMORTAL, area(2)] {
        assert_eq!(helpers_in(entered, e_alone), [yes, yes, yes]);
        assert_eq!(helpers_in(entered, others_lack_e), [no, yes, no]);
    }
}

/// A loaded table also takes rights away.
#[test]
fn table_of_no_rights() {
    let mut buffers = Buffers::new();
    let mut core = buffers.set_up();
    core.load_rights(&[b'0'; 36]).unwrap();
    core.start(thread(0), Kind::RealTime).unwrap();
    assert_eq!(core.enter(thread(0), Area::HEAP), Err(Refusal::Right));
    assert_eq!(core.allocate(thread(0), 0, 0), Err(Refusal::Right));
}

#[test]
fn objects_live_on() {
    let mut buffers = Buffers::new();
    let mut core = buffers.set_up();
    core.start(thread(0), Kind::RealTime).unwrap();
    let object = core.allocate(thread(0), 0, 1).unwrap();
    core.write(thread(0), object, 0, 77).unwrap();
    core.end(thread(0)).unwrap();
    let words = core.permanent().to_vec();
    core.load_rights(OWN).unwrap();
    assert_eq!(core.permanent(), words);
    core.start(thread(1), Kind::Ordinary).unwrap();
    assert_eq!(core.read(thread(1), object, 0), Ok(77));
}

/// One way after the other to break the rules; the table in force stays.
#[test]
fn refused_by_23_table() {
    let mut buffers = Buffers::new();
    let mut core = buffers.set_up();
    let with = |place: usize, digit: u8| {
        let mut text = OWN.to_vec();
        text[place] = digit;
        text
    };
    let texts = [
        vec![],
        OWN[..35].to_vec(),
        [&OWN[..], b"1"].concat(),
        [&OWN[..], b"\n"].concat(),
        [&OWN[..], b"\0"].concat(),
        with(0, b'2'),
        with(17, b'/'),
        with(35, b'\n'),
        with(35, 0),
        OWN.map(|digit| digit - b'0').to_vec(),
        // A without U, in the first and in the last class.
        with(2, b'0'),
        with(34, b'0'),
    ];
    for text in texts {
        let loaded = core.load_rights(&text);
        assert_eq!(loaded, Err(Refusal::Table), "{}", text.escape_ascii());
    }
    assert!(!ordinary_enters_immortal(&mut core));
}

/// 24 while any thread is started, after 23.
#[test]
fn refused_by_24_running() {
    let mut buffers = Buffers::new();
    let mut core = buffers.set_up();
    for number in 0..16 {
        core.start(thread(number), Kind::NoHeap).unwrap();
        assert_eq!(core.load_rights(OWN), Err(Refusal::Running));
        assert_eq!(core.load_rights(&OWN[..35]), Err(Refusal::Table));
        core.end(thread(number)).unwrap();
        assert!(!ordinary_enters_immortal(&mut core));
    }
    assert_eq!(core.load_rights(OWN), Ok(()));
}
