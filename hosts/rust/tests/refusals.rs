//! Each refusal that a host can meet, by its number; 23 and 24, of loads, are in `rights.rs`. 4 has no
//! `Kind`, 17 takes 2^44 - 1 entries, and after an accepted set-up 1 cannot come, since the core keeps
//! its buffers.

mod common;

use std::mem::MaybeUninit;

use common::{area, handle, thread, words, Buffers};
use scopes::{Area, Core, Kind, Refusal, ScopeStack};

/// The refusal of a set-up over buffers of these lengths: the stores, the maps.
fn set_up(stores: [usize; 2], maps: [usize; 2], heap: u64, immortal: u64) -> Option<u64> {
    let [mut permanent, mut scratch] = stores.map(|len| vec![0; len]);
    let [mut map, mut written] = maps.map(|len| vec![0; len]);
    let core = Core::set_up(
        &mut permanent,
        &mut scratch,
        &mut map,
        &mut written,
        heap,
        immortal,
    );
    core.err().map(Refusal::number)
}

#[test]
fn refused_by_1_set_up() {
    assert_eq!(set_up([32, 32], [1, 1], 20, 12), None);
    assert_eq!(set_up([0, 0], [0, 0], 0, 0), None);
    assert_eq!(set_up([16_384, 16_384], [512, 512], 16_384, 0), None);
    assert_eq!(set_up([32, 32], [1, 1], 20, 11), Some(1));
    assert_eq!(set_up([2, 0], [1, 1], u64::MAX, 3), Some(1));
    assert_eq!(set_up([16_385, 0], [257, 257], 16_385, 0), Some(1));
    assert_eq!(set_up([0, 16_385], [257, 257], 0, 0), Some(1));
    assert_eq!(set_up([32, 33], [1, 1], 20, 12), Some(1));
}

/// One map has another length than the stores ask for, or both have.
#[test]
fn refused_by_1_maps() {
    for wrong in [0, 2] {
        assert_eq!(set_up([32, 32], [wrong, 1], 20, 12), Some(1));
        assert_eq!(set_up([32, 32], [1, wrong], 20, 12), Some(1));
        assert_eq!(set_up([32, 32], [wrong, wrong], 20, 12), Some(1));
    }
    assert_eq!(set_up([0, 0], [0, 1], 0, 0), Some(1));
}

#[test]
fn refused_by_1_set_up_in_place() {
    let mut place = MaybeUninit::uninit();
    let core = Core::set_up_in(&mut place, &mut [], &mut [], &mut [], &mut [], 0, 1);
    assert_eq!(core.err(), Some(Refusal::Lengths));
}

#[test]
fn refused_by_2_thread() {
    let mut buffers = Buffers::new();
    let mut core = buffers.begin();
    for number in [3, 15, 16, u64::MAX] {
        assert_eq!(core.exit(thread(number)), Err(Refusal::Thread));
        let removed = core.remove(thread(number), area(2));
        assert_eq!(removed, Err(Refusal::Thread));
        let view = core.view(thread(number), handle(1));
        assert_eq!(view, Err(Refusal::Thread));
    }
    let started = core.start(thread(16), Kind::RealTime);
    assert_eq!(started, Err(Refusal::Thread));
}

/// The starter is tested as any caller, before the helper; of the helper's number only that it is
/// not above 15.
#[test]
fn refused_by_2_helper() {
    let mut buffers = Buffers::new();
    let mut core = buffers.begin();
    for number in [3, 15, 16, u64::MAX] {
        let started = core.start_helper(thread(number), Kind::RealTime, thread(1));
        assert_eq!(started, Err(Refusal::Thread));
    }
    for number in [16, 1 << 32, u64::MAX] {
        let started = core.start_helper(thread(0), Kind::RealTime, thread(number));
        assert_eq!(started, Err(Refusal::Thread));
    }
    for number in [3, 15] {
        let started = core.start_helper(thread(0), Kind::RealTime, thread(number));
        assert_eq!(started, Ok(()));
    }
}

#[test]
fn refused_by_3_started() {
    let mut buffers = Buffers::new();
    let mut core = buffers.begin();
    let started = core.start(thread(0), Kind::NoHeap);
    assert_eq!(started, Err(Refusal::Started));
    core.enter(thread(0), area(2)).unwrap();
    // Before 5: an ordinary thread may not be in a scope. Thread 0 is the starter itself.
    for number in [0, 1] {
        let started = core.start_helper(thread(0), Kind::Ordinary, thread(number));
        assert_eq!(started, Err(Refusal::Started));
    }
}

#[test]
fn refused_by_5_right() {
    let mut buffers = Buffers::new();
    let mut core = buffers.begin();
    let (real_time, ordinary, no_heap) = (thread(0), thread(1), thread(2));
    assert_eq!(core.enter(no_heap, Area::HEAP), Err(Refusal::Right));
    assert_eq!(core.enter(ordinary, area(2)), Err(Refusal::Right));
    assert_eq!(core.allocate(no_heap, 0, 0), Err(Refusal::Right));
    let in_heap = core.allocate(real_time, 1, 1).unwrap();
    core.enter(real_time, area(2)).unwrap();
    let in_scope = core.allocate(real_time, 1, 1).unwrap();
    assert_eq!(core.read(no_heap, in_heap, 0), Err(Refusal::Right));
    assert_eq!(core.write(ordinary, in_scope, 0, 1), Err(Refusal::Right));
    assert_eq!(core.view(ordinary, in_scope), Err(Refusal::Right));
    assert_eq!(core.view_status(no_heap, in_heap), Err(Refusal::Right));
    let stored = core.store(no_heap, in_scope, 0, Some(in_heap));
    assert_eq!(stored, Err(Refusal::Right));
    core.store(real_time, in_scope, 0, Some(in_heap)).unwrap();
    assert_eq!(core.load(no_heap, in_scope, 0), Err(Refusal::Right));
}

/// Any entry refuses a helper whose kind may not enter it: below the top, at it, or alone. No count
/// rises then, and the helper is not started.
#[test]
fn refused_by_5_helper() {
    let mut buffers = Buffers::new();
    let mut core = buffers.begin();
    let (driver, plotter) = (thread(0), thread(3));
    let stacks = [
        (vec![Area::HEAP, area(2), area(3)], Kind::NoHeap),
        (vec![area(2), area(3), Area::HEAP], Kind::NoHeap),
        (vec![area(2), Area::HEAP, area(3)], Kind::Ordinary),
        (vec![Area::IMMORTAL, Area::HEAP], Kind::Ordinary),
    ];
    for (stack, kind) in stacks {
        for &area in &stack {
            core.enter(driver, area).unwrap();
        }
        let started = core.start_helper(driver, kind, plotter);
        assert_eq!(started, Err(Refusal::Right), "{stack:?}");
        assert_eq!(core.end(plotter), Err(Refusal::Thread));
        for _ in &stack {
            assert_eq!(core.exit(driver), Ok(0));
        }
    }
}

#[test]
fn refused_by_6_area() {
    let mut buffers = Buffers::new();
    let mut core = buffers.begin();
    for number in [4, 63, 64, u64::MAX] {
        assert_eq!(core.enter(thread(0), area(number)), Err(Refusal::Area));
    }
    for number in [0, 1, 64, u64::MAX] {
        assert_eq!(core.make(thread(0), area(number), 1), Err(Refusal::Area));
    }
    assert_eq!(ScopeStack::empty().push(area(64)), Err(Refusal::Area));
}

/// Outside 2 to 63, never made, or removed before. A number above 63 is not taken for one below.
#[test]
fn refused_by_6_remove() {
    let mut buffers = Buffers::new();
    let mut core = buffers.begin();
    for number in [0, 1, 4, 63, 64, 66, 1 << 32 | 2, u64::MAX] {
        assert_eq!(core.remove(thread(0), area(number)), Err(Refusal::Area));
    }
    assert_eq!(core.remove(thread(0), area(2)), Ok(()));
    assert_eq!(core.remove(thread(0), area(2)), Err(Refusal::Area));
    assert_eq!(core.enter(thread(0), area(2)), Err(Refusal::Area));
    assert_eq!(core.enter(thread(0), area(3)), Ok(1));
}

#[test]
fn refused_by_7_made() {
    let mut buffers = Buffers::new();
    let mut core = buffers.begin();
    assert_eq!(core.make(thread(0), area(2), 1), Err(Refusal::Made));
    core.remove(thread(0), area(2)).unwrap();
    assert_eq!(core.make(thread(0), area(2), 1), Ok(()));
    assert_eq!(core.make(thread(0), area(2), 1), Err(Refusal::Made));
}

#[test]
fn refused_by_8_size() {
    let mut buffers = Buffers::new();
    let mut core = buffers.begin();
    // Four blocks are free. The largest sizes wrap where they are rounded up.
    for size in [0, 65, 80, u64::MAX - 15, u64::MAX - 14, u64::MAX] {
        assert_eq!(core.make(thread(0), area(4), size), Err(Refusal::Size));
    }
    assert_eq!(core.make(thread(0), area(4), 64), Ok(()));
    assert_eq!(core.make(thread(0), area(5), 1), Err(Refusal::Size));
}

/// Enough blocks are free in all, but not side by side.
#[test]
fn refused_by_8_fragments() {
    let mut buffers = Buffers::new();
    let mut core = buffers.begin();
    core.make(thread(0), area(4), 16).unwrap();
    core.make(thread(0), area(5), 33).unwrap();
    for number in [2, 4] {
        core.remove(thread(0), area(number)).unwrap();
    }
    assert_eq!(core.make(thread(0), area(6), 17), Err(Refusal::Size));
    core.remove(thread(0), area(3)).unwrap();
    assert_eq!(core.make(thread(0), area(6), 49), Err(Refusal::Size));
    assert_eq!(core.make(thread(0), area(6), 48), Ok(()));
}

#[test]
fn refused_by_9_stack_full() {
    let mut buffers = Buffers::new();
    let mut core = buffers.begin();
    let mut stack = ScopeStack::empty();
    for _ in 0..32 {
        assert_eq!(core.enter(thread(0), Area::IMMORTAL), Ok(1));
        assert_eq!(stack.push(Area::IMMORTAL), Ok(()));
    }
    let entered = core.enter(thread(0), Area::IMMORTAL);
    assert_eq!(entered, Err(Refusal::StackFull));
    assert_eq!(stack.push(Area::IMMORTAL), Err(Refusal::StackFull));
    assert_eq!(stack.entries().count(), 32);
}

#[test]
fn refused_by_10_parent() {
    let mut buffers = Buffers::new();
    let mut core = buffers.begin();
    core.enter(thread(0), area(2)).unwrap();
    assert_eq!(core.enter(thread(0), area(2)), Err(Refusal::Parent));
    core.enter(thread(0), area(3)).unwrap();
    assert_eq!(core.enter(thread(2), area(3)), Err(Refusal::Parent));
}

#[test]
fn refused_by_11_entries() {
    let mut buffers = Buffers::new();
    let mut core = buffers.begin();
    assert_eq!(core.exit(thread(0)), Err(Refusal::Entries));
    core.enter(thread(0), area(2)).unwrap();
    assert_eq!(core.end(thread(0)), Err(Refusal::Entries));
    assert_eq!(ScopeStack::empty().pop(), Err(Refusal::Entries));
}

#[test]
fn refused_by_12_room() {
    let mut buffers = Buffers::new();
    let mut core = buffers.begin();
    core.enter(thread(0), area(2)).unwrap();
    for (slots, data_words) in [(0, 8), (8, 0), (4, 4), (u64::MAX, u64::MAX)] {
        let allocated = core.allocate(thread(0), slots, data_words);
        assert_eq!(allocated, Err(Refusal::Room));
    }
    assert!(core.allocate(thread(0), 3, 4).is_ok());
}

#[test]
fn refused_by_13_object() {
    let mut buffers = Buffers::new();
    let mut core = buffers.begin();
    core.enter(thread(0), area(2)).unwrap();
    let gone = core.allocate(thread(0), 1, 1).unwrap();
    core.exit(thread(0)).unwrap();
    core.enter(thread(0), area(2)).unwrap();
    core.allocate(thread(0), 1, 1).unwrap();
    for object in [gone, handle(1), handle(u64::MAX)] {
        assert_eq!(core.read(thread(0), object, 0), Err(Refusal::Object));
        assert_eq!(core.write(thread(0), object, 0, 1), Err(Refusal::Object));
        assert_eq!(core.load(thread(0), object, 0), Err(Refusal::Object));
        assert_eq!(core.view(thread(0), object), Err(Refusal::Object));
        let stored = core.store(thread(0), object, 0, None);
        assert_eq!(stored, Err(Refusal::Object));
    }
}

#[test]
fn refused_by_14_index() {
    let mut buffers = Buffers::new();
    let mut core = buffers.begin();
    let object = core.allocate(thread(0), 1, 2).unwrap();
    for index in [2, u64::MAX] {
        assert_eq!(core.read(thread(0), object, index), Err(Refusal::Index));
        let written = core.write(thread(0), object, index, 1);
        assert_eq!(written, Err(Refusal::Index));
        assert_eq!(core.load(thread(0), object, index), Err(Refusal::Index));
        let stored = core.store(thread(0), object, index, None);
        assert_eq!(stored, Err(Refusal::Index));
    }
}

#[test]
fn refused_by_15_target() {
    let mut buffers = Buffers::new();
    let mut core = buffers.begin();
    let object = core.allocate(thread(0), 1, 0).unwrap();
    let stored = core.store(thread(0), object, 0, Some(handle(1)));
    assert_eq!(stored, Err(Refusal::Target));
}

#[test]
fn refused_by_16_assignment() {
    let mut buffers = Buffers::new();
    let mut core = buffers.begin();
    let in_heap = core.allocate(thread(0), 1, 0).unwrap();
    core.enter(thread(0), area(2)).unwrap();
    let outer = core.allocate(thread(0), 1, 0).unwrap();
    core.enter(thread(0), area(3)).unwrap();
    let inner = core.allocate(thread(0), 1, 0).unwrap();
    for object in [in_heap, outer] {
        let stored = core.store(thread(0), object, 0, Some(inner));
        assert_eq!(stored, Err(Refusal::Assignment));
    }
    assert_eq!(core.store(thread(0), inner, 0, Some(outer)), Ok(()));
}

/// A word that nobody wrote since its object was made, after 14.
#[test]
fn refused_by_19_unwritten() {
    let mut buffers = Buffers::new();
    let mut core = buffers.begin();
    let object = core.allocate(thread(0), 1, 2).unwrap();
    for index in [0, 1] {
        let read = core.read(thread(0), object, index);
        assert_eq!(read, Err(Refusal::Unwritten));
    }
    assert_eq!(core.read(thread(0), object, 2), Err(Refusal::Index));
    assert_eq!(core.read(thread(2), object, 0), Err(Refusal::Right));
    core.write(thread(0), object, 0, 7).unwrap();
    assert_eq!(core.read(thread(0), object, 0), Ok(7));
    assert_eq!(core.read(thread(0), object, 1), Err(Refusal::Unwritten));
}

/// An object in the place of one whose scope was emptied, with words that were written then.
#[test]
fn refused_by_19_in_an_old_place() {
    let mut buffers = Buffers::new();
    let mut core = buffers.begin();
    core.enter(thread(0), area(2)).unwrap();
    let old = core.allocate(thread(0), 0, 1).unwrap();
    core.write(thread(0), old, 0, 7).unwrap();
    core.exit(thread(0)).unwrap();
    core.enter(thread(0), area(2)).unwrap();
    let new = core.allocate(thread(0), 0, 1).unwrap();
    assert_eq!(core.read(thread(0), old, 0), Err(Refusal::Object));
    assert_eq!(core.read(thread(0), new, 0), Err(Refusal::Unwritten));
    core.write(thread(0), new, 0, 8).unwrap();
    assert_eq!(core.read(thread(0), new, 0), Ok(8));
}

/// While any thread is in the scope, whoever asks: one that entered it, or a helper that was started
/// there.
#[test]
fn refused_by_20_open() {
    let mut buffers = Buffers::new();
    let mut core = buffers.begin();
    core.enter(thread(0), area(2)).unwrap();
    let object = core.allocate(thread(0), 0, 1).unwrap();
    core.enter(thread(0), Area::IMMORTAL).unwrap();
    core.enter(thread(2), area(2)).unwrap();
    let helper = thread(3);
    core.start_helper(thread(0), Kind::NoHeap, helper).unwrap();
    for leaving in [0, 0, 2, 3, 3] {
        for asking in 0..4 {
            let removed = core.remove(thread(asking), area(2));
            assert_eq!(removed, Err(Refusal::Open));
        }
        assert_eq!(core.view(thread(0), object), Ok(&[0][..]));
        core.exit(thread(leaving)).unwrap();
    }
    assert_eq!(core.remove(thread(0), area(2)), Ok(()));
}

/// A refused call changes no word.
#[test]
fn refusals_change_nothing() {
    let mut buffers = Buffers::new();
    let mut core = buffers.begin();
    let object = core.allocate(thread(0), 1, 1).unwrap();
    let kept = words(&core);
    assert!(core.write(thread(0), object, 1, 9).is_err());
    assert!(core.write(thread(2), object, 0, 9).is_err());
    assert!(core.store(thread(0), object, 0, Some(handle(1))).is_err());
    assert!(core.allocate(thread(0), 16, 16).is_err());
    assert_eq!(words(&core), kept);
}

#[test]
fn numbers_of_refusals() {
    for number in (1..=17).chain([19, 20, 23, 24]) {
        let refusal = Refusal::from_number(number).unwrap();
        assert_eq!(refusal.number(), number);
    }
    for number in [0, 18, 21, 22, 25, u64::MAX] {
        assert_eq!(Refusal::from_number(number), None);
    }
    let text = Refusal::Parent.to_string();
    assert_eq!(text, "refused by 10, Parent");
}
