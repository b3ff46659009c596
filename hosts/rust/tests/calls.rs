//! Each op accepted, with its value, and the borrowed view.

mod common;

use std::mem::MaybeUninit;

use common::{area, handle, thread, words, Buffers, HEAP, IMMORTAL, PERMANENT, SCRATCH};
use scopes::{map_words, Area, Core, Kind, Refusal, ScopeStack};

#[test]
fn set_up_writes_no_word() {
    let mut buffers = Buffers::new();
    let core = buffers.set_up();
    assert_eq!(core.permanent(), vec![u64::MAX; PERMANENT]);
    assert_eq!(core.scratch(), vec![u64::MAX; SCRATCH]);
    let ones = vec![u64::MAX; map_words(PERMANENT, SCRATCH)];
    assert_eq!(core.map(), ones);
    assert_eq!(core.written(), ones);
}

#[test]
fn threads_start_and_end() {
    let mut buffers = Buffers::new();
    let mut core = buffers.set_up();
    for number in 0..16 {
        assert_eq!(core.start(thread(number), Kind::NoHeap), Ok(()));
        assert_eq!(core.end(thread(number)), Ok(()));
        assert_eq!(core.start(thread(number), Kind::Ordinary), Ok(()));
    }
}

#[test]
fn scopes_open_and_empty() {
    let mut buffers = Buffers::new();
    let mut core = buffers.begin();
    assert_eq!(core.enter(thread(0), area(2)), Ok(1));
    assert_eq!(core.enter(thread(2), area(2)), Ok(1));
    assert_eq!(core.enter(thread(0), Area::HEAP), Ok(1));
    assert_eq!(core.exit(thread(0)), Ok(0));
    assert_eq!(core.exit(thread(0)), Ok(1));
    assert_eq!(core.exit(thread(2)), Ok(0));
    assert_eq!(core.enter(thread(0), area(2)), Ok(2));
}

/// Where a scope begins in the scratch store: it is entered, and an object with one data word shows it.
fn start_of(core: &mut Core, scope: Area) -> usize {
    core.enter(thread(0), scope).unwrap();
    let object = core.allocate(thread(0), 0, 1).unwrap();
    let view = core.view(thread(0), object).unwrap();
    let mut words = core.scratch().iter();
    let header = words.position(|word| std::ptr::eq(word, &view[0])).unwrap() - 1;
    core.exit(thread(0)).unwrap();
    header
}

/// Scopes 2 to 7 made, each of one block, which are all.
fn begin_full(buffers: &mut Buffers) -> Core<'_> {
    let mut core = buffers.begin();
    for number in 4..8 {
        core.make(thread(0), area(number), 16).unwrap();
    }
    core
}

/// Whole blocks, one after the other from the first word on; the size is no multiple of them.
#[test]
fn scopes_begin_with_blocks() {
    let mut buffers = Buffers::new();
    let mut core = buffers.begin();
    core.make(thread(0), area(4), 17).unwrap();
    core.make(thread(0), area(5), 32).unwrap();
    let starts = [2, 3, 4, 5].map(|number| start_of(&mut core, area(number)));
    assert_eq!(starts, [0, 16, 32, 64]);
}

/// What is removed is free for others: they get the lowest run that holds them, and a hole that is
/// too short is passed over.
#[test]
fn scopes_get_the_lowest_run() {
    let mut buffers = Buffers::new();
    let mut core = begin_full(&mut buffers);
    for number in [2, 4, 5, 7] {
        assert_eq!(core.remove(thread(0), area(number)), Ok(()));
    }
    core.make(thread(0), area(8), 17).unwrap();
    core.make(thread(0), area(9), 2).unwrap();
    core.make(thread(0), area(10), 16).unwrap();
    let starts = [8, 9, 10].map(|number| start_of(&mut core, area(number)));
    assert_eq!(starts, [32, 0, 80]);
    assert_eq!(core.make(thread(0), area(11), 1), Err(Refusal::Size));
}

/// A scope's room is the size as asked: the words behind it in its last block are not used.
#[test]
fn sizes_stay_as_asked() {
    let mut buffers = Buffers::new();
    let mut core = buffers.begin();
    core.make(thread(0), area(4), 17).unwrap();
    core.enter(thread(0), area(4)).unwrap();
    assert_eq!(core.allocate(thread(0), 0, 17), Err(Refusal::Room));
    assert!(core.allocate(thread(0), 0, 16).is_ok());
    assert_eq!(core.allocate(thread(0), 0, 0), Err(Refusal::Room));
}

/// A scope that is made again goes on with its generations, wherever it lies: no old handle is live.
#[test]
fn removed_scopes_are_made_again() {
    let mut buffers = Buffers::new();
    let mut core = begin_full(&mut buffers);
    assert_eq!(core.enter(thread(0), area(2)), Ok(1));
    let old = core.allocate(thread(0), 1, 1).unwrap();
    core.write(thread(0), old, 0, 7).unwrap();
    core.exit(thread(0)).unwrap();
    core.remove(thread(0), area(2)).unwrap();
    assert_eq!(core.enter(thread(0), area(2)), Err(Refusal::Area));
    core.make(thread(0), area(8), 16).unwrap();
    core.remove(thread(0), area(7)).unwrap();
    core.make(thread(0), area(2), 16).unwrap();
    assert_eq!(core.read(thread(0), old, 0), Err(Refusal::Object));
    assert_eq!(core.enter(thread(0), area(2)), Ok(2));
    let new = core.allocate(thread(0), 1, 1).unwrap();
    assert_eq!(new.word(), old.word() + (1 << 20));
    let view = core.view(thread(0), new).unwrap();
    assert!(std::ptr::eq(view, &core.scratch()[82..83]));
    assert_eq!(core.read(thread(0), old, 0), Err(Refusal::Object));
    assert_eq!(core.read(thread(0), new, 0), Err(Refusal::Unwritten));
    let stored = core.store(thread(0), new, 0, Some(old));
    assert_eq!(stored, Err(Refusal::Target));
}

/// An old handle stays dead where another scope has its words, and where its own is never made again.
#[test]
fn handles_of_removed_scopes_are_dead() {
    let mut buffers = Buffers::new();
    let mut core = begin_full(&mut buffers);
    core.enter(thread(0), area(2)).unwrap();
    let old = core.allocate(thread(0), 1, 1).unwrap();
    core.exit(thread(0)).unwrap();
    core.remove(thread(0), area(2)).unwrap();
    assert_eq!(core.view(thread(0), old), Err(Refusal::Object));
    core.make(thread(0), area(8), 16).unwrap();
    core.enter(thread(0), area(8)).unwrap();
    let other = core.allocate(thread(0), 1, 1).unwrap();
    assert_eq!(core.load(thread(0), other, 0), Ok(None));
    assert_eq!(core.view(thread(0), old), Err(Refusal::Object));
}

/// The last exit frees nothing; a removal changes no lent word.
#[test]
fn closed_scopes_keep_their_room() {
    let mut buffers = Buffers::new();
    let mut core = begin_full(&mut buffers);
    core.enter(thread(0), area(2)).unwrap();
    let object = core.allocate(thread(0), 1, 1).unwrap();
    core.write(thread(0), object, 0, 7).unwrap();
    core.exit(thread(0)).unwrap();
    assert_eq!(core.make(thread(0), area(8), 1), Err(Refusal::Size));
    let kept = words(&core);
    core.remove(thread(0), area(2)).unwrap();
    core.make(thread(0), area(8), 1).unwrap();
    assert_eq!(words(&core), kept);
}

/// No right is asked for: an ordinary thread, which may not enter scopes, makes and removes them.
#[test]
fn any_thread_makes_and_removes() {
    let mut buffers = Buffers::new();
    let mut core = buffers.begin();
    assert_eq!(core.remove(thread(1), area(2)), Ok(()));
    assert_eq!(core.make(thread(1), area(2), 8), Ok(()));
    assert_eq!(core.enter(thread(1), area(2)), Err(Refusal::Right));
}

/// Of 40 words the last 8 are no block.
#[test]
fn a_shorter_rest_is_not_used() {
    let (mut scratch, mut map, mut written) = ([0; 40], [0; 1], [0; 1]);
    let core = Core::set_up(&mut [], &mut scratch, &mut map, &mut written, 0, 0);
    let mut core = core.unwrap();
    core.start(thread(0), Kind::RealTime).unwrap();
    for size in [33, 40] {
        assert_eq!(core.make(thread(0), area(2), size), Err(Refusal::Size));
    }
    assert_eq!(core.make(thread(0), area(2), 32), Ok(()));
    assert_eq!(core.make(thread(0), area(3), 1), Err(Refusal::Size));
}

/// All 1,024 blocks, one by one for as many scopes as there are and the rest for the last; then, after
/// every removal, all for one.
#[test]
fn every_block_is_handed_out() {
    let mut scratch = vec![0; 16_384];
    let (mut map, mut written) = ([0; map_words(0, 16_384)], [0; map_words(0, 16_384)]);
    let core = Core::set_up(&mut [], &mut scratch, &mut map, &mut written, 0, 0);
    let mut core = core.unwrap();
    core.start(thread(0), Kind::RealTime).unwrap();
    for number in 2..63 {
        core.make(thread(0), area(number), 1).unwrap();
    }
    let rest = 16_384 - 61 * 16;
    let made = core.make(thread(0), area(63), rest + 1);
    assert_eq!(made, Err(Refusal::Size));
    assert_eq!(core.make(thread(0), area(63), rest), Ok(()));
    assert_eq!(start_of(&mut core, area(63)), 61 * 16);
    for number in 2..64 {
        assert_eq!(core.remove(thread(0), area(number)), Ok(()));
    }
    assert_eq!(core.make(thread(0), area(2), 16_384), Ok(()));
}

/// A helper stands where its starter stands, in scopes that it never entered, with the rights of its
/// own kind, and may outlive it.
#[test]
fn helpers_begin_with_their_starters_entries() {
    let mut buffers = Buffers::new();
    let mut core = buffers.begin();
    let (driver, plotter) = (thread(0), thread(15));
    core.enter(driver, area(2)).unwrap();
    core.enter(driver, area(3)).unwrap();
    assert_eq!(core.start_helper(driver, Kind::NoHeap, plotter), Ok(()));
    assert_eq!(core.exit(driver), Ok(1));
    assert_eq!(core.exit(driver), Ok(1));
    assert_eq!(core.end(driver), Ok(()));
    assert_eq!(core.end(plotter), Err(Refusal::Entries));
    assert_eq!(core.enter(plotter, Area::HEAP), Err(Refusal::Right));
    let curve = core.allocate(plotter, 1, 0).unwrap();
    assert_eq!(curve.area(), area(3));
    assert_eq!(core.exit(plotter), Ok(0));
    assert_eq!(core.load(plotter, curve, 0), Err(Refusal::Object));
    assert_eq!(core.exit(plotter), Ok(0));
    assert_eq!(core.exit(plotter), Err(Refusal::Entries));
    assert_eq!(core.end(plotter), Ok(()));
}

/// The innermost scope is the starter's too: a helper opens scopes under it, also above an entry of
/// immortal memory.
#[test]
fn helpers_nest_as_their_starters() {
    let mut buffers = Buffers::new();
    let mut core = buffers.begin();
    let (driver, plotter) = (thread(0), thread(3));
    core.enter(driver, area(2)).unwrap();
    let limits = core.allocate(driver, 0, 0).unwrap();
    core.enter(driver, Area::IMMORTAL).unwrap();
    core.start_helper(driver, Kind::RealTime, plotter).unwrap();
    assert_eq!(core.enter(plotter, area(3)), Ok(1));
    assert_eq!(core.enter(driver, area(3)), Ok(1));
    let curve = core.allocate(plotter, 1, 0).unwrap();
    assert_eq!(core.store(plotter, curve, 0, Some(limits)), Ok(()));
    assert_eq!(core.exit(plotter), Ok(1));
    assert_eq!(core.allocate(plotter, 0, 0).unwrap().area(), Area::IMMORTAL);
}

/// A helper starts helpers; each is one entry more.
#[test]
fn helpers_start_helpers() {
    let mut buffers = Buffers::new();
    let mut core = buffers.begin();
    core.enter(thread(0), area(2)).unwrap();
    let mut starter = thread(0);
    for number in 3..16 {
        let helper = thread(number);
        assert_eq!(core.start_helper(starter, Kind::NoHeap, helper), Ok(()));
        starter = helper;
    }
    for number in 3..16 {
        assert_eq!(core.exit(thread(number)), Ok(16 - number));
    }
    assert_eq!(core.exit(thread(0)), Ok(0));
}

/// From a full stack all entries are received; from an empty one none, and no right is asked for.
#[test]
fn helpers_of_full_and_empty_stacks() {
    let mut buffers = Buffers::new();
    let mut core = buffers.begin();
    let (driver, plotter, idle) = (thread(0), thread(3), thread(4));
    assert_eq!(core.start_helper(driver, Kind::NoHeap, idle), Ok(()));
    assert_eq!(core.exit(idle), Err(Refusal::Entries));
    for _ in 0..31 {
        core.enter(driver, Area::HEAP).unwrap();
    }
    core.enter(driver, area(2)).unwrap();
    assert_eq!(core.start_helper(driver, Kind::RealTime, plotter), Ok(()));
    assert_eq!(core.enter(plotter, Area::HEAP), Err(Refusal::StackFull));
    assert_eq!(core.exit(plotter), Ok(1));
    for _ in 0..31 {
        assert_eq!(core.exit(plotter), Ok(0));
    }
    assert_eq!(core.exit(plotter), Err(Refusal::Entries));
}

#[test]
fn objects_lie_in_the_current_area() {
    let mut buffers = Buffers::new();
    let mut core = buffers.begin();
    let object = core.allocate(thread(0), 1, 2).unwrap();
    assert_eq!(object, handle(1 << 20));
    assert_eq!(object.area(), Area::HEAP);
    assert_eq!(core.permanent()[..4], [2 << 14 | 1, 0, 0, 0]);
    core.enter(thread(0), area(3)).unwrap();
    let object = core.allocate(thread(0), 0, 1).unwrap();
    assert_eq!(object.word(), 1 << 20 | 3 << 14);
    // Scope 3 has the second block.
    assert_eq!(core.scratch()[16..18], [1 << 14, 0]);
}

#[test]
fn references_and_data() {
    let mut buffers = Buffers::new();
    let mut core = buffers.begin();
    let outer = core.allocate(thread(0), 0, 1).unwrap();
    core.enter(thread(0), area(2)).unwrap();
    let inner = core.allocate(thread(0), 1, 1).unwrap();
    assert_eq!(core.load(thread(0), inner, 0), Ok(None));
    assert_eq!(core.store(thread(0), inner, 0, Some(outer)), Ok(()));
    assert_eq!(core.load(thread(0), inner, 0), Ok(Some(outer)));
    assert_eq!(core.store(thread(0), inner, 0, None), Ok(()));
    assert_eq!(core.load(thread(0), inner, 0), Ok(None));
    assert_eq!(core.write(thread(0), inner, 0, 7), Ok(()));
    assert_eq!(core.read(thread(0), inner, 0), Ok(7));
}

/// Writing 0 is a writing: the word reads as 0 then.
#[test]
fn zero_is_a_writing() {
    let mut buffers = Buffers::new();
    let mut core = buffers.begin();
    let object = core.allocate(thread(0), 1, 2).unwrap();
    assert_eq!(core.read(thread(0), object, 1), Err(Refusal::Unwritten));
    assert_eq!(core.write(thread(0), object, 1, 0), Ok(()));
    assert_eq!(core.read(thread(0), object, 1), Ok(0));
}

/// A read gives the last word written.
#[test]
fn reads_give_the_last_writing() {
    let mut buffers = Buffers::new();
    let mut core = buffers.begin();
    let object = core.allocate(thread(0), 0, 2).unwrap();
    for word in [7, 0, u64::MAX] {
        core.write(thread(0), object, 0, word).unwrap();
        core.write(thread(1), object, 1, !word).unwrap();
        assert_eq!(core.read(thread(1), object, 0), Ok(word));
        assert_eq!(core.read(thread(0), object, 1), Ok(!word));
    }
}

/// Allocation clears the bits of header, slots and data; a write sets that of its word; a store, an exit
/// and an entry leave the written map alone.
#[test]
fn written_bits() {
    let mut buffers = Buffers::new();
    let mut core = buffers.begin();
    core.enter(thread(0), area(2)).unwrap();
    let object = core.allocate(thread(0), 1, 2).unwrap();
    // Scope 2 begins with the first scratch word, behind the permanent store's 32.
    assert_eq!(core.written(), [!(0b1111 << 32), u64::MAX]);
    core.store(thread(0), object, 0, Some(object)).unwrap();
    assert_eq!(core.written(), [!(0b1111 << 32), u64::MAX]);
    core.write(thread(0), object, 1, 9).unwrap();
    assert_eq!(core.written(), [!(0b0111 << 32), u64::MAX]);
    core.exit(thread(0)).unwrap();
    core.enter(thread(0), area(2)).unwrap();
    assert_eq!(core.written(), [!(0b0111 << 32), u64::MAX]);
}

/// The view shows the words as they lie, also those that a read refuses.
#[test]
fn views_show_unwritten_words() {
    let mut buffers = Buffers::new();
    let mut core = buffers.begin();
    let object = core.allocate(thread(0), 1, 3).unwrap();
    core.write(thread(0), object, 1, 9).unwrap();
    assert_eq!(core.read(thread(0), object, 0), Err(Refusal::Unwritten));
    assert_eq!(core.read(thread(0), object, 2), Err(Refusal::Unwritten));
    assert_eq!(core.view(thread(0), object), Ok(&[0, 9, 0][..]));
    assert_eq!(core.view_status(thread(0), object), Ok(()));
}

/// A view is a part of the store itself.
#[test]
fn views_are_parts_of_the_stores() {
    let mut buffers = Buffers::new();
    let mut core = buffers.begin();
    let kept = core.allocate(thread(0), 1, 2).unwrap();
    core.enter(thread(0), area(2)).unwrap();
    let sample = core.allocate(thread(0), 2, 3).unwrap();
    let bare = core.allocate(thread(0), 0, 0).unwrap();
    core.write(thread(0), kept, 1, 5).unwrap();
    core.write(thread(0), sample, 2, 9).unwrap();
    let view = core.view(thread(0), sample).unwrap();
    assert_eq!(view, [0, 0, 9]);
    assert!(std::ptr::eq(view, &core.scratch()[3..6]));
    let view = core.view(thread(0), kept).unwrap();
    assert!(std::ptr::eq(view, &core.permanent()[2..4]));
    assert_eq!(view, [0, 5]);
    assert_eq!(core.view(thread(0), bare), Ok(&[][..]));
    assert_eq!(core.view_status(thread(0), bare), Ok(()));
}

/// Calls that only look can be made while a view is held.
#[test]
fn views_last_beside_other_looks() {
    let mut buffers = Buffers::new();
    let mut core = buffers.begin();
    let object = core.allocate(thread(0), 1, 1).unwrap();
    core.write(thread(0), object, 0, 3).unwrap();
    let view = core.view(thread(0), object).unwrap();
    assert_eq!(core.read(thread(0), object, 0), Ok(view[0]));
    assert_eq!(core.load(thread(0), object, 0), Ok(None));
    assert_eq!(view, [3]);
}

/// The buffers are the host's again after the core's last use.
#[test]
fn buffers_come_back() {
    let (mut permanent, mut scratch, mut map, mut written) = ([0; 8], [0; 8], [0; 1], [0; 1]);
    let core = Core::set_up(&mut permanent, &mut scratch, &mut map, &mut written, 8, 0);
    let mut core = core.unwrap();
    core.start(thread(0), Kind::Ordinary).unwrap();
    let object = core.allocate(thread(0), 0, 1).unwrap();
    core.write(thread(0), object, 0, 77).unwrap();
    assert_eq!(permanent[..2], [1 << 14, 77]);
    assert_eq!(map, [0b01]);
    assert_eq!(written, [0b10]);
}

/// In a place of the host's own, of any contents.
#[test]
fn set_up_in_place() {
    let mut buffers = Buffers::new();
    let Buffers {
        permanent,
        scratch,
        map,
        written,
    } = &mut buffers;
    let mut place = MaybeUninit::uninit();
    let core = Core::set_up_in(&mut place, permanent, scratch, map, written, HEAP, IMMORTAL);
    let core = core.unwrap();
    assert_eq!((core as *const Core).align_offset(64), 0);
    core.start(thread(0), Kind::RealTime).unwrap();
    core.make(thread(0), area(2), 8).unwrap();
    assert_eq!(core.enter(thread(0), area(2)), Ok(1));
    let object = core.allocate(thread(0), 0, 2).unwrap();
    assert_eq!(core.view(thread(0), object), Ok(&[0, 0][..]));
    assert_eq!(core.exit(thread(0)), Ok(0));
}

#[test]
fn threads_share_a_core_to_look() {
    let mut buffers = Buffers::new();
    let mut core = buffers.begin();
    let object = core.allocate(thread(0), 1, 1).unwrap();
    core.write(thread(0), object, 0, 3).unwrap();
    let core = &core;
    let look = || {
        let read = core.read(thread(0), object, 0);
        let view = core.view(thread(1), object);
        (read, view, core.load(thread(0), object, 0))
    };
    let looks = std::thread::scope(|scope| {
        let threads = [0; 4].map(|_| scope.spawn(look));
        threads.map(|thread| thread.join().unwrap())
    });
    assert_eq!(looks, [(Ok(3), Ok(&[3][..]), Ok(None)); 4]);
}

#[test]
fn a_core_moves_to_another_thread() {
    let mut buffers = Buffers::new();
    let mut core = buffers.begin();
    let generation = std::thread::scope(|scope| {
        let worker = scope.spawn(move || core.enter(thread(0), area(2)));
        worker.join().unwrap()
    });
    assert_eq!(generation, Ok(1));
}

#[test]
fn stack_of_the_scheduler() {
    let mut stack = ScopeStack::empty();
    for number in [5, 0, 63] {
        assert_eq!(stack.push(area(number)), Ok(()));
    }
    let entries: Vec<Area> = stack.entries().collect();
    assert_eq!(entries, [area(5), Area::HEAP, area(63)]);
    assert_eq!(stack.pop(), Ok(area(63)));
    assert_eq!(stack.pop(), Ok(Area::HEAP));
}

/// What is shown of a core and of a stack for debugging is what their callers know anyway.
#[test]
fn debugging_shows_no_table() {
    let mut buffers = Buffers::new();
    let core = buffers.begin();
    let text = format!("{core:?}");
    assert_eq!(
        text,
        "Core { permanent: 32, scratch: 96, map: 2, written: 2, .. }"
    );
    let mut stack = ScopeStack::empty();
    stack.push(area(5)).unwrap();
    assert_eq!(format!("{stack:?}"), "[Area(5)]");
}
