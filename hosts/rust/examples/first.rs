//! A first host: one thread measures a sample in a scope.

use scopes::{map_words, Area, Core, Kind, Refusal, Thread};

const MAP: usize = map_words(128, 256);

fn main() -> Result<(), Refusal> {
    let (mut permanent, mut scratch) = ([0; 128], [0; 256]);
    let (mut map, mut written) = ([0; MAP], [0; MAP]);
    let mut core = Core::set_up(&mut permanent, &mut scratch, &mut map, &mut written, 64, 64)?;
    let (meter, sample) = (Thread::new(0), Area::new(2));
    core.start(meter, Kind::RealTime)?;
    core.make(meter, sample, 32)?;
    core.enter(meter, sample)?;
    let points = core.allocate(meter, 0, 3)?; // no slot, 3 data words
    core.write(meter, points, 0, 41)?;
    println!("points {:?}", core.view(meter, points)?); // the words where they lie, no copy
    assert_eq!(core.read(meter, points, 1), Err(Refusal::Unwritten)); // it is 0, but nobody wrote it
    core.exit(meter)?; // the last thread leaves: the scope is emptied
    assert_eq!(core.view(meter, points), Err(Refusal::Object));
    Ok(())
}
