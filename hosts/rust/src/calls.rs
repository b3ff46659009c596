//! The calls on a core, with the types of what they name.

use core::fmt;
use core::mem::MaybeUninit;

use crate::names::{slot_word, Area, Handle, Kind, Thread};
use crate::record::{self, Core, Memory};
use crate::refusal::{check, value, Refusal};

/// How many words each map, the start map and the written map, has for stores of these lengths.
pub const fn map_words(permanent: usize, scratch: usize) -> usize {
    (permanent + scratch).div_ceil(64)
}

impl<'m> Core<'m> {
    /// A first state over a permanent store (heap, then immortal memory, of these sizes in words), a
    /// scratch store, a start map and a written map, with the built-in rights table (see [`Kind`]). A
    /// map has a bit for each word of the stores: that an object begins there, or that the data word
    /// was written since its object was made. The words may hold anything, and stay as they are. Scopes
    /// get whole blocks of 16 words from the scratch store; a shorter rest behind them is not used.
    /// Refused by [`Refusal::Lengths`] unless heap + immortal is the permanent store's length, no
    /// store is longer than 16,384 words, and each map has [`map_words`] words.
    pub fn set_up(
        permanent: &'m mut [u64],
        scratch: &'m mut [u64],
        map: &'m mut [u64],
        written: &'m mut [u64],
        heap: u64,
        immortal: u64,
    ) -> Result<Core<'m>, Refusal> {
        let memory = Memory {
            permanent,
            scratch,
            map,
            written,
        };
        let (status, core) = record::set_up(memory, heap, immortal);
        check(status).map(|()| core)
    }

    /// The same in a place of the host's own, where the core stays: its 7.7 KB do not cross the stack.
    ///
    /// ```
    /// # use core::mem::MaybeUninit;
    /// # use scopes::{map_words, Core, Kind, Thread};
    /// # let (permanent, scratch) = (&mut [0; 8], &mut [0; 8]);
    /// # let (map, written) = (&mut [0; map_words(8, 8)], &mut [0; map_words(8, 8)]);
    /// let mut place = MaybeUninit::uninit();
    /// let core = Core::set_up_in(&mut place, permanent, scratch, map, written, 4, 4)?;
    /// core.start(Thread::new(0), Kind::RealTime)?;
    /// # Ok::<(), scopes::Refusal>(())
    /// ```
    pub fn set_up_in<'p>(
        place: &'p mut MaybeUninit<Core<'m>>,
        permanent: &'m mut [u64],
        scratch: &'m mut [u64],
        map: &'m mut [u64],
        written: &'m mut [u64],
        heap: u64,
        immortal: u64,
    ) -> Result<&'p mut Core<'m>, Refusal> {
        let memory = Memory {
            permanent,
            scratch,
            map,
            written,
        };
        let (status, core) = record::set_up_in(place, memory, heap, immortal);
        check(status).map(|()| core)
    }

    /// Puts a rights table in force, until the next load: 36 digits, 0 or 1, ordered by kind, class
    /// of areas (heap, immortal memory, scopes) and right (E to enter an area or start there as a
    /// helper, A to allocate in it, U to use an object of it, R to store or load a reference to one), A
    /// only with U. Before the first load the built-in table is in force. Objects made before live on.
    /// Refusals 23, 24.
    ///
    /// ```
    /// # use scopes::{map_words, Area, Core, Kind, Refusal, Thread};
    /// # let (mut permanent, mut scratch) = ([0; 8], [0; 0]);
    /// # let (mut map, mut written) = ([0; map_words(8, 0)], [0; map_words(8, 0)]);
    /// # let mut core = Core::set_up(&mut permanent, &mut scratch, &mut map, &mut written, 4, 4)?;
    /// // Ordinary threads get all rights in immortal memory; else as in the built-in table.
    /// core.load_rights(b"111111110000111111111111000011111111")?;
    /// let clerk = Thread::new(0);
    /// core.start(clerk, Kind::Ordinary)?;
    /// core.enter(clerk, Area::IMMORTAL)?;
    /// let note = core.allocate(clerk, 0, 1)?;
    /// assert_eq!(note.area(), Area::IMMORTAL);
    /// assert_eq!(core.load_rights(&[b'1'; 36]), Err(Refusal::Running));
    /// # Ok::<(), Refusal>(())
    /// ```
    pub fn load_rights(&mut self, digits: &[u8]) -> Result<(), Refusal> {
        value(record::load_rights(self, digits)).map(|_| ())
    }

    /// Starts a thread, with no entries. Refusals 2, 3.
    pub fn start(&mut self, thread: Thread, kind: Kind) -> Result<(), Refusal> {
        let answer = record::start(self, thread.number(), kind as u64);
        value(answer).map(|_| ())
    }

    /// Starts a helper: a thread of a kind that begins with the entries of its starter. The count of
    /// each scope rises by 1 for each entry. The helper leaves them and ends like any thread, before or
    /// after its starter. Refusals 2 (the starter; a helper above 15), 3 (the helper), 5 (the helper's
    /// kind lacks E for any entry).
    ///
    /// ```
    /// # use scopes::{map_words, Area, Core, Kind, Refusal, Thread};
    /// # let (mut permanent, mut scratch) = ([0; 0], [0; 16]);
    /// # let (mut map, mut written) = ([0; map_words(0, 16)], [0; map_words(0, 16)]);
    /// # let mut core = Core::set_up(&mut permanent, &mut scratch, &mut map, &mut written, 0, 0)?;
    /// # let (driver, plotter, sample) = (Thread::new(0), Thread::new(1), Area::new(2));
    /// # core.start(driver, Kind::RealTime)?;
    /// # core.make(driver, sample, 8)?;
    /// core.enter(driver, sample)?;
    /// core.start_helper(driver, Kind::NoHeap, plotter)?;
    /// assert_eq!(core.exit(driver), Ok(1)); // the plotter stays, though it never entered
    /// let curve = core.allocate(plotter, 0, 3)?;
    /// assert_eq!(curve.area(), sample);
    /// assert_eq!(core.exit(plotter), Ok(0));
    /// # Ok::<(), Refusal>(())
    /// ```
    pub fn start_helper(
        &mut self,
        starter: Thread,
        kind: Kind,
        helper: Thread,
    ) -> Result<(), Refusal> {
        let answer = record::start_helper(self, starter.number(), kind as u64, helper.number());
        value(answer).map(|_| ())
    }

    /// Ends a thread. Refusals 2, 11.
    pub fn end(&mut self, thread: Thread) -> Result<(), Refusal> {
        value(record::end(self, thread.number())).map(|_| ())
    }

    /// Makes a scope of a size in words. It gets the lowest run of adjacent free blocks of scratch, 16
    /// words each, that holds them, and keeps it until it is removed; its objects get no more than the
    /// size that was asked for. Refusals 2, 6, 7, 8.
    pub fn make(&mut self, thread: Thread, scope: Area, size: u64) -> Result<(), Refusal> {
        let answer = record::make(self, thread.number(), scope.number(), size);
        value(answer).map(|_| ())
    }

    /// Removes a scope that is not open: it counts as not made from then on, and its blocks are free
    /// for other scopes. Made again, it may lie elsewhere; its generations go on, so that its old
    /// handles stay dead. No lent word changes. Refusals 2, 6, 20.
    ///
    /// ```
    /// # use scopes::{map_words, Area, Core, Kind, Refusal, Thread};
    /// # let (mut permanent, mut scratch) = ([0; 0], [0; 16]);
    /// # let (mut map, mut written) = ([0; map_words(0, 16)], [0; map_words(0, 16)]);
    /// # let mut core = Core::set_up(&mut permanent, &mut scratch, &mut map, &mut written, 0, 0)?;
    /// # let (meter, oak, pine) = (Thread::new(0), Area::new(2), Area::new(3));
    /// # core.start(meter, Kind::RealTime)?;
    /// # core.make(meter, oak, 16)?;
    /// core.enter(meter, oak)?;
    /// assert_eq!(core.remove(meter, oak), Err(Refusal::Open));
    /// core.exit(meter)?;
    /// assert_eq!(core.make(meter, pine, 9), Err(Refusal::Size)); // the emptied scope keeps its room
    /// core.remove(meter, oak)?;
    /// core.make(meter, pine, 9)?;
    /// assert_eq!(core.enter(meter, oak), Err(Refusal::Area));
    /// # Ok::<(), Refusal>(())
    /// ```
    pub fn remove(&mut self, thread: Thread, scope: Area) -> Result<(), Refusal> {
        let answer = record::remove(self, thread.number(), scope.number());
        value(answer).map(|_| ())
    }

    /// Enters an area; its generation. Refusals 2, 6, 5, 9, 10, 17.
    pub fn enter(&mut self, thread: Thread, area: Area) -> Result<u64, Refusal> {
        let answer = record::enter(self, thread.number(), area.number());
        value(answer)
    }

    /// Leaves the current area; the count of entries left of a scope, else 0. A scope that its last
    /// thread leaves is emptied, and keeps its blocks. Refusals 2, 11.
    pub fn exit(&mut self, thread: Thread) -> Result<u64, Refusal> {
        value(record::exit(self, thread.number()))
    }

    /// Allocates an object in the current area, slots null, data words 0 and unwritten. Refusals 2, 5,
    /// 12.
    pub fn allocate(
        &mut self,
        thread: Thread,
        slots: u64,
        data_words: u64,
    ) -> Result<Handle, Refusal> {
        let answer = record::allocate(self, thread.number(), slots, data_words);
        let word = value(answer)?;
        Ok(Handle::from_word(word).expect("an object's generation is at least 1"))
    }

    /// Stores a reference, or null, in a slot. Refusals 2, 13, 5, 14, 15, 5, 16.
    pub fn store(
        &mut self,
        thread: Thread,
        object: Handle,
        slot: u64,
        target: Option<Handle>,
    ) -> Result<(), Refusal> {
        let answer = record::store(
            self,
            thread.number(),
            object.word(),
            slot,
            slot_word(target),
        );
        value(answer).map(|_| ())
    }

    /// Loads a reference, or null. Refusals 2, 13, 5, 14, 5.
    pub fn load(
        &self,
        thread: Thread,
        object: Handle,
        slot: u64,
    ) -> Result<Option<Handle>, Refusal> {
        let answer = record::load(self, thread.number(), object.word(), slot);
        value(answer).map(Handle::from_word)
    }

    /// Writes a data word; writing 0 is a writing too. Refusals 2, 13, 5, 14.
    pub fn write(
        &mut self,
        thread: Thread,
        object: Handle,
        index: u64,
        word: u64,
    ) -> Result<(), Refusal> {
        let answer = record::write(self, thread.number(), object.word(), index, word);
        value(answer).map(|_| ())
    }

    /// Reads a data word that was written. Refusals 2, 13, 5, 14, 19.
    pub fn read(&self, thread: Thread, object: Handle, index: u64) -> Result<u64, Refusal> {
        let answer = record::read(self, thread.number(), object.word(), index);
        value(answer)
    }

    /// An object's data words where they lie, whether anybody wrote them or not. No call that changes
    /// anything can be made while they are held. Refusals 2, 13, 5.
    pub fn view(&self, thread: Thread, object: Handle) -> Result<&[u64], Refusal> {
        let place = record::view_place(self, thread.number(), object.word());
        check(place.status)?;
        let store = match place.store {
            0 => self.permanent(),
            _ => self.scratch(),
        };
        Ok(&store[place.from as usize..][..place.len as usize])
    }

    /// Whether [`Core::view`] would be refused.
    pub fn view_status(&self, thread: Thread, object: Handle) -> Result<(), Refusal> {
        let answer = record::view_status(self, thread.number(), object.word());
        value(answer).map(|_| ())
    }

    /// The words of the permanent store, to look at.
    pub fn permanent(&self) -> &[u64] {
        record::permanent(self)
    }

    /// The words of the scratch store, to look at.
    pub fn scratch(&self) -> &[u64] {
        record::scratch(self)
    }

    /// The words of the start map, to look at.
    pub fn map(&self) -> &[u64] {
        record::map(self)
    }

    /// The words of the written map, to look at.
    pub fn written(&self) -> &[u64] {
        record::written(self)
    }
}

/// The buffers' lengths alone: the tables are nobody's to read.
impl fmt::Debug for Core<'_> {
    fn fmt(&self, out: &mut fmt::Formatter<'_>) -> fmt::Result {
        out.debug_struct("Core")
            .field("permanent", &self.permanent().len())
            .field("scratch", &self.scratch().len())
            .field("map", &self.map().len())
            .field("written", &self.written().len())
            .finish_non_exhaustive()
    }
}
