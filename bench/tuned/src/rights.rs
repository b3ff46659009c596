//! The rights table of the state, which can be loaded: a mask for each kind, of which a thread keeps its own. A table
//! is loaded only while no thread is started, so that no mask is ever out of date.

use crate::state::{accepted, refused, Answer, State, FIRST_SCOPE, STACK_ENTRIES};

/// For each kind and class of areas the four rights.
pub type Table = [[[bool; 4]; 3]; 3];

#[derive(Clone, Copy)]
pub enum Right {
    Enter,
    Allocate,
    Use,
    Refer,
}

/// The rights before the first load.
pub const BUILT_IN: Table = [
    [[true; 4], [false, false, true, true], [false; 4]],
    [[true; 4], [true; 4], [true; 4]],
    [[false; 4], [true; 4], [true; 4]],
];

/// Bit 4 * class + right for each right, and one bit more that says that the thread is started: with a table of
/// zeros it has no right and is started all the same.
#[derive(Clone, Copy, Default)]
pub struct Mask(u16);

impl Mask {
    const STARTED: u16 = 1 << 12;
    /// The first right's bit for each class.
    const CLASSES: u16 = 0x111;

    fn of(kind: &[[bool; 4]; 3]) -> Mask {
        let rights = kind.iter().flatten().enumerate();
        let bits = rights.map(|(place, &has)| u16::from(has) << place);
        Mask(bits.fold(Mask::STARTED, |mask, bit| mask | bit))
    }

    #[inline(always)]
    pub fn is_started(self) -> bool {
        self.0 != 0
    }

    #[inline(always)]
    pub fn have(self, right: Right, area: usize) -> bool {
        let class = area.min(FIRST_SCOPE) as u32;
        u32::from(self.0) >> (class * 4 + right as u32) & 1 != 0
    }

    /// Whether the right is there for every entry of a stack. None is looked at where it is there for every class;
    /// else all 32 places are, sixteen at a time, and those above the length do not count.
    #[inline(always)]
    pub fn have_for_all(self, right: Right, entries: &[u8; STACK_ENTRIES], len: u8) -> bool {
        let every = Mask::CLASSES << right as u32;
        if self.0 & every == every {
            return true;
        }
        let [heap, immortal, scope] = [0, 1, FIRST_SCOPE].map(|area| !self.have(right, area));
        let mut lacking = false;
        for (place, &area) in (0..).zip(entries) {
            let lacks = heap & (area == 0) | immortal & (area == 1) | scope & (area > 1);
            lacking |= lacks & (place < len);
        }
        !lacking
    }
}

/// The mask of each kind.
pub fn masks(table: &Table) -> [Mask; 3] {
    table.each_ref().map(Mask::of)
}

/// Puts another table in force: refusals 23 and 24.
pub fn load_rights(st: &mut State, text: &[u8]) -> Answer {
    let Some(table) = table_of(text) else {
        return refused(23);
    };
    if st.threads.iter().any(|thread| thread.kind != 0) {
        return refused(24);
    }
    st.rights = masks(&table);
    accepted(0)
}

/// 36 digits, each 0 or 1, the second of four 1 only where the third is.
fn table_of(text: &[u8]) -> Option<Table> {
    let text: &[u8; 36] = text.try_into().ok()?;
    let mut table = BUILT_IN;
    for (place, digit) in table.iter_mut().flatten().flatten().zip(text) {
        *place = match digit {
            b'0' => false,
            b'1' => true,
            _ => return None,
        };
    }
    let mut classes = table.iter().flatten();
    let loadable = classes.all(|&[_, allocates, uses, _]| uses || !allocates);
    loadable.then_some(table)
}
