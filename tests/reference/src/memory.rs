//! "Memory that the host lends": the two stores, the start map and the written map, all of 64-bit
//! words, with any contents.

/// The lengths that "every later call compares".
#[derive(Clone, Copy, Debug, Default, PartialEq, Eq)]
pub struct Lengths {
    pub permanent: u64,
    pub scratch: u64,
    pub start_map: u64,
    pub written: u64,
}

impl Lengths {
    /// The start map has "exactly (P + S + 63) / 64 words, rounded down"; the written map is "shaped
    /// like the start map".
    pub fn with_maps(permanent: u64, scratch: u64) -> Lengths {
        let map = (permanent + scratch).div_ceil(64);
        Lengths {
            permanent,
            scratch,
            start_map: map,
            written: map,
        }
    }
}

/// The lent buffers. A word's number counts "permanent words first, then scratch words".
#[derive(Clone, Debug, PartialEq, Eq)]
pub struct Memory {
    pub permanent: Vec<u64>,
    pub scratch: Vec<u64>,
    pub start_map: Vec<u64>,
    pub written: Vec<u64>,
}

impl Memory {
    pub fn zeroed(lengths: Lengths) -> Memory {
        Memory {
            permanent: vec![0; lengths.permanent as usize],
            scratch: vec![0; lengths.scratch as usize],
            start_map: vec![0; lengths.start_map as usize],
            written: vec![0; lengths.written as usize],
        }
    }

    pub fn lengths(&self) -> Lengths {
        Lengths {
            permanent: self.permanent.len() as u64,
            scratch: self.scratch.len() as u64,
            start_map: self.start_map.len() as u64,
            written: self.written.len() as u64,
        }
    }

    pub fn word(&self, number: u64) -> u64 {
        let number = number as usize;
        match number.checked_sub(self.permanent.len()) {
            None => self.permanent[number],
            Some(in_scratch) => self.scratch[in_scratch],
        }
    }

    pub fn set_word(&mut self, number: u64, value: u64) {
        let number = number as usize;
        match number.checked_sub(self.permanent.len()) {
            None => self.permanent[number] = value,
            Some(in_scratch) => self.scratch[in_scratch] = value,
        }
    }

    /// A part of one store: `count` words from word `first` on.
    pub fn part(&self, first: u64, count: u64) -> &[u64] {
        let (first, count) = (first as usize, count as usize);
        match first.checked_sub(self.permanent.len()) {
            None => &self.permanent[first..first + count],
            Some(in_scratch) => &self.scratch[in_scratch..in_scratch + count],
        }
    }

    /// The start map's bit "is 1 where an object starts at word w"
    pub fn starts_at(&self, number: u64) -> bool {
        bit(&self.start_map, number)
    }

    pub fn set_start(&mut self, number: u64, starts: bool) {
        set_bit(&mut self.start_map, number, starts);
    }

    /// The written map's bit tells whether a data word was written since its object was made.
    pub fn is_written(&self, number: u64) -> bool {
        bit(&self.written, number)
    }

    pub fn set_written(&mut self, number: u64, written: bool) {
        set_bit(&mut self.written, number, written);
    }
}

/// "Map bit w mod 64 of map word w / 64"
fn bit(map: &[u64], number: u64) -> bool {
    map[(number / 64) as usize] & 1 << (number % 64) != 0
}

fn set_bit(map: &mut [u64], number: u64, value: bool) {
    let bit = 1 << (number % 64);
    let word = &mut map[(number / 64) as usize];
    *word = if value { *word | bit } else { *word & !bit };
}
