//! The colours of the picture. Each area has its own.

use std::collections::BTreeMap;

use reference::state::{HEAP, IMMORTAL};

pub const TEXT: &str = "#222222";
pub const FAINT_TEXT: &str = "#666666";
pub const GROUND: &str = "#ffffff";
pub const GRID: &str = "#e2e2e2";
pub const LANE: &str = "#f6f6f4";
pub const EDGE: &str = "#888888";
pub const LIFE: &str = "#dfe3e6";
pub const ACCEPTED: &str = "#8a9096";
pub const REFUSED: &str = "#b3261e";
pub const ON_REFUSED: &str = "#ffffff";
pub const PARENT: &str = "#555555";
pub const STARTER: &str = "#00695c";
pub const REMOVED: &str = "#222222";

/// Hues that are told apart easily, and the lightness of their rounds: where there are more scopes
/// than hues, the hues come again, a little turned.
const HUES: [usize; 12] = [208, 345, 42, 135, 268, 20, 178, 310, 72, 228, 0, 158];
const LIGHTNESS: [f64; 3] = [0.72, 0.60, 0.82];
const TURN: usize = 6;

/// The colours of the scopes of one picture, by their order.
#[derive(Debug)]
pub struct Palette {
    ranks: BTreeMap<u64, usize>,
}

impl Palette {
    pub fn new(scopes: impl Iterator<Item = u64>) -> Palette {
        let ranks = scopes.enumerate().map(|(rank, scope)| (scope, rank));
        Palette {
            ranks: ranks.collect(),
        }
    }

    /// An area's colour: of its bars, and of its words in use.
    pub fn of_area(&self, area: u64) -> String {
        match area {
            HEAP => "#d3cfc8".into(),
            IMMORTAL => "#b9c0c4".into(),
            scope => of_rank(self.ranks[&scope]),
        }
    }

    /// The pale colour behind an open scope.
    pub fn behind(&self, scope: u64) -> String {
        hsl(hue(self.ranks[&scope]), 0.50, 0.94)
    }
}

fn of_rank(rank: usize) -> String {
    let round = rank / HUES.len();
    hsl(hue(rank), 0.58, LIGHTNESS[round % LIGHTNESS.len()])
}

fn hue(rank: usize) -> usize {
    HUES[rank % HUES.len()] + rank / HUES.len() * TURN
}

/// A colour by hue in degrees, saturation and lightness.
fn hsl(hue: usize, saturation: f64, lightness: f64) -> String {
    let reach = saturation * lightness.min(1.0 - lightness);
    let channel = |turn: f64| {
        let place = (turn + hue as f64 / 30.0) % 12.0;
        let slope = (place - 3.0).min(9.0 - place).clamp(-1.0, 1.0);
        ((lightness - reach * slope) * 255.0).round() as u8
    };
    let (red, green, blue) = (channel(0.0), channel(8.0), channel(4.0));
    format!("#{red:02x}{green:02x}{blue:02x}")
}

#[cfg(test)]
mod tests {
    use super::*;
    use reference::state::{AREAS, FIRST_SCOPE};
    use std::collections::BTreeSet;

    #[test]
    fn each_area_has_its_own_colour() {
        let palette = Palette::new(FIRST_SCOPE..AREAS);
        let colours: BTreeSet<String> = (0..AREAS).map(|area| palette.of_area(area)).collect();
        assert_eq!(colours.len(), AREAS as usize);
    }
}
