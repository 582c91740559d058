//! The kinds of inputs, and which input stands at an index of a seed.

use crate::damage;
use crate::edit;
use crate::large;
use crate::make;
use crate::rng::Rng;
use crate::sizes;
use crate::text;

#[derive(Clone, Copy, Debug, PartialEq, Eq)]
pub enum Kind {
    /// Lawful books with few names and many collisions.
    Small,
    /// Books near the limits.
    Near,
    /// Books past the limits, and inputs of about the longest size.
    Over,
    /// Lawful books with a small odd edit.
    Edited,
    /// Lawful books with damaged bytes.
    Damaged,
    /// Bytes and lines that were never books.
    Noise,
}

pub const KINDS: [Kind; 6] =
    [Kind::Small, Kind::Near, Kind::Over, Kind::Edited, Kind::Damaged, Kind::Noise];

impl Kind {
    pub fn name(self) -> &'static str {
        match self {
            Kind::Small => "small",
            Kind::Near => "near limits",
            Kind::Over => "over limits",
            Kind::Edited => "edited",
            Kind::Damaged => "damaged",
            Kind::Noise => "noise",
        }
    }
}

/// The input at an index. It depends on the seed and the index alone.
pub fn make(seed: u64, index: u64) -> (Kind, Vec<u8>) {
    let rng = &mut Rng::new(seed, index);
    let kind = match rng.below(100) {
        0..=39 => Kind::Small,
        40..=47 => Kind::Near,
        48..=52 => Kind::Over,
        53..=80 => Kind::Edited,
        81..=93 => Kind::Damaged,
        _ => Kind::Noise,
    };
    let input = match kind {
        Kind::Small => small(rng),
        Kind::Near => large::near_limits(rng),
        Kind::Over if rng.chance(40) => large::over_limits(rng),
        Kind::Over => sizes::sized(rng),
        Kind::Edited => {
            let book = small(rng);
            edit::edited(rng, &book)
        }
        Kind::Damaged => {
            let book = small(rng);
            damage::damaged(rng, book)
        }
        Kind::Noise => damage::noise(rng),
    };
    (kind, input)
}

fn small(rng: &mut Rng) -> Vec<u8> {
    text::write(&make::small(rng))
}
