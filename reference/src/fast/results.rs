//! Results that are known. An examination ends in the same way after as many
//! examinations wherever it is made, so that a state met again with the same
//! depth is passed over and its examinations are only counted. A slot holds
//! the newest result.

const FEW: usize = 1024;
const MANY: usize = 16_384;
/// Slots that are looked at to tell how full the memory is, and how many of
/// them are taken in a full one.
const SAMPLE: usize = 64;
const FULL: usize = 56;

/// How examining a state with a depth ends: the examinations, and for a
/// success the length of its plan and the plan's first byte. The length of a
/// failure is 0.
#[derive(Clone, Copy, Default)]
pub struct Known {
    pub examinations: u32,
    pub length: u32,
    pub first: u8,
}

/// The state; its depth under the examinations; the first byte under the
/// length. Depth 0 means that nothing is known.
#[derive(Clone, Copy, Default)]
struct Slot {
    state: u64,
    examinations: u32,
    length: u32,
}

pub struct Results(Vec<Slot>);

/// A number for a state with a depth, spread over 16 bits.
pub fn spread(state: u64, depth: u32) -> usize {
    const SPREAD: u64 = 0x9e37_79b9_7f4a_7c15;
    let mixed = state.wrapping_mul(SPREAD) ^ u64::from(depth).wrapping_mul(SPREAD << 32);
    (mixed >> 48) as usize
}

impl Results {
    /// A memory that is cheap to clear.
    pub fn few() -> Self {
        Self(vec![Slot::default(); FEW])
    }

    /// A larger one if most slots are taken; it begins empty.
    pub fn grow(&mut self) {
        let sample = self.0.iter().step_by(FEW / SAMPLE);
        let full = sample.filter(|slot| slot.examinations != 0).count() >= FULL;
        if full && self.0.len() < MANY {
            *self = Self(vec![Slot::default(); MANY]);
        }
    }

    fn slot(&self, state: u64, depth: u32) -> usize {
        spread(state, depth) & (self.0.len() - 1)
    }

    /// The result of a state, if it is known.
    #[inline(always)]
    pub fn known(&self, state: u64, depth: u32) -> Option<Known> {
        let slot = self.0[self.slot(state, depth)];
        let same = slot.state == state && slot.examinations & 255 == depth;
        same.then_some(Known {
            examinations: slot.examinations >> 8,
            length: slot.length >> 8,
            first: slot.length as u8,
        })
    }

    #[inline(always)]
    pub fn note(&mut self, state: u64, depth: u32, known: Known) {
        let number = self.slot(state, depth);
        self.0[number] = Slot {
            state,
            examinations: known.examinations << 8 | depth,
            length: known.length << 8 | u32::from(known.first),
        };
    }
}
