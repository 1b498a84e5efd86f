//! A case: what the calls are lent, made from a seed and the case's number.

use reference::inputs::{Inputs, InputsPlan};
use reference::make::{CachePlan, SignaturePlan};
use reference::random::Random;

use crate::{damage, plan};

/// A case on its way to bytes; damage is done at the level where it is easiest to aim.
pub struct Draft {
    pub signature: SignaturePlan,
    pub cache: CachePlan,
    pub inputs: Inputs,
}

impl Draft {
    fn new(plan: &InputsPlan) -> Draft {
        Draft { signature: plan.signature(), cache: plan.cache(), inputs: plan.build() }
    }
}

pub struct Scene {
    /// The hash kind of the directory before damage.
    pub kind: u8,
    /// What the whole check is lent.
    pub inputs: Inputs,
    /// The marks before the whole check.
    pub marks: Vec<u8>,
    /// The image that was signed, before damage.
    pub signed: Vec<u8>,
}

/// The generator of one case (splitmix64 of seed and number, so that neighbours differ).
pub fn random_of(seed: u64, case: u64) -> Random {
    let mut z = seed.wrapping_add((case + 1).wrapping_mul(0x9E37_79B9_7F4A_7C15));
    z = (z ^ (z >> 30)).wrapping_mul(0xBF58_476D_1CE4_E5B9);
    z = (z ^ (z >> 27)).wrapping_mul(0x94D0_49BB_1331_11EB);
    Random::new((z ^ (z >> 31)) | 1)
}

impl Scene {
    /// A good case with no damage or up to three.
    pub fn new(random: &mut Random) -> Scene {
        let mut plan = plan::good(random);
        let (kind, signed) = (plan.directory.kind, plan.image.clone());
        let damages = *random.pick(&[0, 0, 1, 1, 1, 1, 1, 2, 2, 3]);
        let levels: Vec<u64> = (0..damages).map(|_| random.below(4)).collect();
        let at = |level: u64| levels.iter().filter(|&&l| l == level).count();
        (0..at(0)).for_each(|_| damage::plan::damage(&mut plan, random));
        let mut draft = Draft::new(&plan);
        (0..at(1)).for_each(|_| damage::signature::damage(&mut draft, random));
        (0..at(2)).for_each(|_| damage::cache::damage(&mut draft, random));
        draft.inputs.signature = draft.signature.bytes();
        draft.inputs.cache = draft.cache.bytes();
        (0..at(3)).for_each(|_| damage::bytes::damage(&mut draft.inputs, random));
        let marks = random.bytes(draft.inputs.pages);
        Scene { kind, inputs: draft.inputs, marks, signed }
    }
}
