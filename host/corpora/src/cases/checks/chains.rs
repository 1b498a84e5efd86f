//! Chains: a whole check, then rechecks that go on with its marks.

use reference::inputs::{Inputs, InputsPlan};
use reference::random::Random;
use reference::recheck::Range;

use super::{lent_part, striped, Call};

const SEED: u64 = 0x6368_6563_6B73_0001;
const CHAINS: usize = 24;
const CHAIN_LENGTH: usize = 10;

pub fn add(calls: &mut Vec<Call>) {
    let mut random = Random::new(SEED);
    for chain in 0..CHAINS {
        let plan = some_plan(&mut random);
        one_chain(calls, &format!("chain {chain}"), plan, CHAIN_LENGTH, &mut random);
    }
    // The code limit is codeLimit64, and codeLimit says something else.
    for limit in [0, 1, 5000, u32::MAX] {
        let mut plan = some_plan(&mut random);
        plan.directory.code_limit64 = plan.directory.code_limit.into();
        plan.directory.code_limit = limit;
        let name = format!("chain with codeLimit {limit}");
        one_chain(calls, &name, plan, CHAIN_LENGTH, &mut random);
    }
}

fn some_plan(random: &mut Random) -> InputsPlan {
    let (length, shift) = *random.pick(&[(8193usize, 12u8), (20480, 12), (20479, 14), (4097, 0)]);
    InputsPlan::new(0x20500, striped(length), shift)
}

/// A whole check of a damaged image and so many rechecks.
pub fn one_chain(
    calls: &mut Vec<Call>,
    name: &str,
    plan: InputsPlan,
    rechecks: usize,
    random: &mut Random,
) {
    let mut inputs = plan.build();
    let signed = inputs.image.clone();
    inputs.image[random.below(signed.len() as u64) as usize] ^= 1;
    calls.push(Call::whole(format!("{name}, whole check"), &inputs, 4));
    for call in 0..rechecks {
        let name = format!("{name}, call {call}");
        calls.push(next_in_chain(name, &mut inputs, &signed, random));
    }
}

/// A recheck of a random range: its pages set right, altered, or as they are; sometimes
/// turned down. The image of `inputs` is the book's.
fn next_in_chain(name: String, inputs: &mut Inputs, signed: &[u8], random: &mut Random) -> Call {
    let limit = signed.len() as u64;
    let start = random.below(limit + 1);
    let length = *random.pick(&[0, 1, 2, 5000, limit - start, limit - start, limit - start + 1]);
    let Some((from, to)) = lent_part(inputs, start, length) else {
        return Call::next(name, inputs, &Range { start, length, bytes: &[] });
    };
    let choice = random.below(6);
    if choice == 5 {
        let bytes = &vec![0; to - from + 1];
        return Call::next(name, inputs, &Range { start, length, bytes });
    }
    if choice < 3 {
        inputs.image[from..to].copy_from_slice(&signed[from..to]);
    }
    if choice == 3 && length > 0 {
        inputs.image[(start + random.below(length)) as usize] ^= 1;
    }
    Call::next(name, inputs, &Range { start, length, bytes: &inputs.image[from..to] })
}
