//! The proved vet against the reference's on random formats and kinds, and against the proved format: what is accepted
//! fits its count, and what is refused for its arguments, without conditionals, is refused the same by format.

mod drawing;

use drawing::vets::{self, Case};
use drawing::{damage, tables, texts, Tally};
use random::{pieced, Random};
use reference::Value;

const SEED: u64 = 4;
const VETS: usize = 250_000;

#[test]
fn random_vets() {
    let random = Random::new(SEED);
    let mut tally = Tally::default();
    for _ in 0..VETS {
        let case = next_case(&random);
        let vetted = vets::compare(&case);
        if matches!(vetted.0, 0 | 6..=8) {
            vets::hold(&case, &vets::arguments(&random, &case), vetted);
        }
        tally.add(vetted.0);
    }
    println!("{VETS} proved vets agree with the reference and with the proved format:{tally}");
    tally.assert_each(&[0, 2, 3, 4, 5, 6, 7, 8, 11, 12], 300);
}

fn next_case(random: &Random) -> Case {
    let (format, mut arguments) = next_format(random);
    tables::unsettle(random, &mut arguments);
    let kinds = arguments.iter().map(Value::tag).collect();
    vets::case(random, format, kinds)
}

/// Most are plain.
fn next_format(random: &Random) -> (Vec<u8>, Vec<Value>) {
    let (mut format, arguments) = match random.below(10) {
        0 => texts::format(random, random.below(4), false),
        _ => texts::plain(random),
    };
    match random.below(20) {
        0..=2 => damage::damage(random, &mut format),
        3 => format = pieced(random).into_bytes(),
        4 if random.once_in(4) => format = damage::shapeless(random),
        5 if random.once_in(5) => damage::lengthen(random, &mut format),
        _ => {}
    }
    (format, arguments)
}
