//! The tour: plan after plan, each printed, spelled, damaged and cut.

use crate::damage::{self, Damage};
use crate::known::{Known, of_plan};
use crate::limits::limits;
use crate::make::{Shape, plan};
use crate::names::{twice, undeclared};
use crate::pair::{Difference, Pair, ROOM};
use crate::plan::Plan;
use crate::print::tokens;
use crate::spell::spell;
use crate::tally::Tally;
use differ::Random;
use samblokur_sys::text::Reads;

/// Texts made from a seed until there are so many.
///
/// # Errors
/// The first text that the readers answer differently, or otherwise than it must be.
pub fn tour(subject: &dyn Reads, model: &dyn Reads, seed: u64, texts: u64) -> Result<Tally, Difference> {
    let mut random = Random::of(seed);
    let mut pair = Pair { subject, model, tally: Tally::default() };
    limits(&mut random, &mut pair)?;
    while pair.tally.texts < texts {
        let shape = shape(&mut random);
        let plan = plan(&mut random, shape);
        one_plan(&mut random, &mut pair, &plan)?;
        for _ in 0..5 {
            pair.read(&damage::anything(&mut random), &Known::Nothing)?;
        }
    }
    Ok(pair.tally)
}

/// Texts of random plans that are accepted, with their images.
pub fn accepted(seed: u64, count: usize) -> Vec<(Vec<u8>, Vec<u8>)> {
    let mut random = Random::of(seed);
    let mut texts = Vec::new();
    while texts.len() < count {
        let shape = shape(&mut random);
        let plan = plan(&mut random, shape);
        let tokens = tokens(&mut random, &plan);
        if let Known::Image(image) = of_plan(&plan) {
            texts.push((spell(&mut random, &tokens).text, image));
        }
    }
    texts
}

fn shape(random: &mut Random) -> Shape {
    Shape {
        nodes: if random.chance(95) { 1 + random.below(8) } else { 1 + random.below(60) },
        careless: random.pick(&[0, 0, 0, 3, 20]),
        deep: if random.chance(8) { 10 + random.below(4) } else { random.pick(&[0, 2, 4, 6]) },
    }
}

/// A plan's text and the texts near it.
fn one_plan(random: &mut Random, pair: &mut Pair, plan: &Plan) -> Result<(), Difference> {
    let (known, tokens) = (of_plan(plan), tokens(random, plan));
    let text = spell(random, &tokens).text;
    pair.read(&text, &known)?;
    rooms(random, pair, &text, &known)?;
    undeclared(random, pair, &tokens)?;
    twice(random, pair, plan)?;
    for _ in 0..10 {
        reaches(pair, &damage::byte(random, &text))?;
    }
    if text.len() < 1200 && random.chance(5) {
        for cut in 0..text.len() {
            reaches(pair, &text[..cut])?;
        }
    }
    if tokens.len() < 250 && random.chance(15) {
        damaged(random, pair, &tokens)?;
    }
    Ok(())
}

/// Each token dropped, doubled, exchanged and replaced.
fn damaged(random: &mut Random, pair: &mut Pair, tokens: &[String]) -> Result<(), Difference> {
    for at in 0..tokens.len() {
        for damage in Damage::ALL {
            let damaged = damage::tokens(random, tokens, at, damage);
            pair.read(&spell(random, &damaged).text, &Known::Nothing)?;
        }
    }
    Ok(())
}

/// The longest viable prefix is itself viable up to its end: read alone it is refused at its end, or not with 40.
fn reaches(pair: &mut Pair, text: &[u8]) -> Result<(), Difference> {
    let report = pair.read(text, &Known::Nothing)?;
    if report.number != 40 {
        return Ok(());
    }
    let prefix = &text[..(report.place as usize).min(text.len())];
    let again = pair.model.read(prefix, &mut [0; ROOM]);
    let known = match again.number {
        40 => Known::Refused(40, report.place),
        number => Known::Number(number),
    };
    pair.read(prefix, &known).map(|_| ())
}

/// The image's own room is enough, and a byte less is not.
fn rooms(random: &mut Random, pair: &mut Pair, text: &[u8], known: &Known) -> Result<(), Difference> {
    if let Known::Image(image) = known {
        pair.read_into(text, image.len(), known)?;
        pair.read_into(text, image.len() - 1, &Known::Refused(43, 0))?;
        pair.read_into(text, random.below(image.len()), &Known::Refused(43, 0))?;
        pair.read_into(text, 0, &Known::Refused(43, 0))?;
    }
    Ok(())
}
