//! A tour of random calls: plans, sessions, kept states, and damage of all of them.

use crate::difference::Difference;
use crate::draft::Draft;
use crate::memory::Memory;
use crate::pair::Pair;
use crate::{Random, Tally, damage, events, misses, plans, states};
use samblokur_sys::{Card, Executive, Report, State};

/// What a list holds before a run, so that words written outside their part show.
const UNWRITTEN: u32 = 0xDEAD_BEEF;

/// A turn card's phase.
const RUNNING: u32 = 0;

/// Makes at least so many calls to both executives.
///
/// # Errors
/// The first call that they answer differently.
pub fn tour<S: Executive, M: Executive>(seed: u64, calls: u64) -> Result<Tally, Difference> {
    let mut random = Random::of(seed);
    let mut pair = Pair::<S, M>::new();
    for owner in [0, 1, 255] {
        pair.check(&plans::unfolding(owner).image())?;
    }
    while pair.tally.calls < calls {
        let mut draft = plans::plan(&mut random);
        match random.below(10) {
            0..6 => session(&mut random, &mut pair, &draft)?,
            6 | 7 => kept(&mut random, &mut pair, &draft)?,
            8 => {
                misses::miss(&mut random, &mut draft);
                around(&mut random, &mut pair, &draft.image())?;
            }
            _ => damaged_images(&mut random, &mut pair, &draft)?,
        }
    }
    Ok(pair.tally)
}

/// A fresh start and some turns; on the way, damaged copies of what the session holds.
fn session<S: Executive, M: Executive>(
    random: &mut Random,
    pair: &mut Pair<S, M>,
    draft: &Draft,
) -> Result<(), Difference> {
    let image = draft.image();
    promised(pair.check(&image)?.number == 0, "a plan made to be admitted is refused")?;
    let mut memory = anything(random);
    pair.fresh(&image, &mut memory)?;
    for _ in 0..1 + random.below(6) {
        // The run alone is for the fresh start, Spent and NoRoom, and does nothing after Quiet.
        if memory.card.phase == RUNNING || random.chance(10) {
            let ran = run(random, pair, &image, &mut memory)?;
            promised(ran.number != 30, "a session meets 30")?;
        }
        if random.chance(30) {
            damaged(random, pair, draft, &image, &memory)?;
        }
        let event = match random.chance(75) {
            true => events::right(random, draft, &memory.state, &memory.card),
            false => events::wrong(random, draft, &memory.state, &memory.card),
        };
        let serial = memory.card.serial;
        let turned = turn(random, pair, &image, &mut memory, &event)?;
        promised(turned.number != 30, "a session meets 30")?;
        let entered = matches!(turned.number, 0 | 32);
        promised(
            entered == (memory.card.serial != serial),
            "the event is kept by NoRoom and Spent, and no refusal",
        )?;
    }
    Ok(())
}

/// A kept state that no session need have reached.
fn kept<S: Executive, M: Executive>(
    random: &mut Random,
    pair: &mut Pair<S, M>,
    draft: &Draft,
) -> Result<(), Difference> {
    let image = draft.image();
    let state = states::kept(random, draft);
    let mut memory = Memory { state, card: states::card(random), list: vec![UNWRITTEN; random.below(20)] };
    for _ in 0..3 {
        run(random, pair, &image, &mut memory)?;
        damaged(random, pair, draft, &image, &memory)?;
        let event = events::wrong(random, draft, &memory.state, &memory.card);
        turn(random, pair, &image, &mut memory, &event)?;
    }
    Ok(())
}

fn run<S: Executive, M: Executive>(
    random: &mut Random,
    pair: &mut Pair<S, M>,
    image: &[u8],
    memory: &mut Memory,
) -> Result<Report, Difference> {
    let (budget, start) = lent(random, memory);
    pair.run(image, memory, budget, start)
}

fn turn<S: Executive, M: Executive>(
    random: &mut Random,
    pair: &mut Pair<S, M>,
    image: &[u8],
    memory: &mut Memory,
    event: &[u8],
) -> Result<Report, Difference> {
    let (budget, start) = lent(random, memory);
    pair.turn(image, memory, event, budget, start)
}

/// A list that may be too short, any budget, and a start place that may be beyond the list.
fn lent(random: &mut Random, memory: &mut Memory) -> (u16, usize) {
    let room = if random.chance(70) { 40 } else { random.below(6) };
    memory.list = vec![UNWRITTEN; room];
    let start = if random.chance(90) { random.below(room.min(5)) } else { random.below(room + 3) };
    let budget = match random.below(10) {
        0 => 0,
        1 | 2 => 1,
        3 => random.half(8),
        _ => 60,
    };
    (budget, start)
}

/// Calls on copies in which state, card, event or image is damaged.
fn damaged<S: Executive, M: Executive>(
    random: &mut Random,
    pair: &mut Pair<S, M>,
    draft: &Draft,
    image: &[u8],
    memory: &Memory,
) -> Result<(), Difference> {
    let (mut memory, mut image) = (memory.clone(), image.to_vec());
    let mut event = events::right(random, draft, &memory.state, &memory.card);
    match random.below(6) {
        0 => damage::card(random, &mut memory.card),
        1 => damage::bytes(random, &mut event),
        2 => damage::bytes(random, &mut image),
        _ => damage::state(random, &mut memory.state),
    }
    turn(random, pair, &image, &mut memory.clone(), &event)?;
    run(random, pair, &image, &mut memory).map(|_| ())
}

/// Images with a damaged header, a flipped bit or another length.
fn damaged_images<S: Executive, M: Executive>(
    random: &mut Random,
    pair: &mut Pair<S, M>,
    draft: &Draft,
) -> Result<(), Difference> {
    for _ in 0..4 {
        let mut image = draft.image();
        match random.chance(50) {
            true => damage::header(random, &mut image),
            false => damage::bytes(random, &mut image),
        }
        around(random, pair, &image)?;
    }
    Ok(())
}

/// All four calls on an image that may be refused, with any state.
fn around<S: Executive, M: Executive>(
    random: &mut Random,
    pair: &mut Pair<S, M>,
    image: &[u8],
) -> Result<(), Difference> {
    pair.check(image)?;
    let mut memory = anything(random);
    run(random, pair, image, &mut memory.clone())?;
    turn(random, pair, image, &mut memory.clone(), &[0; 8])?;
    pair.fresh(image, &mut memory)?;
    run(random, pair, image, &mut memory).map(|_| ())
}

/// Memory as a host may lend it to a fresh start.
fn anything(random: &mut Random) -> Memory {
    let mut memory = Memory { state: State::default(), card: Card::default(), list: vec![UNWRITTEN; 4] };
    damage::card(random, &mut memory.card);
    memory.state.status = std::array::from_fn(|_| random.byte(255));
    memory.state.varbits = std::array::from_fn(|_| random.bits());
    memory
}

fn promised(kept: bool, promise: &str) -> Result<(), Difference> {
    if kept { Ok(()) } else { Err(Difference::broken(promise)) }
}
