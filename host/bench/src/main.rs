//! The library beside the plain executive, in one run: ns for each report, each micro step, the check and an
//! expression entry, and each text read beside the plain reader; then the stack that the libraries were seen to take.

mod measure;
mod reading;
mod stack;
mod sum;
mod tower;
mod unfolding;

use measure::Measure;
use plain::Plain;
use samblokur_sys::text::Reads;
use samblokur_sys::{Executive, Library};
use std::error::Error;
use sum::Sum;
use tower::Tower;
use unfolding::Unfolding;

/// How often each is measured; the least counts.
const ROUNDS: usize = 15;

/// Only the stack is measured.
const STACK: &str = "--stack";

fn main() -> Result<(), Box<dyn Error>> {
    let arguments: Vec<String> = std::env::args().skip(1).collect();
    match &arguments[..] {
        [] => table(),
        [name] if name == STACK => stack_line(),
        [name, levels, what] if name == stack::WITHIN => stack::within(levels.parse()?, what),
        [name, bytes] if name == reading::WITHIN => reading::within(bytes.parse()?),
        _ => Err(format!("usage: bench [{STACK}]").into()),
    }
}

fn table() -> Result<(), Box<dyn Error>> {
    println!("{:>5}  {:<34}{:>12}{:>12}{:>8}", "nodes", "ns for each", "library", "plain", "ratio");
    for nodes in [10, 50, 250] {
        let tower = Tower::of(nodes)?;
        row(nodes, "report (one turn to quiet)", || report::<Library>(&tower), || report::<Plain>(&tower));
        row(nodes, "micro step", || step::<Library>(&tower), || step::<Plain>(&tower));
        row(nodes, "check", || check::<Library>(&tower), || check::<Plain>(&tower));
    }
    let unfolding = Unfolding::new()?;
    row(
        256,
        "check, 12 entries that unfold",
        || Measure::of(|| unfolding.check::<Library>()),
        || Measure::of(|| unfolding.check::<Plain>()),
    );
    entry_row(&Sum::new()?);
    for kilobytes in [1, 20, 200] {
        let text = texts::sized(kilobytes * 1000);
        row(
            kilobytes,
            "text read (KB instead of nodes)",
            || read_text(&texts::SUBJECT, &text),
            || read_text(&texts::MODEL, &text),
        );
    }
    println!("stack of the deepest reading: at most {} KB", reading::least()? / 1024);
    stack_line()
}

fn stack_line() -> Result<(), Box<dyn Error>> {
    println!("measured at the deepest call: {} bytes", stack::measured()?);
    Ok(())
}

/// Both are measured by turns, so that a busy machine is busy for both.
fn row(nodes: usize, what: &str, library: impl Fn() -> Measure, plain: impl Fn() -> Measure) {
    let (mut ours, mut theirs) = (Measure::default(), Measure::default());
    for _ in 0..ROUNDS {
        ours.better(library());
        theirs.better(plain());
    }
    print_row(nodes, what, ours, theirs);
}

/// A run that works the sum out twice, less one that does it once, each at its least.
fn entry_row(sum: &Sum) {
    let mut least = [[Measure::default(); 2]; 2];
    for _ in 0..ROUNDS {
        for (times, phase) in [sum::RUNNING, sum::QUIET].into_iter().enumerate() {
            least[0][times].better(evaluation::<Library>(sum, phase));
            least[1][times].better(evaluation::<Plain>(sum, phase));
        }
    }
    let [ours, theirs] = least.map(|[once, twice]| twice.less(once).each_of(sum::ENTRIES));
    print_row(1, "expression entry", ours, theirs);
}

fn print_row(nodes: usize, what: &str, library: Measure, plain: Measure) {
    let (ours, theirs) = (library.ns(), plain.ns());
    println!("{nodes:>5}  {what:<34}{ours:>12.1}{theirs:>12.1}{:>8.2}", ours / theirs);
}

fn report<E: Executive>(tower: &Tower) -> Measure {
    let mut turns = tower.quiet::<E>();
    Measure::of(|| (0..4).map(|_| turns.report()).sum())
}

fn step<E: Executive>(tower: &Tower) -> Measure {
    let mut turns = tower.ticking::<E>();
    Measure::of(|| turns.run(50))
}

fn check<E: Executive>(tower: &Tower) -> Measure {
    Measure::of(|| (0..10).map(|_| tower.check::<E>()).sum())
}

fn read_text(reader: &dyn Reads, text: &[u8]) -> Measure {
    let mut image = vec![0; 65536];
    Measure::of(|| {
        assert_eq!(reader.read(text, &mut image).number, 0, "a bench text is refused");
        1
    })
}

fn evaluation<E: Executive>(sum: &Sum, phase: u32) -> Measure {
    let mut state = sum.fresh::<E>();
    Measure::of(|| sum.run::<E>(&mut state, phase))
}
