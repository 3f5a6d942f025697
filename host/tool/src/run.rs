//! `run`: the turns of a plan, told in words and drawn.

use crate::arguments::Asked;
use crate::events::{self, Event};
use crate::source::load;
use crate::svg::Picture;
use crate::telling;
use crate::trouble::{Trouble, read_events};
use crate::turn::turn;
use reader::Names;
use samblokur::{Plan, Session};
use std::fs;
use std::path::Path;

pub fn run(asked: &Asked, told: &mut String) -> Result<(), Trouble> {
    let source = load(&asked.plan)?;
    let (plan, names) = (Plan::open(&source.image).map_err(Trouble::refused(&asked.plan))?, &source.names);
    let events = match &asked.events {
        Some(file) => events::read(file, &read_events(file)?, &plan.records(), names)?,
        None => Vec::new(),
    };
    let mut picture = Picture::new(title(asked), plan, names);
    let ending = turns(asked, (plan, names), &events, &mut picture, told);
    // A refused event ends the run; the picture shows what came before it.
    if let Some(file) = &asked.svg {
        fs::write(file, picture.svg()).map_err(|why| Trouble::Write { file: file.clone(), why })?;
    }
    ending
}

/// The names of the files.
fn title(asked: &Asked) -> String {
    let name = |file: &String| Path::new(file).file_name().unwrap_or_default().to_string_lossy().into_owned();
    let files = [Some(&asked.plan), asked.events.as_ref()];
    files.into_iter().flatten().map(name).collect::<Vec<_>>().join(", ")
}

fn turns(
    asked: &Asked,
    (plan, names): (Plan, &Names),
    events: &[Event],
    picture: &mut Picture,
    told: &mut String,
) -> Result<(), Trouble> {
    let mut session = Session::fresh(plan).map_err(Trouble::refused(&asked.plan))?;
    let first = turn(&mut session, None, "fresh start".to_string(), asked.budget)
        .map_err(Trouble::refused(format!("the run of {}", asked.plan)))?;
    telling::tell(&first, &session, names, told);
    picture.add(&first, &session);
    for event in events {
        let serial = session.next_serial();
        let (bytes, cause) = (event.builder.bytes(serial), format!("event {serial} ({})", event.text));
        let next = turn(&mut session, Some(&bytes), cause, asked.budget)
            .map_err(Trouble::refused(format!("event {serial} (line {}: {})", event.line, event.text)))?;
        telling::tell(&next, &session, names, told);
        picture.add(&next, &session);
    }
    telling::end(&session, names, told);
    Ok(())
}
