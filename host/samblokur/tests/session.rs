//! The safe crate: sessions, typed answers, the assembler and the readers.

use samblokur::{
    Condition, Ending, EntryId, EventBuilder, Failure, Kind, LookupId, NodeId, Outcome, Phase, Plan,
    PlanBuilder, Refusal, Session, Status, Value, VariableId, Word,
};

/// A list with Inv on a Bool lookup, and a child command (K9).
fn guarded() -> Result<Vec<u8>, Refusal> {
    let mut plan = PlanBuilder::new();
    let root = plan.add_list(None);
    plan.add_command(root, 4);
    let door = plan.add_lookup(Kind::Bool);
    let shut = plan.lookup(door);
    plan.condition(root, Condition::Inv, shut);
    plan.image()
}

#[test]
fn a_session_over_its_turns() -> Result<(), Refusal> {
    let image = guarded()?;
    let (root, command, mut list) = (NodeId(0), NodeId(1), [9; 4]);
    let mut session = Session::fresh(Plan::open(&image)?)?;
    assert_eq!((session.phase(), session.lookup(LookupId(0))), (Some(Phase::Running), Some(Value::Unknown)));
    let run = session.run(100, &mut list, 0)?;
    assert_eq!(
        (run.ending, run.steps, run.next, Word::of(list[0])),
        (Ending::Quiet, 3, 1, Word::Issue(command))
    );
    let event = EventBuilder::new().value(LookupId(0), false).bytes(session.next_serial());
    let run = session.turn(&event, 100, &mut list, run.next)?;
    assert_eq!((run.steps, Word::of(list[1])), (2, Word::Abort(command)));
    assert_eq!((session.status(command), session.returned(command)), (Some(Status::Failing), false));
    let event = EventBuilder::new().returned(command).bytes(1);
    assert_eq!(session.turn(&event, 0, &mut list, 0)?.ending, Ending::Spent);
    assert!(session.returned(command));
    assert_eq!(session.run(100, &mut list, 0)?.steps, 4);
    assert_eq!(session.outcome(root), Some(Outcome::Failure));
    assert_eq!(
        (session.failure(root), session.failure(command)),
        (Some(Failure::Invariant), Some(Failure::Parent))
    );
    assert_eq!((session.status(NodeId(2)), session.variable(VariableId(0))), (None, None));
    Ok(())
}

#[test]
fn refusals_are_typed() -> Result<(), Refusal> {
    let image = guarded()?;
    assert_eq!(Plan::open(&image[..19]).err(), Some(Refusal::Short));
    let mut session = Session::fresh(Plan::open(&image)?)?;
    assert_eq!(session.turn(&[], 100, &mut [], 0), Err(Refusal::Busy));
    assert_eq!(session.turn(&[], 100, &mut [], 1), Err(Refusal::Place));
    assert_eq!(session.run(100, &mut [], 1), Err(Refusal::Place));
    let no_room = session.run(100, &mut [], 0);
    assert_eq!(no_room, Err(Refusal::NoRoom { steps: 2, next: 0 }));
    assert_eq!(session.run(100, &mut [0], 0).map(|run| run.steps), Ok(1));
    let root_returned = EventBuilder::new().returned(NodeId(0)).bytes(0);
    assert_eq!(session.turn(&root_returned, 100, &mut [], 0), Err(Refusal::Entry(0)));
    assert_eq!(session.turn(&EventBuilder::new().bytes(7), 100, &mut [], 0), Err(Refusal::Turn));
    Ok(())
}

#[test]
fn no_room_keeps_the_event_and_a_refusal_does_not() -> Result<(), Refusal> {
    let image = guarded()?;
    let mut session = Session::fresh(Plan::open(&image)?)?;
    session.run(100, &mut [0], 0)?;
    let event = EventBuilder::new().value(LookupId(0), false).bytes(0);
    assert_eq!(session.turn(&event, 100, &mut [], 1), Err(Refusal::Place));
    assert_eq!((session.next_serial(), session.lookup(LookupId(0))), (0, Some(Value::Unknown)));
    assert_eq!(session.turn(&event, 100, &mut [], 0), Err(Refusal::NoRoom { steps: 1, next: 0 }));
    assert_eq!((session.next_serial(), session.lookup(LookupId(0))), (1, Some(Value::Bool(false))));
    assert_eq!(session.run(100, &mut [0], 0).map(|run| run.steps), Ok(1));
    Ok(())
}

#[test]
fn kept_sessions_go_on() -> Result<(), Refusal> {
    let image = guarded()?;
    let plan = Plan::open(&image)?;
    let mut session = Session::fresh(plan)?;
    assert_eq!(session.run(1, &mut [], 0)?.ending, Ending::Spent);
    let mut again = Session::kept(plan, session.state().clone(), session.card());
    assert_eq!(again.run(100, &mut [0], 0)?.steps, 2);
    let mut state = session.state().clone();
    state.status[0] = 0;
    assert_eq!(Session::kept(plan, state, session.card()).run(1, &mut [], 0), Err(Refusal::State));
    Ok(())
}

#[test]
fn readers_show_what_was_assembled() -> Result<(), Refusal> {
    let image = guarded()?;
    let records = Plan::open(&image)?.records();
    let root = records.node(NodeId(0)).map(|node| node.to_string());
    let told = "parent none, type 0 (list), spare 0, priority 0, Skip none, Start none, Pre none, Inv 0, \
                End none, Post none, Repeat none, what none, value none";
    assert_eq!(root.as_deref(), Some(told));
    let entry = records.expression(EntryId(0)).map(|entry| entry.to_string());
    assert_eq!(entry.as_deref(), Some("operator 2 (lookup), kind 0 (Bool), a 0, b 0, spare 0, constant 0x0"));
    assert_eq!(
        records.lookup(LookupId(0)).map(|lookup| lookup.to_string()).as_deref(),
        Some("kind 0 (Bool), spare 0")
    );
    assert_eq!((records.node(NodeId(2)), records.variable(VariableId(0))), (None, None));
    Ok(())
}

#[test]
fn an_assembler_too_full_answers_count() {
    let mut plan = PlanBuilder::new();
    let root = plan.add_list(None);
    for _ in 0..70000 {
        plan.add_list(root);
    }
    assert_eq!(plan.image(), Err(Refusal::Count));
}
