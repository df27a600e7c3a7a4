//! Tests of the goals below a goal. A goal is a kind of path here.

use crate::parts::told::{KINDS, Told};
use path_kinds::path::{PathKind, PathsToNested};
use search_context::context::NoMemory;
use search_stack::nested_goals::NestedGoals;
use std::alloc::Global;
use std::mem;
use std::test::Fail;

/// What is done with the goals below a goal, and with those below a child of it.
#[derive(Clone, Copy)]
enum Act {
    /// Paths are joined to one of the goals.
    Own(PathKind, PathsToNested),
    /// Paths are joined to one of the child's goals.
    Childs(PathKind, PathsToNested),
    /// The child's goals are joined, after a step to it.
    Extend(PathKind),
    /// The same, and the child is a new one afterwards.
    Take(PathKind),
    /// The goals become those of the child, and there are none beside these.
    Rise,
}

const EMPTY: PathsToNested = PathsToNested::EMPTY;

const INDUCTIVE: PathsToNested = PathsToNested::INDUCTIVE;

const UNKNOWN: PathsToNested = PathsToNested::UNKNOWN;

const COINDUCTIVE: PathsToNested = PathsToNested::COINDUCTIVE;

/// What is done where there are no goals yet, and after each act the goals that it changed with the paths to them: those of
/// the child, or one's own.
const ROWS: [(&str, &[Act], &str); 4] = [
    (
        "paths to a goal are joined",
        &[
            Act::Rise,
            Act::Own(PathKind::Unknown, EMPTY),
            Act::Own(PathKind::Unknown, UNKNOWN),
        ],
        "own:; own: u:e; own: u:eu; ",
    ),
    (
        "a goal is joined to itself again",
        &[
            Act::Childs(PathKind::Unknown, EMPTY),
            Act::Childs(PathKind::Unknown, EMPTY),
            Act::Childs(PathKind::Unknown, COINDUCTIVE),
            Act::Childs(PathKind::Unknown, EMPTY),
            // The step extends the path of no step, which then is there no more.
            Act::Take(PathKind::Inductive),
            Act::Own(PathKind::Unknown, EMPTY),
            // It is joined to another goal in between.
            Act::Own(PathKind::Inductive, EMPTY),
            Act::Own(PathKind::Unknown, EMPTY),
        ],
        "child: u:e; child: u:e; child: u:ec; child: u:ec; own: u:ic; own: u:eic; own: i:e u:eic; \
         own: i:e u:eic; ",
    ),
    (
        "a child adds its goals after the step",
        &[
            Act::Childs(PathKind::Inductive, EMPTY),
            Act::Childs(PathKind::Unknown, COINDUCTIVE),
            Act::Own(PathKind::Inductive, INDUCTIVE),
            Act::Own(PathKind::Coinductive, INDUCTIVE),
            Act::Extend(PathKind::Unknown),
        ],
        "child: i:e; child: i:e u:c; own: i:i; own: i:i c:i; own: i:iu u:c c:i; ",
    ),
    (
        "a child gives its goals after the step",
        &[
            Act::Childs(PathKind::Inductive, EMPTY),
            Act::Childs(PathKind::Unknown, COINDUCTIVE),
            Act::Own(PathKind::Inductive, INDUCTIVE),
            Act::Take(PathKind::Unknown),
            Act::Own(PathKind::Coinductive, EMPTY),
            // A smaller child is walked.
            Act::Childs(PathKind::ForcedAmbiguity, INDUCTIVE),
            Act::Childs(PathKind::Coinductive, EMPTY),
            Act::Take(PathKind::Coinductive),
            // These goals are in turn those of a child, whose steps come one after the other.
            Act::Rise,
            Act::Take(PathKind::Inductive),
            Act::Rise,
            Act::Take(PathKind::Unknown),
        ],
        "child: i:e; child: i:e u:c; own: i:i; own: i:iu u:c; own: i:iu u:c c:e; child: f:i; \
         child: c:e f:i; own: i:iu u:c c:ec f:c; own:; own: i:iu u:c c:ic f:c; own:; own: i:u u:c \
         c:uc f:c; ",
    ),
];

#[test]
fn nested_goals_are_as_told(rt: HostRuntime) -> Result<(), Fail> {
    for (name, acts, wanted) in ROWS {
        let told = tell_acts(rt.alloc(), acts).text()?;
        assert_eq!(rt; told.as_str(), wanted, "{name}");
    }
    Ok(())
}

fn tell_acts(alloc: Global, acts: &[Act]) -> Told {
    let mut told = Told::new(alloc);
    let mut goals = NestedGoals::<PathKind>::new(alloc);
    let mut child = NestedGoals::<PathKind>::new(alloc);
    for act in acts {
        if carry_out(alloc, &mut goals, &mut child, *act).is_err() {
            told.say("no memory ");
        }
        if matches!(act, Act::Childs(_, _)) {
            tell(&mut told, "child:", &child);
        } else {
            tell(&mut told, "own:", &goals);
        }
    }
    told
}

fn carry_out(
    alloc: Global,
    goals: &mut NestedGoals<PathKind>,
    child: &mut NestedGoals<PathKind>,
    act: Act,
) -> Result<(), NoMemory> {
    match act {
        Act::Own(goal, paths) => goals.insert(goal, paths),
        Act::Childs(goal, paths) => child.insert(goal, paths),
        Act::Extend(step) => goals.extend_from_child(step, child),
        Act::Take(step) => {
            goals.take_from_child(step, child)?;
            // It is left open what the child is left with.
            *child = NestedGoals::new(alloc);
            Ok(())
        }
        Act::Rise => {
            mem::swap(goals, child);
            *goals = NestedGoals::new(alloc);
            Ok(())
        }
    }
}

/// The word, and then the goals with the paths to them.
fn tell(told: &mut Told, word: &str, goals: &NestedGoals<PathKind>) {
    told.say(word);
    let mut found = 0usize;
    for goal in KINDS {
        if let Some(paths) = goals.get(goal) {
            told.kind(" ", goal);
            told.paths(":", paths);
            found = found.saturating_add(1);
        }
        if goals.contains(goal) != goals.get(goal).is_some() {
            told.say(" otherwise");
        }
    }
    if goals.len() != found || goals.is_empty() != (found == 0) || goals.iter().count() != found {
        told.say(" and others");
    }
    told.say("; ");
}
