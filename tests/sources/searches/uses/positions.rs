//! Games that end, and games that may go on without end.

use delegate_parts::Lends;
use games::{Game, Player, Solver};
use std::alloc::Global;
use std::io::Write;
use std::process::Abort;
use std::test::Fail;

/// The turn of a position, and to which positions its moves lead.
type Place = (Player, &'static [usize]);

/// Which position is asked for, and at which depth.
type Asked = (usize, usize);

/// Each of eight positions, at a depth that suffices.
const EACH: &[Asked] = &[
    (0, 100),
    (1, 100),
    (2, 100),
    (3, 100),
    (4, 100),
    (5, 100),
    (6, 100),
    (7, 100),
];

/// A game, what is asked of it in turn over one cache, and what it comes to.
#[derive(Clone, Copy)]
struct Case {
    name: &'static str,
    places: &'static [Place],
    asked: &'static [Asked],
    told: &'static str,
}

const CASES: [Case; 3] = [
    // Position 2n + t: n stones lie there, and it is the turn of One where t is 0. A turn takes one or two.
    Case {
        name: "who takes the last stone wins",
        places: &[
            (Player::One, &[]),
            (Player::Two, &[]),
            (Player::One, &[1]),
            (Player::Two, &[0]),
            (Player::One, &[3, 1]),
            (Player::Two, &[2, 0]),
            (Player::One, &[5, 3]),
            (Player::Two, &[4, 2]),
        ],
        asked: EACH,
        told: "No Yes Yes No Yes No No Yes",
    },
    Case {
        name: "play without end is not won",
        places: &[
            (Player::One, &[1]), // round and round with 1
            (Player::Two, &[0]),
            (Player::One, &[3, 4]), // round with 3, or out
            (Player::Two, &[2]),
            (Player::Two, &[]),
            (Player::Two, &[4, 6]), // Two goes round with 6
            (Player::One, &[5]),
            (Player::One, &[9]), // to no position
        ],
        asked: EACH,
        told: "No No Yes Yes Yes No No No",
    },
    Case {
        name: "a depth that is too small is told",
        places: &[(Player::One, &[1]), (Player::One, &[2]), (Player::Two, &[])],
        asked: &[(0, 1), (0, 2)],
        told: "Neither, a limit was met Yes, a limit was met",
    },
];

#[test]
fn games_are_solved(rt: HostRuntime) -> Result<(), Fail> {
    for case in CASES {
        let told = tell(rt.alloc(), case.places, case.asked)?;
        let name = case.name;
        assert_eq!(rt;
            std::str::from_utf8(told.as_slice()),
            Ok(case.told),
            "{name}"
        );
    }
    Ok(())
}

fn tell(alloc: Global, places: &[Place], asked: &[Asked]) -> Result<Vec<u8>, Fail> {
    let mut game = Game::new(alloc);
    for (turn, moves) in places {
        add(alloc, &mut game, *turn, moves)?;
    }
    tell_wins::<&Game>(alloc, &game, asked)
}

/// Adds a position with these moves, which has to be found as it was added.
fn add(alloc: Global, game: &mut Game, turn: Player, moves: &[usize]) -> Result<(), Fail> {
    let mut own = Vec::new(alloc);
    own.extend_from_slice(moves)?;
    let position = game.add(turn, own)?;
    if game.turn(position) != Some(turn) || game.moves(position) != moves {
        return Err("another position was added")?;
    }
    Ok(())
}

/// What the positions come to, each with whether a limit was met until then.
fn tell_wins<G: Lends<Game>>(alloc: Global, game: G, asked: &[Asked]) -> Result<Vec<u8>, Fail> {
    let mut solver = Solver::<G>::new(alloc, game);
    let mut told = Vec::new(alloc);
    for (position, depth) in asked {
        let verdict = solver.wins(*position, *depth)?;
        let gap = if told.is_empty() { "" } else { " " };
        let limits = if solver.limits_met() {
            ", a limit was met"
        } else {
            ""
        };
        write!(told, "{gap}{verdict:?}{limits}")?;
    }
    Ok(told)
}
