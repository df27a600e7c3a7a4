//! A small program, whose blocks fork and join.

use delegate_parts::Lends;
use reach::{AddFault, Analysis, Program};
use std::alloc::Global;
use std::process::Abort;
use std::test::Fail;

/// What each block writes, and its predecessors: the entry, left and right, the join and the exit.
const BLOCKS: [(&[u32], &[usize]); 5] = [
    (&[1], &[]),
    (&[2, 3], &[0]),
    (&[4], &[0]),
    (&[5], &[1, 2]),
    (&[], &[3]),
];

/// A block, a variable, and whether it may have been written before the block is entered.
type Asked = (usize, u32, bool);

const ASKED: [Asked; 9] = [
    (4, 3, true),
    (4, 1, true),
    (4, 5, true),
    (3, 5, false),
    (2, 2, false),
    (3, 4, true),
    (0, 1, false),
    (4, 6, false),
    (9, 1, false),
];

#[test]
fn a_write_is_found_on_any_way_back(rt: HostRuntime) -> Result<(), Fail> {
    let mut program = program_of_blocks(&rt)?;
    let missing = add(rt.alloc(), &mut program, &[], &[4, 5]);
    assert_eq!(rt; missing, Err(AddFault::Missing));
    let otherwise = answered_otherwise::<&Program>(rt.alloc(), &program, &ASKED)?;
    assert_eq!(rt; otherwise, None);
    Ok(())
}

/// The blocks, each of which is found as it was added.
fn program_of_blocks(rt: &(impl Abort + AllocGlobal)) -> Result<Program, AddFault> {
    let mut program = Program::new(rt.alloc());
    for (writes, predecessors) in BLOCKS {
        let is_found = add(rt.alloc(), &mut program, writes, predecessors)?;
        assert!(rt; is_found, "a block that writes {writes:?}");
    }
    Ok(program)
}

/// Adds a block with these writes and predecessors. Is it found as it was added?
fn add(
    alloc: Global,
    program: &mut Program,
    writes: &[u32],
    predecessors: &[usize],
) -> Result<bool, AddFault> {
    let mut own_writes = Vec::new(alloc);
    own_writes.extend_from_slice(writes)?;
    let mut own_predecessors = Vec::new(alloc);
    own_predecessors.extend_from_slice(predecessors)?;
    let block = program.add(own_writes, own_predecessors)?;
    Ok(
        program.predecessors(block) == predecessors
            && writes
                .iter()
                .all(|variable| program.writes(block, *variable)),
    )
}

/// The first question that is answered otherwise.
fn answered_otherwise<P: Lends<Program>>(
    alloc: Global,
    program: P,
    asked: &[Asked],
) -> Result<Option<Asked>, Fail> {
    let mut analysis = Analysis::<P>::new(alloc, program);
    for (block, variable, is_written) in asked {
        if analysis.may_be_written(*block, *variable)? != *is_written {
            return Ok(Some((*block, *variable, *is_written)));
        }
    }
    Ok(None)
}
