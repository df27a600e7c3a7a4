//! Runs of `goals` between streams that fail: how they end, and what stands on the streams then.

use crate::programs::failing::{End, Input, Output};
use std::alloc::Global;
use std::io::{Read, Write};
use std::process::Abort;
use std::test::Fail;
use table_runs::run;

/// Which stream is too short by each number of bytes in turn.
#[derive(Clone, Copy)]
enum Short {
    Neither,
    Output,
    Errors,
}

/// A run between these streams, its status, and what is written to both where there is room.
#[derive(Clone, Copy)]
struct Row {
    name: &'static str,
    input: &'static str,
    end: End,
    short: Short,
    flushes: bool,
    status: u8,
    output: &'static str,
    errors: &'static str,
}

/// Two questions of a goal that holds.
const TWICE: Row = Row {
    name: "every other write is interrupted",
    input: "rule A =\nask 0 A\nask 1 A\n",
    end: End::Comes,
    short: Short::Neither,
    flushes: true,
    status: 0,
    output: "A yes 1 checked\nA yes 0 checked\n",
    errors: "",
};

/// The same where a stream fails.
const FAILED: Row = Row {
    status: 3,
    errors: "input or output failed\n",
    ..TWICE
};

const ROWS: [Row; 6] = [
    TWICE,
    Row {
        name: "flushing fails",
        flushes: false,
        ..FAILED
    },
    Row {
        name: "writing fails",
        short: Short::Output,
        ..FAILED
    },
    Row {
        name: "reading fails",
        input: "ask 0 A\n#",
        end: End::Fails,
        output: "",
        ..FAILED
    },
    Row {
        name: "the input never ends",
        input: "ask 0 A\n#",
        end: End::NeverComes,
        output: "",
        ..FAILED
    },
    // Where the reason can't be told, the status is the same.
    Row {
        name: "telling fails",
        input: "ask",
        short: Short::Errors,
        status: 2,
        output: "",
        errors: "line 1: bad line\n",
        ..TWICE
    },
];

#[test]
fn a_run_ends_as_its_streams_allow(rt: HostRuntime) -> Result<(), Fail> {
    for row in ROWS {
        expect_row(&rt, row)?;
    }
    Ok(())
}

/// The run ends as the row says, at each room that is too small. What is written is a beginning of what would be.
fn expect_row(rt: &(impl Abort + AllocGlobal), row: Row) -> Result<(), Fail> {
    let (output, errors) = (row.output.as_bytes(), row.errors.as_bytes());
    let rooms = match row.short {
        Short::Neither => 1,
        Short::Output => output.len(),
        Short::Errors => errors.len(),
    };
    for room in 0..rooms {
        let (output, errors) = match row.short {
            Short::Neither => (output, errors),
            Short::Output => (first_bytes(output, room), errors),
            Short::Errors => (output, first_bytes(errors, room)),
        };
        let wanted = Ended {
            status: row.status,
            output,
            errors,
        };
        expect_ended(rt, row, room, wanted)?;
    }
    Ok(())
}

fn first_bytes(text: &[u8], count: usize) -> &[u8] {
    text.get(..count).unwrap_or(text)
}

/// How a run is to end.
#[derive(Clone, Copy)]
struct Ended<'a> {
    status: u8,
    output: &'a [u8],
    errors: &'a [u8],
}

fn expect_ended(
    rt: &(impl Abort + AllocGlobal),
    row: Row,
    room: usize,
    wanted: Ended<'_>,
) -> Result<(), Fail> {
    let mut output = output_of(rt.alloc(), matches!(row.short, Short::Output), room);
    output.flushes = row.flushes;
    let mut errors = output_of(rt.alloc(), matches!(row.short, Short::Errors), room);
    let input = Input {
        bytes: row.input.as_bytes(),
        end: row.end,
    };
    let status = status_between(rt.alloc(), input, &mut output, &mut errors);
    let is_right = status == wanted.status
        && output.taken.as_slice() == wanted.output
        && errors.taken.as_slice() == wanted.errors;
    let name = row.name;
    assert!(rt; is_right, "{name}, room for {room} bytes: {status}");
    Ok(())
}

/// An output that has this room if it is short, and else room for all.
fn output_of(alloc: Global, is_short: bool, room: usize) -> Output {
    Output {
        taken: Vec::new(alloc),
        room: if is_short { room } else { usize::MAX },
        flushes: true,
        is_interrupted: false,
    }
}

/// The status of `goals` between these streams.
fn status_between<R: Read + Drop, W: Write, E: Write + Drop>(
    alloc: Global,
    input: R,
    out: &mut W,
    err: E,
) -> u8 {
    run(alloc, input, out, err)
}
