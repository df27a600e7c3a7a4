//! Services that need each other, before they start or beside them.

use delegate_parts::Lends;
use services::{Need, Service, can_run};
use std::alloc::Global;
use std::io::Write;
use std::process::Abort;
use std::test::Fail;

/// What has to be up before, and what has to run beside.
type Needed = (&'static [usize], &'static [usize]);

/// Services, the depth at which each is asked for, and what they come to.
#[derive(Clone, Copy)]
struct Case {
    name: &'static str,
    services: &'static [Needed],
    depth: usize,
    told: &'static str,
}

const CASES: [Case; 4] = [
    Case {
        name: "services may run beside each other, and may not wait for each other",
        services: &[
            (&[], &[0]), // beside itself
            (&[1], &[]), // it waits for itself
            (&[], &[3]), // two beside each other
            (&[], &[2]),
            (&[5], &[]), // two that wait for each other
            (&[4], &[]),
        ],
        depth: 100,
        told: "Yes No Yes Yes No No",
    },
    Case {
        name: "a way round has to go through one that runs beside",
        services: &[
            (&[1], &[]), // 0 waits for 1, which runs beside 0
            (&[], &[0]),
            (&[3], &[0]), // 2 waits for 3, which runs beside 2; and 0 can run
            (&[0], &[2]),
            (&[4], &[0]), // it waits for itself, and 0 can run
            (&[0], &[4]), // what runs beside it can't
        ],
        depth: 100,
        told: "Yes Yes Yes Yes No No",
    },
    Case {
        name: "what is no service can't run",
        services: &[(&[], &[]), (&[0], &[7]), (&[7], &[0]), (&[0], &[0])],
        depth: 100,
        told: "Yes No No Yes",
    },
    Case {
        name: "a depth may be too small",
        services: &[(&[1], &[]), (&[], &[2]), (&[], &[])],
        depth: 1,
        told: "Neither Yes Yes",
    },
];

#[test]
fn services_can_run(rt: HostRuntime) -> Result<(), Fail> {
    for case in CASES {
        let told = tell(rt.alloc(), case.services, case.depth)?;
        let name = case.name;
        assert_eq!(rt;
            std::str::from_utf8(told.as_slice()),
            Ok(case.told),
            "{name}"
        );
    }
    Ok(())
}

fn tell(alloc: Global, needed: &[Needed], depth: usize) -> Result<Vec<u8>, Fail> {
    let mut services = Vec::new(alloc);
    for (first, beside) in needed {
        let mut needs = Vec::new(alloc);
        add(&mut needs, first, true)?;
        add(&mut needs, beside, false)?;
        services.push(Service { needs })?;
    }
    tell_each::<&Vec<Service>>(alloc, &services, needed.len(), depth)
}

fn add(needs: &mut Vec<Need>, numbers: &[usize], comes_first: bool) -> Result<(), Fail> {
    for number in numbers {
        needs.push(Need {
            service: *number,
            comes_first,
        })?;
    }
    Ok(())
}

fn tell_each<S: Lends<Vec<Service>>>(
    alloc: Global,
    services: S,
    count: usize,
    depth: usize,
) -> Result<Vec<u8>, Fail> {
    let mut told = Vec::new(alloc);
    for number in 0..count {
        let verdict = can_run(alloc, services, number, depth)?;
        let gap = if told.is_empty() { "" } else { " " };
        write!(told, "{gap}{verdict:?}")?;
    }
    Ok(told)
}
