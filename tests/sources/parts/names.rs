//! Tests of names that all have one head, as `tests/alike_names.py` makes them, with the head of 64 that comes first.

use line_texts::Names;
use std::test::Fail;

const ALIKE: [&[u8]; 24] = [
    b"aaaaaaaaaaaazabd",
    b"aaaaaaaaaaaas34j",
    b"aaaaaaaaaaaaxnop",
    b"aaaaaaaaaaaaw3yh",
    b"aaaaaaaaaaaaga0d",
    b"aaaaaaaaaaaa4olb",
    b"aaaaaaaaaaaafein",
    b"aaaaaaaaaaaakaub",
    b"aaaaaaaaaaaadrvz",
    b"aaaaaaaaaaaak2ow",
    b"aaaaaaaaaaaamsbd",
    b"aaaaaaaaaaaaqiqs",
    b"aaaaaaaaaaaatq23",
    b"aaaaaaaaaaaaxqw1",
    b"aaaaaaaaaaaaxm4z",
    b"aaaaaaaaaaaa4n1l",
    b"aaaaaaaaaaaaxwji",
    b"aaaaaaaaaaaa3rjv",
    b"aaaaaaaaaaaafndg",
    b"aaaaaaaaaaaajdsv",
    b"aaaaaaaaaaaaqly4",
    b"aaaaaaaaaaaarn3b",
    b"aaaaaaaaaaaaqrll",
    b"aaaaaaaaaaaa1ixm",
];

#[test]
fn names_that_hash_alike_are_told_apart(rt: HostRuntime) -> Result<(), Fail> {
    let mut names = Names::new(rt.alloc());
    for (place, name) in ALIKE.iter().enumerate() {
        assert!(rt; are_there(&names, place));
        // One request may be refused, and then nothing has changed.
        let number = match names.intern(*name) {
            Ok(number) => number,
            Err(_) => {
                assert!(rt; are_there(&names, place));
                names.intern(*name)?
            }
        };
        assert_eq!(rt; number, place);
        assert_eq!(rt; names.intern(*name)?, place);
    }
    assert!(rt; are_there(&names, ALIKE.len()));
    Ok(())
}

/// Whether just the first so many names are there, with their numbers.
fn are_there(names: &Names, count: usize) -> bool {
    for (place, name) in ALIKE.iter().enumerate() {
        let wanted = if place < count { Some(place) } else { None };
        if names.number(*name) != wanted {
            return false;
        }
    }
    names.count() == count
}
