//! A run of the text in `runs`. It begins with a line that has its sort, its name and its options, and its
//! answers follow a line `expect 0`.

use std::test::Fail;

/// A run, as it stands in the text.
#[derive(Clone, Copy)]
pub struct Run<'a> {
    /// Of what sort it is.
    pub sort: &'a str,
    /// The words behind its name.
    pub options: &'a str,
    /// The lines between the first one and the answers.
    pub input: &'a str,
    /// What it has to come to.
    pub wanted: &'a str,
}

impl<'a> Run<'a> {
    /// The run of this text.
    pub fn read(text: &'a str) -> Result<Run<'a>, Fail> {
        let (asked, wanted) = text
            .split_once("\nexpect 0\n")
            .ok_or("a run without answers")?;
        let (head, input) = asked.split_once('\n').unwrap_or((asked, ""));
        let (sort, named) = head.split_once(' ').ok_or("a run without a name")?;
        let (_, options) = named.split_once(' ').unwrap_or((named, ""));
        Ok(Run {
            sort,
            options,
            input,
            wanted,
        })
    }
}
