//! Streams that fail.
use std::io;
use std::io::{ErrorKind, Read, Write};

/// How an input goes on after its bytes.
#[derive(Clone, Copy)]
pub enum End {
    /// It ends.
    Comes,
    /// Reading fails.
    Fails,
    /// More comes for ever.
    NeverComes,
}

/// An input that is read a byte at a time.
#[derive(Drop)]
pub struct Input<'a> {
    pub bytes: &'a [u8],
    pub end: End,
}

impl Read for Input<'_> {
    fn read(&mut self, buf: &mut [u8]) -> io::Result<usize> {
        let Some((first, rest)) = self.bytes.split_first() else {
            return match self.end {
                End::Comes => Ok(0),
                End::Fails => Err(io::Error::from(ErrorKind::BrokenPipe)),
                End::NeverComes => Ok(write_first(buf, b'#')),
            };
        };
        self.bytes = rest;
        Ok(write_first(buf, *first))
    }
}

fn write_first(buf: &mut [u8], byte: u8) -> usize {
    match buf.first_mut() {
        Some(first) => {
            *first = byte;
            1
        }
        None => 0,
    }
}

/// An output that takes a byte at a time, of which every other write is interrupted.
#[derive(Drop)]
pub struct Output {
    pub taken: Vec<u8>,
    /// How many bytes it takes at most.
    pub room: usize,
    /// Whether it can be flushed.
    pub flushes: bool,
    pub is_interrupted: bool,
}

impl Write for Output {
    fn write(&mut self, buf: &[u8]) -> io::Result<usize> {
        self.is_interrupted = !self.is_interrupted;
        if self.is_interrupted {
            return Err(io::Error::from(ErrorKind::Interrupted));
        }
        let Some((first, _)) = buf.split_first() else {
            return Ok(0);
        };
        if self.taken.len() >= self.room {
            return Err(io::Error::from(ErrorKind::StorageFull));
        }
        self.taken.push(*first)?;
        Ok(1)
    }

    fn flush(&mut self) -> io::Result<()> {
        if self.flushes {
            Ok(())
        } else {
            Err(io::Error::from(ErrorKind::BrokenPipe))
        }
    }
}
