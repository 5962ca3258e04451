//! Streams of random numbers.

use crate::{sys, Refusal};

/// How many streams there are.
pub const STREAMS: u32 = 512;

/// A stream of the generator of Park and Miller, the same on each machine.
///
/// ```
/// use covrith::{Refusal, Stream};
/// let mut stream = Stream::new(0).unwrap();
/// assert_eq!([stream.draw(), stream.draw()], [16_807, 282_475_249]);
/// assert_eq!(Stream::new(512), Err(Refusal::NoStream));
/// ```
#[derive(Clone, Debug, PartialEq, Eq)]
pub struct Stream {
    state: u32,
}

impl Stream {
    /// Stream 0 to 511, before its first draw.
    pub fn new(stream: u32) -> Result<Stream, Refusal> {
        let mut state = 0;
        // SAFETY: one number is lent.
        let answer = unsafe { sys::covrith_stream_start(stream, &mut state) };
        match Refusal::of(u64::from(answer)) {
            None => Ok(Stream { state }),
            Some(refusal) => Err(refusal),
        }
    }

    /// The state that the next draw steps.
    pub fn state(&self) -> u32 {
        self.state
    }

    /// Steps, and gives the new state, 1 to 2,147,483,646.
    pub fn draw(&mut self) -> u32 {
        // SAFETY: a number goes in and a number comes out.
        self.state = unsafe { sys::covrith_stream_step(self.state) };
        self.state
    }
}
