//! What a stream is made of: bytes, and the time that passes between them.

use std::fmt;
use std::str::FromStr;

/// One byte of the line, or one call that says how many milliseconds have passed since the last such call.
#[derive(Clone, Copy, PartialEq, Eq)]
pub enum Input {
    Byte(u8),
    Time(u32),
}

/// `254` is a byte, `t2100` a time.
impl fmt::Display for Input {
    fn fmt(&self, f: &mut fmt::Formatter) -> fmt::Result {
        match self {
            Input::Byte(byte) => write!(f, "{byte}"),
            Input::Time(milliseconds) => write!(f, "t{milliseconds}"),
        }
    }
}

impl fmt::Debug for Input {
    fn fmt(&self, f: &mut fmt::Formatter) -> fmt::Result {
        fmt::Display::fmt(self, f)
    }
}

impl FromStr for Input {
    type Err = std::num::ParseIntError;

    fn from_str(word: &str) -> Result<Input, Self::Err> {
        match word.strip_prefix('t') {
            Some(milliseconds) => Ok(Input::Time(milliseconds.parse()?)),
            None => Ok(Input::Byte(word.parse()?)),
        }
    }
}

pub fn of_bytes(bytes: &[u8]) -> Vec<Input> {
    bytes.iter().map(|&byte| Input::Byte(byte)).collect()
}

/// `None` where time passes among them.
pub fn only_bytes(inputs: &[Input]) -> Option<Vec<u8>> {
    let byte = |input: &Input| match input {
        Input::Byte(byte) => Some(*byte),
        Input::Time(_) => None,
    };
    inputs.iter().map(byte).collect()
}

/// The bytes at the front of a stream, up to the next time.
pub fn leading_bytes(inputs: &[Input]) -> Vec<u8> {
    let bytes = inputs.iter().take_while(|input| matches!(input, Input::Byte(_)));
    only_bytes(&bytes.copied().collect::<Vec<_>>()).expect("bytes only")
}
