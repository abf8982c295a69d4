//! One input at a time: a byte (an argument, a byte of a picture or a file, or a character), or time that has passed.

use crate::colour::restarts_at_colour;
use crate::commands::arguments;
use crate::files::Files;
use crate::footprint::Footprint;
use crate::glass::Glass;
use crate::input::Input;
use crate::mutants::{is, Mutant as M};
use crate::state::{Bar, Gathering, State};

/// What happened to a bar, for the book.
#[derive(Clone, Copy, Debug, PartialEq, Eq)]
pub enum BarEvent {
    SetUp { number: usize, bar: Bar },
    Write { number: usize, asked: u8 },
}

/// What an input did: the thing it finished, if any, and how that ended.
#[derive(Clone, Debug, PartialEq, Eq)]
pub struct Step {
    pub input: Input,
    pub subject: Subject,
    pub outcome: Result<Footprint, u8>,
    pub bar: Option<BarEvent>,
    pub scrolled: bool,
    /// The arguments of a command that ended here.
    pub arguments: Vec<u8>,
}

#[derive(Clone, Copy, Debug, PartialEq, Eq)]
pub enum Subject {
    /// 254, or an argument that is not the last.
    Gathered,
    Command(u8),
    UnknownCode(u8),
    Character(u8),
    InlineByte,
    UploadByte,
    UploadConfirmed,
    UploadFinished,
    UploadBroken,
    /// Time that leaves everything under way.
    Waited,
    /// Time that has become too long for the upload.
    UploadDropped,
}

/// Everything an input may look at or change.
pub struct Machine<'a> {
    pub font: &'a [u8],
    pub glass: &'a mut Glass,
    pub files: &'a mut Files,
    pub state: &'a mut State,
    pub replies: &'a mut Vec<u8>,
    pub bar_event: Option<BarEvent>,
    pub scrolled: bool,
    pub arguments: Vec<u8>,
}

impl<'a> Machine<'a> {
    pub fn new(
        font: &'a [u8],
        glass: &'a mut Glass,
        files: &'a mut Files,
        state: &'a mut State,
        replies: &'a mut Vec<u8>,
    ) -> Machine<'a> {
        Machine { font, glass, files, state, replies, bar_event: None, scrolled: false, arguments: Vec::new() }
    }
}

impl Machine<'_> {
    pub fn byte(&mut self, byte: u8) -> Step {
        let (subject, outcome) = if self.state.inline.is_some() {
            (Subject::InlineByte, Ok(self.inline_byte(byte)))
        } else if self.state.upload.is_some() {
            self.upload_byte(byte)
        } else if self.state.gathering.is_some() {
            self.gather(byte)
        } else if byte == 254 {
            self.state.gathering = Some(Gathering { bytes: Vec::new() });
            (Subject::Gathered, Ok(Footprint::Nothing))
        } else {
            (Subject::Character(byte), self.character(byte))
        };
        self.ended(Input::Byte(byte), subject, outcome)
    }

    /// The milliseconds of one time call.
    pub fn time(&mut self, milliseconds: u32) -> Step {
        let (subject, outcome) = self.upload_waits(milliseconds);
        self.ended(Input::Time(milliseconds), subject, outcome)
    }

    fn ended(&mut self, input: Input, subject: Subject, outcome: Result<Footprint, u8>) -> Step {
        if let Err(refusal) = outcome {
            self.refuse(input, refusal);
        }
        Step {
            input,
            subject,
            outcome,
            bar: self.bar_event,
            scrolled: self.scrolled,
            arguments: std::mem::take(&mut self.arguments),
        }
    }

    /// The count rolls over; the last refusal is kept.
    fn refuse(&mut self, input: Input, refusal: u8) {
        self.state.refusals = if is(M::RefusalCountSaturates) {
            self.state.refusals.saturating_add(1)
        } else {
            self.state.refusals.wrapping_add(1)
        };
        if is(M::FirstRefusalStays) && self.state.last_refusal != 0 {
            return;
        }
        if is(M::DropLeavesLastRefusal) && matches!(input, Input::Time(_)) {
            return;
        }
        self.state.last_refusal = refusal;
    }

    fn gather(&mut self, byte: u8) -> (Subject, Result<Footprint, u8>) {
        let mut bytes = self.state.gathering.take().unwrap().bytes;
        let at_colour = bytes.len() == 1 && restarts_at_colour(bytes[0]);
        if (is(M::EscapeRestartsInsideCommand) || at_colour) && byte == 254 && !bytes.is_empty() {
            self.state.gathering = Some(Gathering { bytes: Vec::new() });
            return (Subject::Gathered, Ok(Footprint::Nothing));
        }
        bytes.push(byte);
        let code = bytes[0];
        let Some(needs) = arguments(code, self.state.edition) else {
            if is(M::UnknownCodeAlsoShown) {
                let _ = self.character(code);
            }
            if is(M::SecondEscapeBeginsAnew) && code == 254 {
                self.state.gathering = Some(Gathering { bytes: Vec::new() });
                return (Subject::Gathered, Ok(Footprint::Nothing));
            }
            return (Subject::UnknownCode(code), Err(16));
        };
        let here = bytes.len() - 1;
        // A saved bitmap that is not there ends the command at its number's last byte.
        if code == 98 && here == self.bitmap_number_bytes() && !is(M::MissingBitmapStillTakesPlace) {
            match self.bitmap_named(&bytes[1..]) {
                Err(19) if is(M::BitmapRangeWaitsForThePlace) => {}
                Err(refusal) => {
                    self.arguments = bytes[1..].to_vec();
                    return (Subject::Command(98), Err(refusal));
                }
                Ok(_) => {}
            }
        }
        if is(M::PurgeDecidedAtFirstByte) && code == 33 && here == 1 && byte != 89 {
            return (Subject::Command(33), Err(20));
        }
        if here < needs {
            self.state.gathering = Some(Gathering { bytes });
            return (Subject::Gathered, Ok(Footprint::Nothing));
        }
        self.arguments = bytes[1..].to_vec();
        (Subject::Command(code), self.obey(code, &bytes[1..]))
    }
}
