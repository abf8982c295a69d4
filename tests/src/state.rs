//! The state record as plain fields, and when it is sound.

use crate::commands::arguments;
use crate::edition::{EDITIONS, NEWER};
use crate::glass::{on_glass, HEIGHTS};
use crate::mutants::{is, Mutant as M};
use crate::used::beyond_every_area;

/// What a file is, in whichever of the directory's kinds it is held.
#[derive(Clone, Copy, Debug, PartialEq, Eq)]
pub enum Sort {
    Font,
    Bitmap,
}

/// Bytes gathered after 254: the code, then its arguments so far.
#[derive(Clone, Debug, PartialEq, Eq)]
pub struct Gathering {
    pub bytes: Vec<u8>,
}

/// In-line data under way: its corners and how many bytes have come.
#[derive(Clone, Copy, Debug, PartialEq, Eq)]
pub struct Inline {
    pub x1: u8,
    pub y1: u8,
    pub x2: u8,
    pub y2: u8,
    pub come: usize,
}

impl Inline {
    pub fn bytes_per_row(&self) -> usize {
        (self.x2 as usize - self.x1 as usize + 8) / 8
    }

    pub fn total(&self) -> usize {
        self.bytes_per_row() * (self.y2 as usize - self.y1 as usize + 1)
    }
}

/// An upload that has waited so many milliseconds is dropped.
pub const WAIT_ENDS: u32 = 2100;

/// An upload under way; `echoed` waits for the host's 1. Its size fits two bytes, since it fits the store.
#[derive(Clone, Copy, Debug, PartialEq, Eq)]
pub struct Upload {
    pub sort: Sort,
    pub number: u16,
    pub size: u16,
    pub stored: u16,
    pub echoed: Option<u8>,
    /// Milliseconds since its start or its last byte.
    pub waited: u16,
}

impl Upload {
    /// One that is just beginning.
    pub fn new(sort: Sort, number: u16, size: u16) -> Upload {
        Upload { sort, number, size, stored: 0, echoed: None, waited: 0 }
    }
}

#[derive(Clone, Debug, PartialEq, Eq)]
pub struct Text {
    pub font: u16,
    pub left: u8,
    pub top: u8,
    pub char_space: u8,
    pub line_space: u8,
    pub scroll_row: u8,
    pub wrap: bool,
    pub scroll: bool,
    pub x: u16,
    pub y: u16,
}

impl Text {
    /// The start's scroll row is the glass's height.
    pub fn at_start(height: u8) -> Text {
        Text {
            font: 1,
            left: 0,
            top: 0,
            char_space: 0,
            line_space: 1,
            scroll_row: height,
            wrap: true,
            scroll: true,
            x: 0,
            y: 0,
        }
    }
}

#[derive(Clone, Copy, Debug, PartialEq, Eq)]
pub struct Bar {
    pub side: u8,
    pub x1: u8,
    pub y1: u8,
    pub x2: u8,
    pub y2: u8,
    pub value: u8,
}

#[derive(Clone, Copy, Debug, PartialEq, Eq)]
pub struct Strip {
    pub x1: u8,
    pub y1: u8,
    pub x2: u8,
    pub y2: u8,
}

#[derive(Clone, Debug, PartialEq, Eq)]
pub struct State {
    /// The glass's rows: 64 or 128, chosen at start.
    pub height: u8,
    /// The upload's edition: 1 older or 2 newer, chosen at start.
    pub edition: u8,
    pub gathering: Option<Gathering>,
    pub inline: Option<Inline>,
    pub upload: Option<Upload>,
    pub text: Text,
    pub black: bool,
    pub line_x: u8,
    pub line_y: u8,
    pub bars: [Option<Bar>; 16],
    pub strips: [Option<Strip>; 8],
    pub serial: Option<(u8, u8)>,
    pub contrast: u8,
    pub backlight: bool,
    pub minutes: u8,
    pub flow: bool,
    pub full: u8,
    pub empty: u8,
    pub refusals: u16,
    pub last_refusal: u8,
    /// The sum of the files' sizes; only a piece and a time call have the directory to hold it against.
    pub used: u16,
}

impl State {
    /// On an empty store.
    pub fn at_start(height: u8, edition: u8) -> State {
        State {
            height,
            edition,
            gathering: None,
            inline: None,
            upload: None,
            text: Text::at_start(height),
            black: true,
            line_x: 0,
            line_y: 0,
            bars: [None; 16],
            strips: [None; 8],
            serial: None,
            contrast: 128,
            backlight: true,
            minutes: 0,
            flow: false,
            full: 0,
            empty: 0,
            refusals: 0,
            last_refusal: 0,
            used: 0,
        }
    }

    pub fn sound(&self) -> bool {
        self.height_known() && self.sound_but_for_height()
    }

    pub fn height_known(&self) -> bool {
        HEIGHTS.contains(&self.height)
    }

    pub fn edition_known(&self) -> bool {
        let any = is(M::RecordEditionUnchecked) || is(M::RecordEditionZeroIsOlder) && self.edition == 0;
        EDITIONS.contains(&self.edition) || any
    }

    /// Everything but whether there is a glass of this height.
    pub fn sound_but_for_height(&self) -> bool {
        self.edition_known() && self.sound_but_for_choices()
    }

    /// Everything but the two things that start chooses.
    pub fn sound_but_for_choices(&self) -> bool {
        let height = if is(M::BarSoundToRow63) {
            64
        } else if is(M::BarSoundToRow127) {
            128
        } else {
            self.height
        };
        self.text.x <= if is(M::TextPointSoundTo494) { 494 } else { 495 }
            && self.text.y <= 255
            && self.bars.iter().flatten().all(|bar| bar.sound(height))
            && self.strips.iter().flatten().all(|strip| strip.sound(self.height))
            && self.gathering.as_ref().is_none_or(|gathering| gathering.sound(self.edition))
            && self.inline.as_ref().is_none_or(Inline::sound)
            && self.upload.as_ref().is_none_or(Upload::sound)
            && self.under_way() <= 1
            && !(is(M::UsedAboveEveryAreaIsUnsound) && beyond_every_area(self))
    }

    fn under_way(&self) -> usize {
        self.gathering.is_some() as usize + self.inline.is_some() as usize + self.upload.is_some() as usize
    }

    /// Answer 3 also looks at the thresholds, whether flow is on or off.
    pub fn thresholds_fit(&self) -> bool {
        (self.full as usize) + (self.empty as usize) < 80
    }
}

impl Gathering {
    /// How many bytes a command needs goes by the edition.
    fn sound(&self, edition: u8) -> bool {
        let edition = if is(M::GatheringSoundByTheNewer) { NEWER } else { edition };
        match self.bytes.first() {
            None => true,
            Some(&code) => arguments(code, edition).is_some_and(|needs| self.bytes.len() < 1 + needs),
        }
    }
}

impl Upload {
    fn sound(&self) -> bool {
        let ends = if is(M::WaitSoundTo2100) {
            WAIT_ENDS + 1
        } else if is(M::WaitSoundTo2098) {
            WAIT_ENDS - 1
        } else {
            WAIT_ENDS
        };
        self.stored < self.size && ((self.waited as u32) < ends || is(M::WaitUncheckedInRecord))
    }
}

impl Inline {
    fn sound(&self) -> bool {
        self.x1 <= self.x2 && self.y1 <= self.y2 && self.come < self.total()
    }
}

impl Bar {
    fn sound(&self, height: u8) -> bool {
        self.side <= 3
            && strictly_placed(height, self.x1, self.y1, self.x2, self.y2)
            && self.value as usize <= self.length()
    }
}

impl Strip {
    fn sound(&self, height: u8) -> bool {
        let height = if is(M::StripSoundToRow63) {
            64
        } else if is(M::StripSoundToRow127) {
            128
        } else {
            height
        };
        strictly_placed(height, self.x1, self.y1, self.x2, self.y2)
    }
}

fn strictly_placed(height: u8, x1: u8, y1: u8, x2: u8, y2: u8) -> bool {
    on_glass(height, x1, y1) && on_glass(height, x2, y2) && x1 < x2 && y1 < y2
}

/// A state record as it is lent to a feed.
#[derive(Debug)]
pub enum Lent<'a> {
    WrongLength,
    /// The right length, but bytes that stand for no state; only its height is read.
    Meaningless {
        height: u8,
    },
    State(&'a mut State),
}

impl Lent<'_> {
    /// `None` for a record of the wrong length, or with a height that no glass has.
    pub fn known_height(&self) -> Option<u8> {
        let height = match self {
            Lent::WrongLength => return None,
            Lent::Meaningless { height } => *height,
            Lent::State(state) => state.height,
        };
        HEIGHTS.contains(&height).then_some(height)
    }
}
