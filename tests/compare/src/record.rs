//! The two records as bytes. A record is sound exactly when it is the encoding of a sound state or queue.

use reference::queue::{Queue, RING};
use reference::state::{Bar, Gathering, Inline, Lent, Sort, State, Strip, Text, Upload};

pub const STATE_BYTES: usize = 209;
pub const QUEUE_BYTES: usize = 85;

pub const PHASE: usize = 0;
pub const CODE: usize = 1;
pub const GOT: usize = 2;
pub const ARGUMENTS: usize = 3;
pub const INLINE: usize = 9;
pub const UPLOAD: usize = 15;
/// Its sum of milliseconds, low byte first.
pub const WAITED: usize = 24;
pub const TEXT: usize = 26;
pub const DRAWING: usize = 38;
pub const FLOW: usize = 41;
pub const REFUSALS: usize = 44;
pub const HEIGHT: usize = 47;
pub const EDITION: usize = 48;
pub const BARS: usize = 49;
pub const STRIPS: usize = 161;
pub const SERIAL: usize = 201;
pub const CONTRAST: usize = 204;
pub const BACKLIGHT: usize = 205;
pub const MINUTES: usize = 206;
/// The sum of the files' sizes, low byte first.
pub const USED: usize = 207;

pub const PLACE: usize = 80;
pub const HELD: usize = 81;
pub const MARK: usize = 82;
pub const LOST: usize = 83;

fn split(number: u16) -> [u8; 2] {
    number.to_le_bytes()
}

fn join(low: u8, high: u8) -> u16 {
    u16::from_le_bytes([low, high])
}

/// Places that no field names stay 0.
pub fn encode_state(state: &State) -> [u8; STATE_BYTES] {
    let mut r = [0; STATE_BYTES];
    encode_phase(state, &mut r);
    let text = &state.text;
    let ([font_low, font_high], [x_low, x_high]) = (split(text.font), split(text.x));
    r[TEXT..DRAWING].copy_from_slice(&[
        font_low,
        font_high,
        x_low,
        x_high,
        u8::try_from(text.y).expect("a text row of one byte"),
        text.left,
        text.top,
        text.char_space,
        text.line_space,
        text.scroll_row,
        text.wrap as u8,
        text.scroll as u8,
    ]);
    r[DRAWING..FLOW].copy_from_slice(&[state.black as u8, state.line_x, state.line_y]);
    r[FLOW..REFUSALS].copy_from_slice(&[state.flow as u8, state.full, state.empty]);
    r[REFUSALS..REFUSALS + 2].copy_from_slice(&split(state.refusals));
    r[REFUSALS + 2] = state.last_refusal;
    r[HEIGHT] = state.height;
    r[EDITION] = state.edition;
    for (bar, bytes) in state.bars.iter().zip(r[BARS..STRIPS].chunks_mut(7)) {
        if let Some(b) = bar {
            bytes.copy_from_slice(&[1, b.side, b.x1, b.y1, b.x2, b.y2, b.value]);
        }
    }
    for (strip, bytes) in state.strips.iter().zip(r[STRIPS..SERIAL].chunks_mut(5)) {
        if let Some(s) = strip {
            bytes.copy_from_slice(&[1, s.x1, s.y1, s.x2, s.y2]);
        }
    }
    if let Some((a, b)) = state.serial {
        r[SERIAL..CONTRAST].copy_from_slice(&[1, a, b]);
    }
    r[CONTRAST] = state.contrast;
    r[BACKLIGHT] = state.backlight as u8;
    r[MINUTES] = state.minutes;
    r[USED..].copy_from_slice(&split(state.used));
    r
}

fn encode_phase(state: &State, r: &mut [u8; STATE_BYTES]) {
    if let Some(gathering) = &state.gathering {
        r[PHASE] = 1;
        if let Some((&code, arguments)) = gathering.bytes.split_first() {
            r[PHASE] = 2;
            r[CODE] = code;
            r[GOT] = arguments.len() as u8;
            r[ARGUMENTS..ARGUMENTS + arguments.len()].copy_from_slice(arguments);
        }
    }
    if let Some(i) = &state.inline {
        r[PHASE] = 3;
        let [low, high] = split(i.come as u16);
        r[INLINE..UPLOAD].copy_from_slice(&[i.x1, i.y1, i.x2, i.y2, low, high]);
    }
    if let Some(u) = &state.upload {
        r[PHASE] = 4;
        r[UPLOAD] = match u.sort {
            Sort::Font => 1,
            Sort::Bitmap => 2,
        };
        let words = [u.number, u.size, u.stored].map(split);
        r[UPLOAD + 1..UPLOAD + 7].copy_from_slice(words.as_flattened());
        (r[UPLOAD + 7], r[UPLOAD + 8]) = (u.echoed.is_some() as u8, u.echoed.unwrap_or(0));
        r[WAITED..TEXT].copy_from_slice(&split(u.waited));
    }
}

fn flag(byte: u8) -> Option<bool> {
    match byte {
        0 => Some(false),
        1 => Some(true),
        _ => None,
    }
}

/// `Some` where all the bytes are 0.
fn unused(bytes: &[u8]) -> Option<()> {
    bytes.iter().all(|&byte| byte == 0).then_some(())
}

/// A record as a feed is lent it; `state` is what it decodes to.
pub fn lent<'a>(record: &[u8], state: Option<&'a mut State>) -> Lent<'a> {
    match state {
        Some(state) => Lent::State(state),
        None if record.len() == STATE_BYTES => Lent::Meaningless { height: record[HEIGHT] },
        None => Lent::WrongLength,
    }
}

/// `None` for a record that is not sound, thresholds included; any sum of sizes is, without a directory beside it.
pub fn decode_state(record: &[u8]) -> Option<State> {
    let r: &[u8; STATE_BYTES] = record.try_into().ok()?;
    let mut bars = [None; 16];
    for (bar, b) in bars.iter_mut().zip(r[BARS..STRIPS].chunks(7)) {
        if flag(b[0])? {
            *bar = Some(Bar { side: b[1], x1: b[2], y1: b[3], x2: b[4], y2: b[5], value: b[6] });
        } else {
            unused(b)?;
        }
    }
    let mut strips = [None; 8];
    for (strip, s) in strips.iter_mut().zip(r[STRIPS..SERIAL].chunks(5)) {
        if flag(s[0])? {
            *strip = Some(Strip { x1: s[1], y1: s[2], x2: s[3], y2: s[4] });
        } else {
            unused(s)?;
        }
    }
    let serial = if flag(r[SERIAL])? {
        Some((r[SERIAL + 1], r[SERIAL + 2]))
    } else {
        unused(&r[SERIAL..CONTRAST])?;
        None
    };
    let state = State {
        height: r[HEIGHT],
        edition: r[EDITION],
        gathering: decode_gathering(r)?,
        inline: decode_inline(r)?,
        upload: decode_upload(r)?,
        text: decode_text(&r[TEXT..DRAWING])?,
        black: flag(r[DRAWING])?,
        line_x: r[DRAWING + 1],
        line_y: r[DRAWING + 2],
        bars,
        strips,
        serial,
        contrast: r[CONTRAST],
        backlight: flag(r[BACKLIGHT])?,
        minutes: r[MINUTES],
        flow: flag(r[FLOW])?,
        full: r[FLOW + 1],
        empty: r[FLOW + 2],
        refusals: join(r[REFUSALS], r[REFUSALS + 1]),
        last_refusal: r[REFUSALS + 2],
        used: join(r[USED], r[USED + 1]),
    };
    (r[PHASE] <= 4 && state.sound() && state.thresholds_fit()).then_some(state)
}

fn decode_text(t: &[u8]) -> Option<Text> {
    Some(Text {
        font: join(t[0], t[1]),
        x: join(t[2], t[3]),
        y: t[4] as u16,
        left: t[5],
        top: t[6],
        char_space: t[7],
        line_space: t[8],
        scroll_row: t[9],
        wrap: flag(t[10])?,
        scroll: flag(t[11])?,
    })
}

/// The outer `None` is a fault, the inner one another phase.
fn decode_gathering(r: &[u8; STATE_BYTES]) -> Option<Option<Gathering>> {
    if r[PHASE] != 2 {
        unused(&r[CODE..INLINE])?;
        return Some((r[PHASE] == 1).then(|| Gathering { bytes: Vec::new() }));
    }
    let arguments = &r[ARGUMENTS..INLINE];
    let got = r[GOT] as usize;
    if got > arguments.len() {
        return None;
    }
    unused(&arguments[got..])?;
    let mut bytes = vec![r[CODE]];
    bytes.extend(&arguments[..got]);
    Some(Some(Gathering { bytes }))
}

fn decode_inline(r: &[u8; STATE_BYTES]) -> Option<Option<Inline>> {
    let i = &r[INLINE..UPLOAD];
    if r[PHASE] != 3 {
        unused(i)?;
        return Some(None);
    }
    Some(Some(Inline { x1: i[0], y1: i[1], x2: i[2], y2: i[3], come: join(i[4], i[5]) as usize }))
}

fn decode_upload(r: &[u8; STATE_BYTES]) -> Option<Option<Upload>> {
    let u = &r[UPLOAD..TEXT];
    if r[PHASE] != 4 {
        unused(u)?;
        return Some(None);
    }
    let sort = match u[0] {
        1 => Sort::Font,
        2 => Sort::Bitmap,
        _ => return None,
    };
    let echoed = if flag(u[7])? {
        Some(u[8])
    } else {
        unused(&u[8..9])?;
        None
    };
    let (number, size, stored) = (join(u[1], u[2]), join(u[3], u[4]), join(u[5], u[6]));
    Some(Some(Upload { sort, number, size, stored, echoed, waited: join(u[9], u[10]) }))
}

pub fn encode_queue(queue: &Queue) -> [u8; QUEUE_BYTES] {
    let mut r = [0; QUEUE_BYTES];
    r[..RING].copy_from_slice(&queue.ring);
    let [low, high] = split(queue.lost);
    r[RING..].copy_from_slice(&[queue.place as u8, queue.held as u8, queue.mark as u8, low, high]);
    r
}

/// Any ring bytes are sound, held or not.
pub fn decode_queue(record: &[u8]) -> Option<Queue> {
    let r: &[u8; QUEUE_BYTES] = record.try_into().ok()?;
    let queue = Queue {
        ring: r[..RING].to_vec(),
        place: r[PLACE] as usize,
        held: r[HELD] as usize,
        mark: flag(r[MARK])?,
        lost: join(r[LOST], r[LOST + 1]),
    };
    queue.sound().then_some(queue)
}

/// What a place of the state record holds, for a report.
pub fn state_place(place: usize) -> String {
    let field = |names: &[&str], from: usize| names[place - from].to_string();
    match place {
        PHASE => "phase".into(),
        CODE => "code".into(),
        GOT => "got".into(),
        ARGUMENTS..INLINE => format!("argument {}", place - ARGUMENTS),
        INLINE..UPLOAD => format!("in line {}", field(&["x1", "y1", "x2", "y2", "done low", "done high"], INLINE)),
        UPLOAD..TEXT => {
            #[rustfmt::skip]
            let names = [
                "sort", "number low", "number high", "size low", "size high", "stored low", "stored high", "waiting",
                "byte", "waited low", "waited high",
            ];
            format!("upload {}", field(&names, UPLOAD))
        }
        TEXT..DRAWING => {
            #[rustfmt::skip]
            let names = [
                "font low", "font high", "x low", "x high", "y", "left", "top", "char space", "line space", "scroll row", "wrap", "scroll",
            ];
            format!("text {}", field(&names, TEXT))
        }
        DRAWING..FLOW => field(&["black", "line x", "line y"], DRAWING),
        FLOW..REFUSALS => field(&["flow on", "flow full", "flow empty"], FLOW),
        REFUSALS..HEIGHT => field(&["refusals low", "refusals high", "last refusal"], REFUSALS),
        HEIGHT => "height".into(),
        EDITION => "edition".into(),
        BARS..STRIPS => {
            let names = ["on", "kind", "x1", "y1", "x2", "y2", "value"];
            format!("bar {} {}", (place - BARS) / 7, names[(place - BARS) % 7])
        }
        STRIPS..SERIAL => {
            format!("strip {} {}", (place - STRIPS) / 5, ["on", "x1", "y1", "x2", "y2"][(place - STRIPS) % 5])
        }
        SERIAL..CONTRAST => format!("serial {}", field(&["on", "a", "b"], SERIAL)),
        CONTRAST => "contrast".into(),
        BACKLIGHT => "backlight".into(),
        MINUTES => "minutes".into(),
        USED..STATE_BYTES => field(&["used low", "used high"], USED),
        _ => "beyond the record".into(),
    }
}
