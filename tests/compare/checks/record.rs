//! The records' own rules, without the library: layout, both round trips, and what is not sound.

use compare::random;
use compare::record::*;
use reference::board::Board;
use reference::builtin::built_in_font;
use reference::edition::{EDITIONS, NEWER, OLDER};
use reference::generator::any_scene;
use reference::glass::{HEIGHTS, LOW, TALL};
use reference::prng::Prng;
use reference::queue::Queue;
use reference::state::{Bar, Gathering, Inline, Lent, Sort, State, Strip, Text, Upload};

fn start() -> [u8; STATE_BYTES] {
    encode_state(&State::at_start(LOW, OLDER))
}

/// The start's record with some bytes otherwise.
fn with(changes: &[(usize, u8)]) -> bool {
    with_choice(LOW, OLDER, changes)
}

fn with_height(height: u8, changes: &[(usize, u8)]) -> bool {
    with_choice(height, NEWER, changes)
}

fn with_choice(height: u8, edition: u8, changes: &[(usize, u8)]) -> bool {
    let mut record = encode_state(&State::at_start(height, edition));
    for &(place, value) in changes {
        record[place] = value;
    }
    decode_state(&record).is_some()
}

#[test]
fn start_record_byte_by_byte() {
    for (height, edition) in HEIGHTS.into_iter().flat_map(|height| EDITIONS.map(|edition| (height, edition))) {
        let mut expected = [0; 209];
        let text = [(26, 1), (34, 1), (35, height), (36, 1), (37, 1)];
        let others = [(38, 1), (47, height), (48, edition), (204, 128), (205, 1)];
        for (place, value) in text.into_iter().chain(others) {
            expected[place] = value;
        }
        assert_eq!(encode_state(&State::at_start(height, edition)), expected);
    }
}

/// Low byte first: 309 of three files are 53 and 1, and a full store's 768 and 32,512 are 0 3 and 0 127.
#[test]
fn used_room_in_its_place() {
    let stores: [(usize, &[u8], [u8; 2]); 4] = [
        (1024, &[], [0, 0]),
        (1024, &[1, 5, 2, 0, 4, 5, 1, 44, 1, 0, 0, 1, 7, 7, 0], [53, 1]),
        (1024, &[2, 3, 0, 3], [0, 3]),
        (32768, &[4, 3, 0, 0, 127, 0, 0], [0, 127]),
    ];
    for (bytes, directory, sum) in stores {
        let mut store = vec![0; bytes];
        store[..directory.len()].copy_from_slice(directory);
        let state = Board::fresh(&built_in_font(), LOW, OLDER, store).state;
        assert_eq!(encode_state(&state)[207..], sum);
    }
    for sum in 0..=65535u16 {
        let [low, high] = sum.to_le_bytes();
        let mut record = start();
        (record[207], record[208]) = (low, high);
        assert_eq!(decode_state(&record).map(|state| state.used), Some(sum), "any sum is sound by itself");
    }
}

#[test]
fn height_in_its_place() {
    for height in 0..=255 {
        for own in HEIGHTS {
            assert_eq!(with_height(own, &[(47, height)]), height == 64 || height == 128, "{height}");
        }
    }
    // the scroll row is free of the height
    assert!(with_height(LOW, &[(35, 128)]) && with_height(TALL, &[(35, 64)]) && with_height(TALL, &[(35, 0)]));
}

#[test]
fn edition_in_its_place() {
    for edition in 0..=255 {
        for (height, own) in [(LOW, OLDER), (LOW, NEWER), (TALL, OLDER), (TALL, NEWER)] {
            assert_eq!(with_choice(height, own, &[(48, edition)]), edition == 1 || edition == 2, "{edition}");
        }
    }
}

/// A command that waits for a byte more in the newer edition has all it needs in the older.
#[test]
fn gathering_goes_by_the_edition() {
    for (code, older, newer) in [(36, 3, 6), (94, 3, 6), (49, 1, 2), (98, 3, 4), (173, 2, 3), (103, 6, 6), (100, 4, 4)]
    {
        for got in 0..=255 {
            let of = |edition| with_choice(LOW, edition, &[(0, 2), (1, code), (2, got)]);
            assert_eq!((of(OLDER), of(NEWER)), (got < older, got < newer), "{code} with {got}");
        }
    }
}

/// What a feed may learn of a record before it knows that it is sound.
#[test]
fn lent_to_a_feed() {
    let mut record = start().to_vec();
    record[47] = TALL;
    record[36] = 2;
    assert!(matches!(lent(&record, decode_state(&record).as_mut()), Lent::Meaningless { height: TALL }));
    record[47] = 9;
    assert!(matches!(lent(&record, decode_state(&record).as_mut()), Lent::Meaningless { height: 9 }));
    for length in [206, 207, 208] {
        assert!(matches!(lent(&record[..length], decode_state(&record[..length]).as_mut()), Lent::WrongLength));
    }
    (record[47], record[36]) = (TALL, 1);
    assert!(matches!(lent(&record, decode_state(&record).as_mut()), Lent::State(State { height: TALL, .. })));
    // an unknown edition is no more than a fault of the rest
    record[48] = 3;
    assert!(matches!(lent(&record, decode_state(&record).as_mut()), Lent::Meaningless { height: TALL }));
}

#[test]
fn every_field_in_its_place() {
    let mut state = State::at_start(TALL, NEWER);
    state.text = Text {
        font: 256 * 9 + 10,
        x: 256 + 11,
        y: 12,
        left: 13,
        top: 14,
        char_space: 15,
        line_space: 16,
        scroll_row: 17,
        wrap: false,
        scroll: true,
    };
    (state.black, state.line_x, state.line_y) = (false, 18, 19);
    (state.flow, state.full, state.empty) = (true, 20, 21);
    (state.refusals, state.last_refusal) = (256 * 22 + 23, 24);
    state.bars[0] = Some(Bar { side: 2, x1: 25, y1: 26, x2: 27, y2: 28, value: 3 });
    state.bars[15] = Some(Bar { side: 3, x1: 29, y1: 30, x2: 31, y2: 32, value: 1 });
    state.strips[0] = Some(Strip { x1: 33, y1: 34, x2: 35, y2: 36 });
    state.strips[7] = Some(Strip { x1: 37, y1: 38, x2: 39, y2: 40 });
    state.serial = Some((41, 42));
    (state.contrast, state.backlight, state.minutes) = (43, false, 44);
    state.used = 256 * 45 + 46;
    let record = encode_state(&state);
    assert_eq!(record[..26], [0; 26]);
    assert_eq!(record[26..38], [10, 9, 11, 1, 12, 13, 14, 15, 16, 17, 0, 1]);
    assert_eq!(record[38..47], [0, 18, 19, 1, 20, 21, 23, 22, 24]);
    assert_eq!(record[47..49], [128, 2]);
    assert_eq!(record[49..56], [1, 2, 25, 26, 27, 28, 3]);
    assert_eq!(record[56..154], [0; 98]);
    assert_eq!(record[154..161], [1, 3, 29, 30, 31, 32, 1]);
    assert_eq!(record[161..166], [1, 33, 34, 35, 36]);
    assert_eq!(record[166..196], [0; 30]);
    assert_eq!(record[196..201], [1, 37, 38, 39, 40]);
    assert_eq!(record[201..], [1, 41, 42, 43, 0, 44, 46, 45]);
    assert_eq!(decode_state(&record), Some(state));
}

#[test]
fn every_phase_in_its_place() {
    let of = |change: &dyn Fn(&mut State)| {
        let mut state = State::at_start(LOW, OLDER);
        change(&mut state);
        let record = encode_state(&state);
        assert_eq!(decode_state(&record).as_ref(), Some(&state));
        assert_eq!(record[26..48], start()[26..48]);
        assert_eq!(record[49..], start()[49..]);
        record[..26].to_vec()
    };
    let prefix = of(&|s| s.gathering = Some(Gathering { bytes: vec![] }));
    assert_eq!(prefix, [&[1][..], &[0; 25]].concat());
    let gathering = of(&|s| s.gathering = Some(Gathering { bytes: vec![103, 5, 6, 7, 8, 9] }));
    assert_eq!(gathering, [&[2, 103, 5, 5, 6, 7, 8, 9][..], &[0; 18]].concat());
    let newer = of(&|s| (s.edition, s.gathering) = (NEWER, Some(Gathering { bytes: vec![36, 5, 6, 7, 8, 9] })));
    assert_eq!(newer, [&[2, 36, 5, 5, 6, 7, 8, 9][..], &[0; 18]].concat());
    let inline = of(&|s| s.inline = Some(Inline { x1: 1, y1: 2, x2: 255, y2: 100, come: 770 }));
    assert_eq!(inline, [&[3][..], &[0; 8], &[1, 2, 255, 100, 2, 3], &[0; 11]].concat());
    let upload = Upload { sort: Sort::Font, number: 9, size: 515, stored: 258, echoed: None, waited: 0 };
    assert_eq!(of(&|s| s.upload = Some(upload)), [&[4][..], &[0; 14], &[1, 9, 0, 3, 2, 2, 1, 0, 0, 0, 0]].concat());
    let waiting = Upload { sort: Sort::Bitmap, number: 1023, echoed: Some(77), waited: 2099, ..upload };
    assert_eq!(
        of(&|s| s.upload = Some(waiting)),
        [&[4][..], &[0; 14], &[2, 255, 3, 3, 2, 2, 1, 1, 77, 51, 8]].concat()
    );
}

/// 2,099 is 51 and 8; a sum without an upload is no sum.
#[test]
fn waited_in_its_place() {
    let of = |low, high| with(&[(0, 4), (15, 1), (16, 9), (18, 1), (24, low), (25, high)]);
    assert!(of(0, 0) && of(1, 0) && of(255, 7) && of(50, 8) && of(51, 8));
    assert!(!of(52, 8) && !of(53, 8) && !of(0, 9) && !of(51, 9) && !of(0, 255) && !of(255, 255));
    for phase in 0..4 {
        let others = [(0, phase), (1, if phase == 2 { 107 } else { 0 })];
        assert!(with(&others));
        for place in [24, 25] {
            assert!(!with(&[others[0], others[1], (place, 1)]), "phase {phase}, place {place}");
        }
    }
}

/// A record is sound with any number of an upload and any current font; whether they can be is not its business.
#[test]
fn numbers_of_two_bytes() {
    for edition in EDITIONS {
        for (low, high) in [(0, 0), (255, 0), (0, 1), (255, 3), (0, 4), (255, 255)] {
            assert!(with_choice(LOW, edition, &[(0, 4), (15, 1), (16, low), (17, high), (18, 1)]));
            assert!(with_choice(LOW, edition, &[(26, low), (27, high)]));
        }
    }
}

#[test]
fn sound_and_not_sound() {
    assert!(with(&[]));
    assert!(with(&[(0, 1)]) && !with(&[(0, 2)]) && !with(&[(0, 4)]) && !with(&[(0, 5)]) && !with(&[(0, 255)]));
    // gathering: the code must have arguments, and fewer of them have come than it needs
    assert!(with(&[(0, 2), (1, 107)]) && !with(&[(0, 2), (1, 107), (2, 1)]));
    assert!(!with(&[(0, 2), (1, 88)]) && !with(&[(0, 2), (1, 254)]) && !with(&[(0, 2), (1, 0)]));
    assert!(with(&[(0, 2), (1, 103), (2, 5), (7, 9)]) && !with(&[(0, 2), (1, 103), (2, 5), (8, 9)]));
    assert!(!with(&[(0, 2), (1, 103), (2, 6)]) && !with(&[(0, 2), (1, 103), (2, 255)]));
    assert!(with(&[(0, 2), (1, 98), (2, 2), (3, 200)]));
    // numbers of a phase that is not the present one
    for place in 1..26 {
        assert!(!with(&[(place, 1)]) && !with(&[(0, 1), (place, 1)]), "place {place}");
    }
    // in line: one pixel at the corner is one byte
    assert!(with(&[(0, 3)]) && !with(&[(0, 3), (13, 1)]) && !with(&[(0, 3), (14, 1)]));
    assert!(with(&[(0, 3), (11, 7), (12, 1), (13, 1)]) && !with(&[(0, 3), (11, 7), (12, 1), (13, 2)]));
    assert!(!with(&[(0, 3), (9, 8), (11, 7), (12, 1)]) && !with(&[(0, 3), (10, 2), (11, 7), (12, 1)]));
    assert!(!with(&[(0, 3), (11, 7), (12, 1), (15, 1)]) && !with(&[(0, 3), (11, 7), (12, 1), (1, 1)]));
    // uploads
    assert!(with(&[(0, 4), (15, 1), (18, 1)]) && with(&[(0, 4), (15, 2), (18, 1)]));
    assert!(!with(&[(0, 4), (15, 0), (18, 1)]) && !with(&[(0, 4), (15, 3), (18, 1)]));
    assert!(!with(&[(0, 4), (15, 1), (18, 1), (20, 1)]) && with(&[(0, 4), (15, 1), (19, 1), (20, 255)]));
    assert!(with(&[(0, 4), (15, 1), (18, 1), (22, 1), (23, 9)]) && !with(&[(0, 4), (15, 1), (18, 1), (23, 9)]));
    assert!(!with(&[(0, 4), (15, 1), (18, 1), (22, 2)]));
    // text and flags
    assert!(with(&[(28, 239), (29, 1)]) && !with(&[(28, 240), (29, 1)]) && !with(&[(29, 2)]));
    for place in [36, 37, 38, 41, 205] {
        assert!(with(&[(place, 0)]) && with(&[(place, 1)]) && !with(&[(place, 2)]) && !with(&[(place, 255)]));
    }
    // thresholds, flow on or off
    for on in [0, 1] {
        assert!(with(&[(41, on), (42, 40), (43, 39)]) && !with(&[(41, on), (42, 40), (43, 40)]));
        assert!(
            with(&[(41, on), (42, 79)]) && !with(&[(41, on), (43, 80)]) && !with(&[(41, on), (42, 200), (43, 100)])
        );
    }
}

/// Any byte but 0 is black to a command, but the record keeps the colour: 0 or 1, and no other byte is sound.
#[test]
fn drawing_colour_is_a_flag() {
    let font = built_in_font();
    for byte in 0..=255 {
        let mut board = Board::fresh(&font, LOW, OLDER, vec![0; 1024]);
        board.state.black = byte == 0;
        board.feed(&[254, 99, byte], 6);
        assert_eq!(encode_state(&board.state)[DRAWING], (byte != 0) as u8, "byte {byte}");
        assert_eq!(with(&[(DRAWING, byte)]), byte <= 1, "byte {byte}");
    }
}

#[test]
fn bars_strips_and_serial() {
    let places = |b: [u8; 7]| b.iter().enumerate().map(|(k, &v)| (49 + 7 * 4 + k, v)).collect::<Vec<_>>();
    let bar = |b: [u8; 7]| with(&places(b));
    let tall = |b: [u8; 7]| with_height(TALL, &places(b));
    assert!(bar([0; 7]) && bar([1, 0, 0, 0, 239, 63, 64]) && bar([1, 3, 0, 0, 239, 63, 240]));
    assert!(!bar([2, 0, 0, 0, 239, 63, 64]) && !bar([1, 4, 0, 0, 239, 63, 64]) && !bar([1, 0, 0, 0, 239, 63, 65]));
    assert!(!bar([1, 0, 0, 0, 240, 63, 0]) && !bar([1, 0, 0, 0, 239, 64, 0]));
    assert!(!bar([1, 0, 9, 0, 9, 63, 0]) && !bar([1, 0, 0, 9, 239, 9, 0]) && !bar([1, 3, 0, 0, 239, 63, 241]));
    assert!(tall([1, 0, 0, 0, 239, 127, 128]) && tall([1, 0, 0, 64, 239, 65, 2]) && tall([1, 3, 0, 63, 239, 64, 240]));
    assert!(
        !tall([1, 0, 0, 0, 239, 127, 129]) && !tall([1, 0, 0, 0, 239, 128, 0]) && !tall([1, 0, 0, 127, 239, 127, 0])
    );
    assert!(!bar([1, 0, 0, 0, 239, 127, 0]) && !bar([1, 0, 0, 64, 239, 65, 0]));
    for k in 1..7 {
        let mut off = [0; 7];
        off[k] = 1;
        assert!(!bar(off), "byte {k} of a bar that is not set up");
    }
    let places = |s: [u8; 5]| s.iter().enumerate().map(|(k, &v)| (161 + 5 * 7 + k, v)).collect::<Vec<_>>();
    let strip = |s: [u8; 5]| with(&places(s));
    let tall = |s: [u8; 5]| with_height(TALL, &places(s));
    assert!(strip([0; 5]) && strip([1, 0, 0, 239, 63]) && strip([1, 238, 62, 239, 63]));
    assert!(!strip([2, 0, 0, 239, 63]) && !strip([1, 0, 0, 240, 63]) && !strip([1, 0, 0, 239, 64]));
    assert!(!strip([1, 5, 0, 5, 9]) && !strip([1, 0, 5, 9, 5]));
    assert!(tall([1, 0, 0, 239, 127]) && tall([1, 238, 126, 239, 127]) && !tall([1, 0, 0, 239, 128]));
    assert!(!strip([1, 0, 0, 239, 127]) && !tall([1, 0, 127, 239, 127]));
    for k in 1..5 {
        let mut off = [0; 5];
        off[k] = 1;
        assert!(!strip(off), "byte {k} of a strip that is not set up");
    }
    assert!(with(&[(201, 1)]) && with(&[(201, 1), (202, 9), (203, 9)]) && !with(&[(201, 2)]));
    assert!(!with(&[(202, 9)]) && !with(&[(203, 9)]));
}

#[test]
fn lengths() {
    for length in [0, 1, 201, 202, 206, 207, 208, 210, 414, 418] {
        let mut record = start().to_vec();
        record.resize(length, 0);
        assert_eq!(decode_state(&record), None);
    }
    for length in [0, 1, 84, 86, 170] {
        assert_eq!(decode_queue(&vec![0; length]), None);
    }
}

#[test]
fn queue_record() {
    let mut record: Vec<u8> = (100..180).collect();
    record.extend([79, 80, 1, 2, 3]);
    let queue = Queue { ring: (100..180).collect(), place: 79, held: 80, mark: true, lost: 770 };
    assert_eq!(decode_queue(&record), Some(queue.clone()));
    assert_eq!(encode_queue(&queue)[..], record);
    for (place, value) in [(80, 80), (81, 81), (82, 2)] {
        let mut bad = record.clone();
        bad[place] = value;
        assert_eq!(decode_queue(&bad), None, "place {place}");
    }
}

/// What decodes is what encodes: every state has one record, and every sound record one state.
#[test]
fn round_trips() {
    let font = built_in_font();
    let mut rng = Prng::new(1);
    let mut sound = 0;
    for seed in 0..300 {
        let state = match seed % 2 {
            0 => any_scene(&font, seed).begin.state,
            _ => {
                let (height, edition) = (rng.pick(&HEIGHTS), rng.pick(&EDITIONS));
                let store = random::store(&mut rng, height);
                random::state(&mut rng, height, edition, &store)
            }
        };
        let record = encode_state(&state);
        assert_eq!(decode_state(&record), Some(state));
        for place in 0..STATE_BYTES {
            for value in [0, 1, 2, 3, 4, rng.byte(), record[place] ^ 1, record[place] ^ 128] {
                let mut other = record;
                other[place] = value;
                if let Some(state) = decode_state(&other) {
                    assert_eq!(encode_state(&state), other, "place {place}");
                    sound += 1;
                }
            }
        }
    }
    assert!(sound > 100_000, "only {sound} sound records were met");
}
