//! Which records and directories are sound, edge by edge.

use crate::board::Board;
use crate::builtin::built_in_font;
use crate::edition::OLDER;
use crate::files::Files;
use crate::glass::{LOW, TALL};
use crate::queue::Queue;
use crate::state::{Bar, Gathering, Inline, Sort, State, Strip, Upload};

fn with(change: impl FnOnce(&mut State)) -> bool {
    with_height(LOW, change)
}

fn with_height(height: u8, change: impl FnOnce(&mut State)) -> bool {
    let mut state = State::at_start(height, OLDER);
    change(&mut state);
    state.sound()
}

fn directory(records: &[[u8; 4]]) -> Vec<u8> {
    let mut store = vec![0; 1024];
    for (k, record) in records.iter().enumerate() {
        store[4 * k..4 * k + 4].copy_from_slice(record);
    }
    store
}

checks! {
    fn text_point() {
        assert!(with(|s| (s.text.x, s.text.y) = (495, 255)));
        assert!(!with(|s| s.text.x = 496));
        assert!(!with(|s| s.text.y = 256));
    }

    fn bars() {
        let bar = Bar { side: 0, x1: 0, y1: 0, x2: 239, y2: 63, value: 64 };
        assert!(with(|s| s.bars[15] = Some(bar)));
        assert!(!with(|s| s.bars[15] = Some(Bar { value: 65, ..bar })));
        assert!(with(|s| s.bars[0] = Some(Bar { side: 3, value: 240, ..bar })));
        assert!(!with(|s| s.bars[0] = Some(Bar { side: 3, value: 241, ..bar })));
        assert!(!with(|s| s.bars[0] = Some(Bar { side: 4, ..bar })));
        assert!(!with(|s| s.bars[0] = Some(Bar { x2: 240, ..bar })));
        assert!(!with(|s| s.bars[0] = Some(Bar { y2: 64, ..bar })));
        assert!(!with(|s| s.bars[0] = Some(Bar { x1: 239, ..bar })));
        assert!(!with(|s| s.bars[0] = Some(Bar { y1: 63, ..bar })));
        assert!(with(|s| s.bars[0] = Some(Bar { x1: 238, y1: 62, value: 2, ..bar })));
    }

    /// A value above the length is kept as the length, so the record stays sound.
    fn held_value_in_the_record() {
        let mut board = Board::fresh(&built_in_font(), LOW, OLDER, vec![0; 1024]);
        board.feed(&[254, 103, 0, 1, 0, 0, 9, 1, 254, 105, 0, 255], 99);
        assert_eq!(board.state.bars[0], Some(Bar { side: 1, x1: 0, y1: 0, x2: 9, y2: 1, value: 10 }));
        assert_eq!(board.feed(&[254, 105, 0, 10], 99).answer, 0);
    }

    fn strips() {
        let strip = Strip { x1: 0, y1: 0, x2: 239, y2: 63 };
        assert!(with(|s| s.strips[7] = Some(strip)));
        assert!(!with(|s| s.strips[7] = Some(Strip { x2: 240, ..strip })));
        assert!(!with(|s| s.strips[7] = Some(Strip { y2: 64, ..strip })));
        assert!(!with(|s| s.strips[7] = Some(Strip { x1: 239, ..strip })));
        assert!(!with(|s| s.strips[7] = Some(Strip { y1: 63, ..strip })));
    }

    fn heights() {
        for height in 0..=255 {
            assert_eq!(with_height(height, |_| {}), height == 64 || height == 128, "{height}");
        }
    }

    fn bars_and_strips_of_the_tall_glass() {
        let bar = Bar { side: 0, x1: 0, y1: 0, x2: 239, y2: 127, value: 128 };
        assert!(with_height(TALL, |s| s.bars[15] = Some(bar)));
        assert!(!with_height(LOW, |s| s.bars[15] = Some(bar)));
        assert!(!with_height(TALL, |s| s.bars[15] = Some(Bar { value: 129, ..bar })));
        assert!(!with_height(TALL, |s| s.bars[0] = Some(Bar { y2: 128, ..bar })));
        assert!(!with_height(TALL, |s| s.bars[0] = Some(Bar { y1: 127, value: 0, ..bar })));
        assert!(with_height(TALL, |s| s.bars[0] = Some(Bar { y1: 64, y2: 65, value: 2, ..bar })));
        let strip = Strip { x1: 0, y1: 126, x2: 239, y2: 127 };
        assert!(with_height(TALL, |s| s.strips[7] = Some(strip)));
        assert!(!with_height(LOW, |s| s.strips[7] = Some(strip)));
        assert!(!with_height(TALL, |s| s.strips[7] = Some(Strip { y2: 128, ..strip })));
        assert!(!with_height(TALL, |s| s.strips[7] = Some(Strip { y1: 127, ..strip })));
        assert!(with_height(TALL, |s| (s.text.x, s.text.y) = (495, 255)));
    }

    fn gathering() {
        let of = |bytes: &[u8]| with(|s| s.gathering = Some(Gathering { bytes: bytes.to_vec() }));
        assert!(of(&[]));
        assert!(of(&[103]));
        assert!(of(&[103, 0, 0, 0, 0, 0]));
        assert!(!of(&[103, 0, 0, 0, 0, 0, 0]));
        assert!(!of(&[88]));
        assert!(!of(&[1]));
        assert!(!of(&[254]));
        assert!(of(&[98, 9]));
        assert!(of(&[107]));
        assert!(!of(&[107, 0]));
    }

    fn data_in_line() {
        let inline = Inline { x1: 5, y1: 5, x2: 13, y2: 6, come: 3 };
        assert!(with(|s| s.inline = Some(inline)));
        assert!(!with(|s| s.inline = Some(Inline { come: 4, ..inline })));
        assert!(!with(|s| s.inline = Some(Inline { x1: 14, come: 0, ..inline })));
        assert!(!with(|s| s.inline = Some(Inline { y1: 7, come: 0, ..inline })));
        assert!(with(|s| s.inline = Some(Inline { x1: 0, y1: 0, x2: 255, y2: 255, come: 8191 })));
        assert!(!with(|s| s.inline = Some(Inline { x1: 0, y1: 0, x2: 255, y2: 255, come: 8192 })));
    }

    fn upload() {
        let upload = Upload { sort: Sort::Font, number: 1, size: 3, stored: 2, echoed: None, waited: 0 };
        assert!(with(|s| s.upload = Some(upload)));
        assert!(!with(|s| s.upload = Some(Upload { stored: 3, ..upload })));
        assert!(!with(|s| s.upload = Some(Upload { size: 0, stored: 0, ..upload })));
    }

    fn one_of_three_at_most() {
        let gathering = Gathering { bytes: vec![] };
        let inline = Inline { x1: 5, y1: 5, x2: 5, y2: 5, come: 0 };
        let upload = Upload { sort: Sort::Font, number: 2, size: 3, stored: 2, echoed: Some(1), waited: 0 };
        assert!(!with(|s| (s.gathering, s.inline) = (Some(gathering.clone()), Some(inline))));
        assert!(!with(|s| (s.gathering, s.upload) = (Some(gathering.clone()), Some(upload))));
        assert!(!with(|s| (s.inline, s.upload) = (Some(inline), Some(upload))));
    }

    fn queue_record() {
        let queue = Queue::at_start();
        assert!(Queue { place: 79, held: 80, ..queue.clone() }.sound());
        assert!(!Queue { place: 80, ..queue.clone() }.sound());
        assert!(!Queue { held: 81, ..queue }.sound());
    }

    fn directories() {
        let good = |records: &[[u8; 4]]| Files::read(&directory(records)).is_some();
        assert!(good(&[]));
        assert!(good(&[[1, 0, 1, 0], [2, 0, 1, 0], [2, 1, 1, 0]]));
        assert!(!good(&[[5, 0, 1, 0]]), "kind");
        assert!(!good(&[[1, 0, 0, 0]]), "size 0");
        assert!(!good(&[[1, 1, 1, 0]]), "font 1");
        assert!(!good(&[[2, 7, 1, 0], [1, 7, 1, 0], [2, 7, 1, 0]]), "twice");
        assert!(good(&[[1, 2, 255, 2], [2, 2, 1, 0]]), "767 and 1 fill the area");
        assert!(!good(&[[1, 2, 255, 2], [2, 2, 2, 0]]), "one too many");
        assert!(!good(&[[1, 2, 1, 0], [0, 0, 0, 0], [1, 3, 1, 0]]), "a record after the end");
        let mut store = directory(&[[1, 2, 1, 0]]);
        store[255] = 1;
        assert!(Files::read(&store).is_none(), "the last byte");
        store[255] = 0;
        store[6] = 1;
        assert!(Files::read(&store).is_none(), "a byte after the end");
        store[6] = 0;
        store[256] = 1;
        assert!(Files::read(&store).is_some(), "the file area is free of rules");
    }

    fn number_of_records() {
        let records = |n: u8| (0..n).map(|k| [2, k, 1, 0]).collect::<Vec<_>>();
        assert!(Files::read(&directory(&records(63))).is_some());
        assert!(Files::read(&directory(&records(64))).is_none());
    }
}
