//! Calls on copies with bad memory, one to three things wrong at once: the first answer in order, and nothing changed.

use crate::board::Board;
use crate::book_used::sizes;
use crate::calls_used::WRONG;
use crate::checks_start::{UNKNOWN, UNKNOWN_EDITIONS};
use crate::coverage::Coverage;
use crate::directory::DIRECTORY;
use crate::edition::{EDITIONS, OLDER};
use crate::feed::{feed, time, Fed};
use crate::files::Files;
use crate::glass::{glass_bytes, Glass, HEIGHTS, LOW, TALL};
use crate::prng::Prng;
use crate::queue::{arrive, take};
use crate::start::{start, Choice};
use crate::state::{Lent, Sort, State, Upload};

#[derive(Clone, Copy, Debug, PartialEq, Eq)]
pub enum Fault {
    Length,
    QueueLength,
    Height,
    Glass,
    OtherGlass,
    Store,
    Unsound,
    Thresholds,
    Meaningless,
    Edition,
    Waited,
    Directory,
    Upload,
    UploadNumber,
    Used,
}

use Fault as F;

#[rustfmt::skip]
const FAULTS: [Fault; 15] = [
    F::Length, F::QueueLength, F::Height, F::Glass, F::OtherGlass, F::Store, F::Unsound, F::Thresholds, F::Meaningless,
    F::Edition, F::Waited, F::Directory, F::Upload, F::UploadNumber, F::Used,
];

/// What is wrong, and the memory that it is wrong with.
struct Bad {
    faults: Vec<Fault>,
    board: Board,
    /// The height whose glass it is lent with, if any.
    glass: Option<u8>,
}

pub fn refused_calls(board: &Board, piece: &[u8], rng: &mut Prng, coverage: &mut Coverage) -> Result<(), String> {
    // numbers of its own: those of neighbouring seeds overlap
    let mut rng = Prng::new(rng.next());
    let bad = Bad::new(board, &mut rng);
    bad.count(coverage);
    bad.feed(piece, coverage)?;
    bad.time(&mut rng, coverage)?;
    bad.queue_calls(coverage)?;
    bad.start(&mut rng, coverage)
}

impl Bad {
    fn new(board: &Board, rng: &mut Prng) -> Bad {
        let mut faults = Vec::new();
        for _ in 0..rng.pick(&[1, 2, 2, 3]) {
            let fault = rng.pick(&FAULTS);
            // a glass is bad in one way only
            let of_the_glass = |fault: &Fault| [F::Glass, F::OtherGlass].contains(fault);
            let glass_twice = of_the_glass(&fault) && faults.iter().any(of_the_glass);
            if !faults.contains(&fault) && !glass_twice {
                faults.push(fault);
            }
        }
        // the directory is spoilt before its store is cut
        faults.sort_by_key(|&fault| (fault == F::Store, fault as usize));
        let mut bad = Bad { faults: faults.clone(), board: board.clone(), glass: Some(board.state.height) };
        faults.iter().for_each(|&fault| bad.spoil(fault, rng));
        bad.faults.sort_by_key(|&fault| fault as usize);
        bad
    }

    fn spoil(&mut self, fault: Fault, rng: &mut Prng) {
        let bad = &mut self.board;
        let own = self.glass.unwrap_or(LOW);
        match fault {
            F::Length | F::QueueLength | F::Meaningless => {}
            F::Height => {
                let others = [0, 1, 63, 65, 127, 129, 192, 255, rng.below(64) as u8];
                bad.state.height = rng.pick(&others);
            }
            F::Glass => {
                let right = glass_bytes(own);
                let bytes = rng.pick(&[0, right - 30, right - 1, right + 1, right + 30, 2880, 7680]);
                bad.glass = Glass::from_bytes(&vec![3; bytes]);
                self.glass = None;
            }
            F::OtherGlass => {
                let other = if own == LOW { TALL } else { LOW };
                bad.glass = Glass::from_bytes(&vec![3; glass_bytes(other)]);
                self.glass = Some(other);
            }
            F::Store => bad.store.resize(rng.pick(&[0, 100, 1023, 32769, 40000]), 0),
            F::Unsound => bad.state.text.x = 496,
            F::Thresholds => (bad.state.full, bad.state.empty) = (rng.pick(&[40, 80, 255]), rng.pick(&[40, 80])),
            F::Edition => bad.state.edition = rng.pick(&[0, 3, 4, 128, 255]),
            F::Waited => self.upload().waited = rng.pick(&[2100, 2101, 65535]),
            F::Directory => {
                // the last byte, or one where the next record would begin
                let end = Files::read(&bad.store).expect("a good directory").record_bytes();
                bad.store[rng.pick(&[end, 255])] = 7;
            }
            F::Upload => {
                let unused = Files::read(&bad.store).map_or(40000, |files| files.unused() as u16);
                let (number, size) = rng.pick(&[(1, 5), (20, 40000), (20, unused.max(2) + 1)]);
                *self.upload() =
                    Upload { stored: 2, waited: self.upload().waited, ..Upload::new(Sort::Font, number, size) };
            }
            F::UploadNumber => {
                let number = rng.pick(&[1024, 1025, 65535]);
                let older = self.board.state.edition == OLDER;
                self.upload().number = if older && rng.percent(50) { rng.pick(&[256, 257, 1023]) } else { number };
            }
            F::Used => {
                // an empty store has no lower sum
                let wrong = rng.pick(&WRONG).instead_of(bad.state.used, rng);
                bad.state.used = wrong.unwrap_or(1);
            }
        }
    }

    /// The upload under way, one that is just beginning if there was none.
    fn upload(&mut self) -> &mut Upload {
        let state = &mut self.board.state;
        (state.gathering, state.inline) = (None, None);
        state.upload.get_or_insert(Upload::new(Sort::Bitmap, 20, 9))
    }

    fn any(&self, faults: &[Fault]) -> bool {
        self.faults.iter().any(|fault| faults.contains(fault))
    }

    fn count(&self, coverage: &mut Coverage) {
        for (k, one) in self.faults.iter().enumerate() {
            coverage.note(fault_name(*one));
            self.faults[k + 1..].iter().for_each(|other| coverage.note(pair_name(*one, *other)));
        }
    }

    /// Of a piece and of a time call; 0 where only the queue record is bad, which is not lent.
    fn panel_answer(&self) -> u8 {
        if self.any(&[F::Length, F::Height]) {
            3
        } else if self.any(&[F::Glass, F::OtherGlass]) {
            1
        } else if self.any(&[F::Store]) {
            2
        } else if self.any(&[F::Unsound, F::Thresholds, F::Meaningless, F::Edition, F::Waited]) {
            3
        } else if self.any(&[F::Directory, F::Upload, F::UploadNumber]) {
            4
        } else if self.any(&[F::Used]) {
            3
        } else {
            0
        }
    }

    fn lend<'a>(&self, state: &'a mut State) -> Lent<'a> {
        if self.any(&[F::Length]) {
            Lent::WrongLength
        } else if self.any(&[F::Meaningless]) {
            Lent::Meaningless { height: state.height }
        } else {
            Lent::State(state)
        }
    }

    fn feed(&self, piece: &[u8], coverage: &mut Coverage) -> Result<(), String> {
        self.panel_call("feed", coverage, |b, lent| feed(&b.font, &mut b.glass, &mut b.store, lent, piece, 100))
    }

    /// Any time with any room: what is wrong with the memory comes before 5.
    fn time(&self, rng: &mut Prng, coverage: &mut Coverage) -> Result<(), String> {
        let (milliseconds, room) = (rng.pick(&[0, 1, 2099, 2100, u32::MAX]), rng.below(4));
        self.panel_call("time", coverage, |b, lent| time(&b.font, &b.glass, &b.store, lent, milliseconds, room))
    }

    fn panel_call(
        &self,
        name: &str,
        coverage: &mut Coverage,
        call: impl Fn(&mut Board, Lent) -> Fed,
    ) -> Result<(), String> {
        let expected = self.panel_answer();
        if expected == 0 {
            return Ok(());
        }
        let (mut after, mut state) = (self.board.clone(), self.board.state.clone());
        let fed = call(&mut after, self.lend(&mut state));
        after.state = state;
        coverage.answer(name, fed.answer);
        if fed != (Fed { answer: expected, consumed: 0, replies: Vec::new() }) || after != self.board {
            return Err(format!("{name} with {:?} answers {}", self.faults, fed.answer));
        }
        Ok(())
    }

    fn queue_calls(&self, coverage: &mut Coverage) -> Result<(), String> {
        let state = (!self.any(&[F::Length, F::Meaningless])).then_some(&self.board.state);
        let mut queue = self.board.queue.clone();
        let kept = !self.any(&[F::QueueLength]);
        let of_the_record = [F::Length, F::Height, F::Unsound, F::Thresholds, F::Meaningless, F::Edition, F::Waited];
        let refused = !kept || self.any(&of_the_record);
        let arrived = arrive(state, kept.then_some(&mut queue), 1);
        coverage.answer("arrive", arrived.answer);
        let between = queue.clone();
        let taken = take(state, kept.then_some(&mut queue));
        coverage.answer("take", taken.answer);
        if (arrived.answer == 3) != refused || (taken.answer == 3) != refused {
            return Err(format!(
                "arriving and taking with {:?} answer {} {}",
                self.faults, arrived.answer, taken.answer
            ));
        }
        if refused && (between != self.board.queue || queue != self.board.queue) {
            return Err("a refused arrival or take changed the queue".into());
        }
        Ok(())
    }

    /// Start minds the height and the edition it is given, lengths, and the directory only.
    fn start(&self, rng: &mut Prng, coverage: &mut Coverage) -> Result<(), String> {
        let height = if rng.percent(60) { rng.pick(&HEIGHTS) as u32 } else { rng.pick(&UNKNOWN) };
        let edition = if rng.percent(70) { rng.pick(&EDITIONS) as u32 } else { rng.pick(&UNKNOWN_EDITIONS) };
        let known = HEIGHTS.into_iter().find(|&known| known as u32 == height);
        let known_edition = EDITIONS.into_iter().find(|&known| known as u32 == edition);
        let expected = if known.is_none() || self.any(&[F::Length, F::QueueLength]) {
            3
        } else if self.glass != known {
            1
        } else if self.any(&[F::Store]) {
            2
        } else if known_edition.is_none() {
            3
        } else if self.any(&[F::Directory]) {
            4
        } else {
            0
        };
        let mut after = self.board.clone();
        let (state_kept, queue_kept) = (!self.any(&[F::Length]), !self.any(&[F::QueueLength]));
        let (state, queue) = (state_kept.then_some(&mut after.state), queue_kept.then_some(&mut after.queue));
        let answer = start(Choice { height, edition }, &mut after.glass, &after.store, state, queue);
        coverage.answer("start", answer);
        coverage.note(start_name(height, answer));
        coverage.note(start_edition_name(edition, answer));
        let as_it_should = match known.zip(known_edition).filter(|_| answer == 0) {
            Some((height, edition)) => {
                let used = sizes(&after.store[..DIRECTORY]) as u16;
                after.state == State { used, ..State::at_start(height, edition) } && after.glass == Glass::white(height)
            }
            None => after == self.board,
        };
        if answer != expected || !as_it_should {
            return Err(format!("starting with {height}, {edition} and {:?} answers {answer}", self.faults));
        }
        Ok(())
    }
}

fn fault_name(fault: Fault) -> String {
    format!("fault {fault:?}")
}

fn pair_name(one: Fault, other: Fault) -> String {
    format!("fault {one:?} with {other:?}")
}

fn start_name(height: u32, answer: u8) -> String {
    format!("start with height {height} answers {answer}")
}

fn start_edition_name(edition: u32, answer: u8) -> String {
    format!("start with edition {edition} answers {answer}")
}

/// Every fault, every two of them together, and every height and edition given to start.
pub fn wanted() -> Vec<String> {
    let mut wanted = Vec::new();
    for (k, &one) in FAULTS.iter().enumerate() {
        wanted.push(fault_name(one));
        let others = FAULTS[k + 1..].iter().filter(|&&other| (one, other) != (F::Glass, F::OtherGlass));
        wanted.extend(others.map(|&other| pair_name(one, other)));
    }
    wanted.extend(UNKNOWN.map(|height| start_name(height, 3)));
    wanted.extend(
        [1, 2, 3].into_iter().flat_map(|answer| UNKNOWN_EDITIONS.map(|edition| start_edition_name(edition, answer))),
    );
    for answer in 0..=4 {
        wanted.extend(HEIGHTS.map(|height| start_name(height as u32, answer)));
        wanted.extend(EDITIONS.map(|edition| start_edition_name(edition as u32, answer)));
    }
    wanted
}
