//! Times among the bytes of a stream: small ones, those at the limit, and huge ones.

use crate::case_file::upload_begun;
use crate::edition::NEWER;
use crate::generator::Maker;
use crate::input::{of_bytes, Input};
use crate::prng::Prng;

/// Calls in a row that leave an upload under way when it has just had a byte.
const SHORT: [&[u32]; 10] =
    [&[0], &[1], &[20], &[0, 0], &[700], &[1000, 1000], &[2099], &[2098, 1], &[1, 2098, 0], &[2099, 0]];

/// Calls in a row whose last one drops it.
#[rustfmt::skip]
const LONG: [&[u32]; 14] = [
    &[2100], &[2101], &[2099, 1], &[1, 2099], &[1000, 1000, 100], &[0, 2100], &[2099, 2099], &[2099, 0, 1],
    &[5000], &[65535], &[65536], &[65536 + 1000], &[u32::MAX], &[1, u32::MAX],
];

fn some_times(rng: &mut Prng, short: usize) -> &'static [u32] {
    if rng.percent(short) {
        rng.pick(&SHORT)
    } else {
        rng.pick(&LONG)
    }
}

/// Bytes with times before some of them, most of them short: `often` times in a hundred, and once behind them all.
pub fn among(rng: &mut Prng, bytes: &[u8], often: usize) -> Vec<Input> {
    let mut inputs = Vec::new();
    for &byte in bytes {
        if rng.percent(often) {
            let times = some_times(rng, 98);
            inputs.extend(times.iter().map(|&time| Input::Time(time)));
        }
        inputs.push(Input::Byte(byte));
    }
    if rng.percent(often) {
        let times = some_times(rng, 60);
        inputs.extend(times.iter().map(|&time| Input::Time(time)));
    }
    inputs
}

impl Maker {
    pub fn with_times_between(&mut self, bytes: &[u8]) -> Vec<Input> {
        let often = self.times;
        among(&mut self.rng, bytes, often)
    }

    /// A command or data in line that takes its time, or an upload that does.
    pub fn waiting(&mut self) -> Vec<Input> {
        let unhurried: &[u8] = match self.rng.below(12) {
            0 => &[254, 100, 3, 3, 12, 4, 1, 2, 3, 4],
            1 => &[254, 112, 5, 5],
            2 => &[254, 52, 1, 2, 65],
            _ => return self.waiting_upload(),
        };
        let mut inputs = Vec::new();
        for &byte in unhurried {
            inputs.push(Input::Byte(byte));
            let times = some_times(&mut self.rng, 50);
            inputs.extend(times.iter().map(|&time| Input::Time(time)));
        }
        inputs
    }

    /// An upload that waits long at its start, for a confirmation or for data, and there may be dropped.
    fn waiting_upload(&mut self) -> Vec<Input> {
        let mut numbers = vec![40, 41, 42];
        if self.edition() == NEWER {
            numbers.extend([400, 1023]);
        }
        let code = self.rng.pick(&[36, 94]);
        let (number, size) = (self.rng.pick(&numbers), self.rng.between(1, 6));
        let mut inputs = of_bytes(&upload_begun(self.edition(), code, number, size));
        let dropped_at = self.rng.below(2 * size + 4);
        for byte in 0..2 * size {
            let short = if byte == dropped_at { 0 } else { 100 };
            if short == 0 || self.rng.percent(40) {
                let times = some_times(&mut self.rng, short);
                inputs.extend(times.iter().map(|&time| Input::Time(time)));
            }
            if short == 0 {
                break;
            }
            inputs.push(Input::Byte(if byte % 2 == 1 { 1 } else { self.rng.byte() }));
        }
        // what comes next is a character, or begins a command, or is another such upload
        inputs.extend(of_bytes(&[self.rng.pick(&[1, 65, 254])]));
        inputs
    }
}
