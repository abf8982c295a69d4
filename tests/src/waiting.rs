//! Time: an upload whose next byte is too long in coming is dropped, and nothing else minds.

use crate::edition::{NEWER, OLDER};
use crate::footprint::Footprint;
use crate::machine::{Machine, Subject};
use crate::mutants::{self, is, Mutant as M};
use crate::state::{Gathering, Upload, WAIT_ENDS};
use crate::used::Moment;

impl Machine<'_> {
    /// The milliseconds add up; at the limit the upload goes in this very call.
    pub fn upload_waits(&mut self, milliseconds: u32) -> (Subject, Result<Footprint, u8>) {
        if self.other_waits_end(milliseconds) {
            return (Subject::UploadDropped, Err(26));
        }
        let Some(upload) = self.state.upload.as_mut().filter(|upload| !passed_over(upload, self.state.edition)) else {
            mutants::note_wait(M::StartKeepsTheWait, milliseconds);
            return (Subject::Waited, Ok(Footprint::Nothing));
        };
        let waited = sum(upload.waited, milliseconds);
        if waited < limit(upload) {
            upload.waited = waited as u16;
            return (Subject::Waited, Ok(Footprint::Nothing));
        }
        mutants::note_wait(M::WaitKeptAcrossADrop, 2000);
        let upload = *upload;
        self.state.used_by_upload(Moment::Dropped, &upload);
        self.dropped();
        if is(M::DropIsNoRefusal) {
            return (Subject::UploadDropped, Ok(Footprint::Nothing));
        }
        (Subject::UploadDropped, Err(26))
    }

    /// The line is outside any command; what was confirmed stays where it is.
    fn dropped(&mut self) {
        self.state.upload = None;
        if is(M::DropBeginsACommand) {
            self.state.gathering = Some(Gathering { bytes: Vec::new() });
        }
        match () {
            () if is(M::DropSaysNothing) => {}
            () if is(M::DropSaysOnly212) => self.replies.push(212),
            () if is(M::DropSaysEight) => self.replies.push(8),
            () if is(M::DropSays212First) => self.replies.extend([212, 254]),
            () => self.replies.extend([254, 212]),
        }
    }

    /// For the wrong versions in which a command or data in line runs out of time too.
    fn other_waits_end(&mut self, milliseconds: u32) -> bool {
        let ends = milliseconds >= WAIT_ENDS;
        let command = is(M::TimeEndsACommand) && self.state.gathering.is_some();
        let data = is(M::TimeEndsDataInLine) && self.state.inline.is_some();
        if !ends || !(command || data) {
            return false;
        }
        (self.state.gathering, self.state.inline) = (None, None);
        self.replies.extend([254, 212]);
        true
    }
}

/// No 32-bit number is too much for the sum.
fn sum(waited: u16, milliseconds: u32) -> u32 {
    if is(M::TimeCutToTwoBytes) {
        return waited as u32 + milliseconds % 65536;
    }
    if is(M::TimeSumRollsOver) {
        return (waited as u32).wrapping_add(milliseconds);
    }
    if is(M::TimeDoesNotAddUp) || is(M::ZeroTimeStartsAnew) && milliseconds == 0 {
        return milliseconds;
    }
    (waited as u32).saturating_add(milliseconds)
}

fn limit(upload: &Upload) -> u32 {
    if is(M::DropAt2101) {
        return WAIT_ENDS + 1;
    }
    if is(M::DropAt2099) {
        return WAIT_ENDS - 1;
    }
    if is(M::DropOnlyInTheNextCall) && (upload.waited as u32) < WAIT_ENDS {
        return 65536;
    }
    WAIT_ENDS
}

/// Only for the wrong versions: whether this upload may wait for ever.
fn passed_over(upload: &Upload, edition: u8) -> bool {
    is(M::TimeCountsInTheNewerOnly) && edition == OLDER
        || is(M::TimeCountsInTheOlderOnly) && edition == NEWER
        || is(M::TimeCountsForConfirmationsOnly) && upload.echoed.is_none()
        || is(M::TimeCountsForDataOnly) && upload.echoed.is_some()
}
