//! Uploads: the reply, the echo, the confirmation.

use crate::edition::low_first;
use crate::footprint::Footprint;
use crate::machine::{Machine, Subject};
use crate::mutants::{self, is, Mutant as M};
use crate::state::{Sort, Upload};
use crate::used::Moment;

impl Machine<'_> {
    /// 36 and 94: 8 with the refusal, 1 when the data may come.
    pub fn upload_begins(&mut self, sort: Sort, a: &[u8]) -> Result<Footprint, u8> {
        let edition = self.state.edition;
        let (number, size) = self.number(if sort == Sort::Font { 36 } else { 94 }, a);
        let size = if is(M::UploadSizeHighFirst) {
            low_first(&size.iter().rev().copied().collect::<Vec<_>>())
        } else {
            low_first(size)
        } as usize;
        if let Some(refusal) = self.files.upload_refused(edition, sort, number, size) {
            if !is(M::UploadRefusedSilently) && !(is(M::UploadRangeRefusedSilently) && refusal == 19) {
                self.replies.push(8);
            }
            return Err(refusal);
        }
        self.replies.push(1);
        let upload = Upload { waited: mutants::wait_at_start(), ..Upload::new(sort, number, size as u16) };
        self.state.used_by_upload(Moment::Begun, &upload);
        self.state.upload = Some(upload);
        Ok(Footprint::Nothing)
    }

    /// Data and confirmations take turns.
    pub fn upload_byte(&mut self, byte: u8) -> (Subject, Result<Footprint, u8>) {
        let mut upload = self.state.upload.take().unwrap();
        let Some(data) = upload.echoed else {
            if is(M::UploadStoresBeforeConfirmation) {
                self.files.keep(&upload, byte);
            }
            upload.echoed = Some(byte);
            if !is(M::DataKeepsTheWait) {
                upload.waited = 0;
            }
            self.replies.push(byte);
            self.state.used_by_upload(Moment::Data, &upload);
            self.state.upload = Some(upload);
            return (Subject::UploadByte, Ok(Footprint::Nothing));
        };
        mutants::note_wait(M::WaitKeptAcrossUploads, upload.waited as u32);
        let confirmed = if is(M::UploadAnyNonzeroConfirms) { byte != 0 } else { byte == 1 };
        if !confirmed {
            if is(M::BrokenUploadRepliesEight) {
                self.replies.push(8);
            }
            if is(M::BrokenUploadByteReadAfresh) && byte == 254 {
                self.state.gathering = Some(crate::state::Gathering { bytes: Vec::new() });
            }
            if is(M::BrokenUploadIsCleared) {
                let cleared = upload.stored;
                for stored in 0..cleared {
                    self.files.keep(&Upload { stored, ..upload }, 0);
                }
            }
            self.state.used_by_upload(Moment::Broken, &upload);
            return (Subject::UploadBroken, Err(26));
        }
        self.files.keep(&upload, data);
        upload.stored += 1;
        upload.echoed = None;
        if !is(M::ConfirmationKeepsTheWait) {
            upload.waited = 0;
        }
        if upload.stored < upload.size {
            self.state.used_by_upload(Moment::Confirmed, &upload);
            self.state.upload = Some(upload);
            return (Subject::UploadConfirmed, Ok(Footprint::Nothing));
        }
        self.files.finish(self.state.edition, &upload);
        self.state.used_by_upload(Moment::Ended, &upload);
        (Subject::UploadFinished, Ok(Footprint::Nothing))
    }
}
