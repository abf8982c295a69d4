//! What must hold of every time: an upload waits or is dropped by the sum since its last byte, and nothing else moves.

use crate::book_missing::Seen;
use crate::input::Input;
use crate::machine::{Step, Subject};

pub fn times_hold(step: &Step, before: Seen, after: Seen) -> Result<(), String> {
    let Input::Time(milliseconds) = step.input else {
        return match &after.2.upload {
            Some(upload) if upload.waited != 0 => Err("an upload has waited just after a byte".into()),
            _ if step.subject == Subject::UploadDropped => Err("a byte dropped an upload".into()),
            _ => Ok(()),
        };
    };
    let mut expected = before.2.clone();
    let mut subject = Subject::Waited;
    if let Some(upload) = expected.upload.as_mut() {
        match upload.waited as u64 + milliseconds as u64 {
            waited @ 0..2100 => upload.waited = waited as u16,
            _ => {
                expected.upload = None;
                expected.refusals = expected.refusals.wrapping_add(1);
                expected.last_refusal = 26;
                subject = Subject::UploadDropped;
            }
        }
    }
    if (&expected, subject) != (after.2, step.subject) {
        return Err(format!("the state is wrong after {milliseconds} milliseconds"));
    }
    if (before.0, before.1) != (after.0, after.1) {
        return Err("time changed the glass or the store".into());
    }
    Ok(())
}
