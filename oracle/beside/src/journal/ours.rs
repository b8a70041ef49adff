//! Our side of the journal: the C functions of the static library, if one is linked.
use super::writing::value::Value;

/// A side that folds, restores and writes as the C functions do, on lent slices.
pub trait Ours {
    fn fold(&self, journal: &[u8], out: &mut [u8], totals: &mut [u8]) -> u64;
    fn restore(&self, record: &[u8], frame: &mut [u8]) -> u64;
    fn write(&self, value: &Value, out: &mut [u8]) -> u64;
}

#[cfg(fold_linked)]
mod linked {
    use crate::journal::writers::write;
    use crate::journal::writing::value::Value;

    extern "C" {
        fn gap_quarantine_fold(
            journal: *const u8,
            journal_len: usize,
            out: *mut u8,
            out_len: usize,
            totals: *mut u8,
            totals_len: usize,
        ) -> u64;

        fn gap_quarantine_restore(record: *const u8, record_len: usize, frame: *mut u8, frame_len: usize) -> u64;
    }

    pub struct Linked;

    impl super::Ours for Linked {
        fn fold(&self, journal: &[u8], out: &mut [u8], totals: &mut [u8]) -> u64 {
            // The slices are valid for their lengths, do not overlap, and the function keeps no pointer.
            unsafe {
                gap_quarantine_fold(
                    journal.as_ptr(),
                    journal.len(),
                    out.as_mut_ptr(),
                    out.len(),
                    totals.as_mut_ptr(),
                    totals.len(),
                )
            }
        }

        fn restore(&self, record: &[u8], frame: &mut [u8]) -> u64 {
            // The slices are valid for their lengths, do not overlap, and the function keeps no pointer.
            unsafe { gap_quarantine_restore(record.as_ptr(), record.len(), frame.as_mut_ptr(), frame.len()) }
        }

        fn write(&self, value: &Value, out: &mut [u8]) -> u64 {
            write(value, out)
        }
    }
}

/// The linked library, or none.
pub fn ours() -> Option<Box<dyn Ours>> {
    #[cfg(fold_linked)]
    return Some(Box::new(linked::Linked));
    #[cfg(not(fold_linked))]
    None
}
