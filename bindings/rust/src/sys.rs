//! The exported calls over vectors: all that is unsafe in this crate but for their declarations (raw.rs).

use crate::Query;
use crate::buffers::Buffers;
use crate::raw::{Answer, ListAnswer, TextAnswer, dt_caret, dt_parse, dt_parse_text, dt_parts_in_range};

/// One call with tokens, over lent buffers. Any entry, setting, bytes and numbers may be passed.
#[allow(unsafe_code)]
pub(crate) fn call(entry: u32, setting: u32, bytes: &[u8], tokens: &[u32], lent: &mut Buffers) -> Answer {
    let Buffers { events, trees, errors, reports, pool, .. } = lent;
    // SAFETY: each pointer and length is that of a live slice of the element type that the call names. The two slices
    // that it reads are borrowed for the time of the call and hold initialized elements. The five that it writes are
    // five vectors, borrowed mutably, so that none overlaps another or what is read, and hold initialized elements too.
    // The call's contract has no premise on any number in them, and it is proved to touch nothing outside of them and
    // to end. Its language has no globals, in which a pointer could be kept, and does not unwind. `Answer` is laid out
    // as there.
    unsafe {
        dt_parse(
            entry,
            setting,
            bytes.as_ptr(),
            bytes.len(),
            tokens.as_ptr(),
            tokens.len(),
            events.as_mut_ptr(),
            events.len(),
            trees.as_mut_ptr(),
            trees.len(),
            errors.as_mut_ptr(),
            errors.len(),
            reports.as_mut_ptr(),
            reports.len(),
            pool.as_mut_ptr(),
            pool.len(),
        )
    }
}

/// One call with a text, over lent buffers. Any entry, setting and bytes may be passed.
#[allow(unsafe_code)]
pub(crate) fn call_text(entry: u32, setting: u32, text: &[u8], lent: &mut Buffers) -> TextAnswer {
    let Buffers { tokens, events, trees, errors, reports, pool, .. } = lent;
    // SAFETY: as above, with one slice that is read and six vectors that are written. `TextAnswer` is laid out as there.
    unsafe {
        dt_parse_text(
            entry,
            setting,
            text.as_ptr(),
            text.len(),
            tokens.as_mut_ptr(),
            tokens.len(),
            events.as_mut_ptr(),
            events.len(),
            trees.as_mut_ptr(),
            trees.len(),
            errors.as_mut_ptr(),
            errors.len(),
            reports.as_mut_ptr(),
            reports.len(),
            pool.as_mut_ptr(),
            pool.len(),
        )
    }
}

/// One query of a source file, over lent buffers. Any offsets, setting, bytes and numbers may be passed.
#[allow(unsafe_code)]
pub(crate) fn call_query(query: Query, setting: u32, bytes: &[u8], tokens: &[u32], lent: &mut Buffers) -> ListAnswer {
    let Buffers { events, trees, errors, reports, pool, list, .. } = lent;
    /// A call with the numbers of its query, and the slices that both have.
    macro_rules! call {
        ($call:ident, $($number:expr),*) => {
            $call(
                setting,
                $($number as u64,)*
                bytes.as_ptr(),
                bytes.len(),
                tokens.as_ptr(),
                tokens.len(),
                events.as_mut_ptr(),
                events.len(),
                trees.as_mut_ptr(),
                trees.len(),
                errors.as_mut_ptr(),
                errors.len(),
                reports.as_mut_ptr(),
                reports.len(),
                pool.as_mut_ptr(),
                pool.len(),
                list.as_mut_ptr(),
                list.len(),
            )
        };
    }
    // SAFETY: as for `call`, with six vectors that are written. `ListAnswer` is laid out as there.
    unsafe {
        match query {
            Query::Caret(offset) => call!(dt_caret, offset),
            Query::Parts(range) => call!(dt_parts_in_range, range.start, range.end),
        }
    }
}

#[cfg(test)]
mod tests;
