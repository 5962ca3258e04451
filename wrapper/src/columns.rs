//! Traces by column.

use crate::trace::accepted;
use crate::{sys, Refusal};

/// Writes the columns of a trace at the front of `out` and gives their length, at most that of the trace and 4. A refusal writes nothing.
///
/// ```
/// use covrith::{from_columns, to_columns};
/// let trace = [3, 1, 1, 0, 5, 1, 2, 0];
/// let mut columns = [0; 12];
/// let length = to_columns(&trace, &mut columns).unwrap();
/// assert_eq!(columns[..length], [2, 3, 2, 1, 1, 1, 2, 0, 0]);
/// let mut back = [0; 8];
/// assert_eq!(from_columns(&columns[..length], &mut back), Ok(8));
/// assert_eq!(back, trace);
/// ```
pub fn to_columns(trace: &[u8], out: &mut [u8]) -> Result<usize, Refusal> {
    let mut written = 0;
    // SAFETY: the slices are valid for their lengths and disjoint, and one number is written.
    let answer = unsafe {
        sys::covrith_columns(
            trace.as_ptr(),
            trace.len(),
            out.as_mut_ptr(),
            out.len(),
            &mut written,
        )
    };
    accepted(answer)?;
    Ok(written as usize)
}

/// Writes the trace of columns at the front of `out` and gives its length, at most twice that of the columns. A refusal writes
/// nothing.
pub fn from_columns(columns: &[u8], out: &mut [u8]) -> Result<usize, Refusal> {
    let mut written = 0;
    // SAFETY: as for `to_columns`.
    let answer = unsafe {
        sys::covrith_uncolumns(
            columns.as_ptr(),
            columns.len(),
            out.as_mut_ptr(),
            out.len(),
            &mut written,
        )
    };
    accepted(answer)?;
    Ok(written as usize)
}
