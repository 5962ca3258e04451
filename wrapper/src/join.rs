//! Two plants as one model.

use crate::trace::accepted;
use crate::{sys, Refusal};

/// Writes the model and the tape that two pairs of model and tape are joined to at the fronts of `model` and `tape` and gives their
/// lengths. A refusal writes nothing.
pub fn write_joined(
    first: (&[u8], &[u8]),
    second: (&[u8], &[u8]),
    model: &mut [u8],
    tape: &mut [u8],
) -> Result<(usize, usize), Refusal> {
    let mut written = [0; 2];
    // SAFETY: the slices are valid for their lengths and disjoint, and two numbers are written.
    let answer = unsafe {
        sys::covrith_join(
            first.0.as_ptr(),
            first.0.len(),
            first.1.as_ptr(),
            first.1.len(),
            second.0.as_ptr(),
            second.0.len(),
            second.1.as_ptr(),
            second.1.len(),
            model.as_mut_ptr(),
            model.len(),
            tape.as_mut_ptr(),
            tape.len(),
            written.as_mut_ptr(),
        )
    };
    accepted(answer)?;
    Ok((written[0] as usize, written[1] as usize))
}

/// The model and the tape that two pairs of model and tape are joined to.
///
/// ```
/// use covrith::{join, Refusal};
/// // Each part: GENERATE of list 1, TERMINATE 1; one comes after 3 ticks, the other after 5.
/// let model = [1, 0, 0, 0, 0, 1, 9, 2, 1, 1, 0, 3, 1];
/// let (joined, tape) = join((&model, &[1, 3]), (&model, &[1, 5])).unwrap();
/// assert_eq!(joined, [1, 0, 0, 0, 0, 2, 18, 4, 1, 1, 0, 3, 1, 1, 2, 0, 3, 1]);
/// assert_eq!(tape, [1, 3, 1, 5]);
/// let second = [2, 0, 0, 0, 0, 1, 9, 2, 1, 1, 0, 3, 1];
/// assert_eq!(join((&model, &[1, 3]), (&second, &[1, 5])), Err(Refusal::NotJoined));
/// ```
pub fn join(first: (&[u8], &[u8]), second: (&[u8], &[u8])) -> Result<(Vec<u8>, Vec<u8>), Refusal> {
    // A number of the second takes at most one byte more when it is numbered on.
    let mut model = vec![0; first.0.len() + 2 * second.0.len()];
    let mut tape = vec![0; first.1.len() + second.1.len()];
    let lengths = write_joined(first, second, &mut model, &mut tape)?;
    model.truncate(lengths.0);
    tape.truncate(lengths.1);
    Ok((model, tape))
}
