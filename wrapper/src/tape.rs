//! Tapes from distributions.

use crate::trace::accepted;
use crate::{sys, Refusal};
use modeltext::distribution::{self, Form};

/// Where the times of a list come from.
#[derive(Clone, Debug, PartialEq)]
pub enum Distribution {
    /// The same time always; it draws nothing.
    Fixed(f64),
    /// A mean with a half-width.
    Spread { mean: f64, half: f64 },
    /// A curve through points of u and time.
    Curve(Vec<(f64, f64)>),
}

impl Distribution {
    /// A distribution by its name, as `docs/TEXT.md` has it: the curve that stands for it is the same on every machine.
    ///
    /// ```
    /// use covrith::{make_tape, Distribution, List};
    /// let arrivals = Distribution::named("exponential 20").unwrap();
    /// assert_eq!(make_tape(3, &[List { distribution: arrivals, count: 5 }]), Ok(vec![5, 3, 0, 11, 6, 7]));
    /// let wrong = Distribution::named("normal 20 12").unwrap_err();
    /// assert!(wrong.contains("at most half its mean"));
    /// ```
    pub fn named(words: &str) -> Result<Distribution, String> {
        let none = |_: &str| Err("times are given by Distribution::measured".to_string());
        let lists = distribution::read(&format!("l: {words}, 0 times"), &none);
        match lists.map(|lists| lists.into_iter().map(|list| list.form).next()) {
            Ok(Some(form)) => Ok(form.into()),
            Ok(None) => Err("a distribution is expected".to_string()),
            Err(faults) => Err(faults
                .iter()
                .map(|fault| fault.what.clone())
                .collect::<Vec<_>>()
                .join("; ")),
        }
    }

    /// As measured times have it, decimal numbers to a line.
    pub fn measured(times: &str) -> Result<Distribution, String> {
        let open = |_: &str| Ok(times.to_string());
        match distribution::read("l: empirical times, 0 times", &open) {
            Ok(mut lists) => Ok(lists.remove(0).form.into()),
            Err(faults) => Err(faults[0].to_string()),
        }
    }
}

impl From<Form> for Distribution {
    fn from(form: Form) -> Distribution {
        match form {
            Form::Fixed(time) => Distribution::Fixed(time),
            Form::Spread(mean, half) => Distribution::Spread { mean, half },
            Form::Curve(points) => Distribution::Curve(points),
        }
    }
}

/// A list of a tape: its distribution and how many times are drawn.
#[derive(Clone, Debug, PartialEq)]
pub struct List {
    pub distribution: Distribution,
    pub count: u32,
}

/// The numbers and doubles of a call, as the header describes them.
pub fn arguments(lists: &[List]) -> (Vec<u32>, Vec<f64>) {
    let mut numbers = Vec::new();
    let mut doubles: Vec<f64> = Vec::new();
    for list in lists {
        let first = doubles.len() as u32;
        let (kind, points) = match &list.distribution {
            Distribution::Fixed(time) => {
                doubles.push(*time);
                (0, 0)
            }
            Distribution::Spread { mean, half } => {
                doubles.extend([*mean, *half]);
                (1, 0)
            }
            Distribution::Curve(points) => {
                doubles.extend(points.iter().flat_map(|(u, time)| [*u, *time]));
                (2, points.len() as u32)
            }
        };
        numbers.extend([kind, list.count, first, points]);
    }
    (numbers, doubles)
}

/// Writes the tape of these lists, drawn in order from a stream, at the front of `tape` and gives its length. A refusal writes nothing.
pub fn write_tape(stream: u32, lists: &[List], tape: &mut [u8]) -> Result<usize, Refusal> {
    let (numbers, doubles) = arguments(lists);
    let mut written = 0;
    // SAFETY: the slices are valid for their lengths and disjoint, and one number is written.
    let answer = unsafe {
        sys::covrith_make_tape(
            stream,
            numbers.as_ptr(),
            numbers.len(),
            doubles.as_ptr(),
            doubles.len(),
            tape.as_mut_ptr(),
            tape.len(),
            &mut written,
        )
    };
    accepted(answer)?;
    Ok(written as usize)
}

/// The tape of these lists, drawn in order from a stream.
///
/// ```
/// use covrith::{make_tape, Distribution, List, Refusal};
/// let lists = [
///     List { distribution: Distribution::Spread { mean: 12.5, half: 4.0 }, count: 3 },
///     List { distribution: Distribution::Fixed(7.0), count: 2 },
///     List { distribution: Distribution::Curve(vec![(0.0, 1.0), (0.5, 3.0), (1.0, 10.0)]), count: 2 },
/// ];
/// assert_eq!(make_tape(0, &lists), Ok(vec![3, 8, 9, 14, 2, 7, 7, 2, 2, 3]));
/// assert_eq!(make_tape(512, &lists), Err(Refusal::NoStream));
/// ```
pub fn make_tape(stream: u32, lists: &[List]) -> Result<Vec<u8>, Refusal> {
    // A count above the limit is refused before anything is written, so that it wants no room.
    let times = |list: &List| 1 + usize::from(u16::try_from(list.count).unwrap_or(0));
    let mut tape = vec![0; 3 * lists.iter().map(times).sum::<usize>()];
    let length = write_tape(stream, lists, &mut tape)?;
    tape.truncate(length);
    Ok(tape)
}
