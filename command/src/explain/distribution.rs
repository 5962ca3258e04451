//! Refusal 42: a distribution or a count outside its rules, told at its number in the text.

use crate::limits;
use modeltext::distribution::{Drawn, Form};
use modeltext::{Fault, Position};

/// What the tape maker refuses of a list, and where.
pub fn distribution(list: &Drawn) -> Option<Fault> {
    // the curve of a name is always one that the tape maker takes
    let formed = |()| match list.shape {
        Some(_) => Ok(()),
        None => formed(list),
    };
    counted(list).and_then(formed).err()
}

type Asked = Result<(), Fault>;

fn ask(
    holds: bool,
    at: Position,
    what: impl FnOnce() -> String,
    remedy: impl FnOnce() -> String,
) -> Asked {
    if holds {
        return Ok(());
    }
    Err(Fault::at(at, what(), remedy()))
}

fn counted(list: &Drawn) -> Asked {
    let most = limits::DRAWN_TIMES;
    ask(
        u64::from(list.count) <= most,
        list.count_at,
        || {
            format!(
                "a list has at most {most} times, and `{}` {}",
                list.name, list.count
            )
        },
        || format!("write a count from 0 to {most}"),
    )
}

fn formed(list: &Drawn) -> Asked {
    let places = &list.places;
    match &list.form {
        Form::Fixed(value) => time(*value, places[0]),
        Form::Spread(mean, half) => {
            time(*mean, places[0])?;
            time(*half, places[1])?;
            let most = limits::DRAWN_MEAN;
            ask(
                *mean <= most as f64,
                places[0],
                || format!("the mean of a spread is at most {most}, and here {mean}"),
                || "count in larger ticks".to_string(),
            )?;
            ask(
                half <= mean,
                places[1],
                || format!("{half} is more than the mean {mean}, and no time is below 0"),
                || format!("write at most {mean} behind `+-`"),
            )
        }
        Form::Curve(points) => curve(points, list),
    }
}

fn curve(points: &[(f64, f64)], list: &Drawn) -> Asked {
    let (fewest, most) = (limits::FEWEST_POINTS, limits::MOST_POINTS);
    let count = points.len() as u64;
    ask(
        (fewest..=most).contains(&count),
        list.at,
        || format!("a curve has {fewest} to {most} points, and here {count}"),
        || {
            "a point is u and time with `:` between them; the first has u 0, the last u 1"
                .to_string()
        },
    )?;
    let mut before: Option<(f64, f64)> = None;
    for ((u, t), places) in points.iter().zip(list.places.chunks(2)) {
        ask(
            *u <= 1.0,
            places[0],
            || format!("u of a distribution is at most 1, and here {u}"),
            || "write a number from 0 to 1".to_string(),
        )?;
        time(*t, places[1])?;
        let Some((u_before, t_before)) = before.replace((*u, *t)) else {
            ask(
                *u == 0.0,
                places[0],
                || format!("a curve begins at u 0, and here at {u}"),
                || format!("begin with 0:{t}, or with the least time"),
            )?;
            continue;
        };
        ask(
            u_before < *u,
            places[0],
            || format!("u rises from point to point, and here {u} follows {u_before}"),
            || "write the points by rising u, each u once".to_string(),
        )?;
        ask(
            t_before <= *t,
            places[1],
            || format!("times never fall along a curve, and here {t} follows {t_before}"),
            || "u is the part of all draws that give at most this time".to_string(),
        )?;
    }
    let last = points[points.len() - 1].0;
    ask(
        last == 1.0,
        list.places[list.places.len() - 2],
        || format!("a curve ends at u 1, and here at {last}"),
        || "end with 1 and the longest time".to_string(),
    )
}

/// A multiple of its part of one, from 0 to the longest.
fn time(value: f64, at: Position) -> Asked {
    let (parts, most) = (limits::TIME_PARTS, limits::DRAWN_TIME);
    ask(
        value <= most as f64,
        at,
        || format!("a time of a distribution is at most {most}, and here {value}"),
        || format!("write a number from 0 to {most}"),
    )?;
    let scaled = value * parts as f64;
    let near = |part: f64| part / parts as f64;
    ask(
        scaled.fract() == 0.0,
        at,
        || format!("a time of a distribution is a multiple of 1/{parts}, and {value} is none"),
        || {
            format!(
                "write {} or {}",
                near(scaled.floor()),
                near(scaled.floor() + 1.0)
            )
        },
    )
}
