//! Questions 8 to 10: the tape.

use super::asker::{Answer, Asker};
use super::{Finding, Item};
use crate::limits;
use modeltext::tape::Tape;

/// Asks all questions of a tape for a model with so many lists.
pub fn tape(bytes: &[u8], lists: u64, text: Option<&Tape>) -> Vec<Finding> {
    let places = text.map(Tape::numbers);
    let mut asker = Asker::new(bytes, places.as_deref(), true);
    let _ = questions(&mut asker, lists, text);
    asker.findings
}

fn questions(asker: &mut Asker, lists: u64, text: Option<&Tape>) -> Answer<()> {
    for k in 1..=lists {
        asker.item = Item::List(k);
        let list = text.and_then(|tape| tape.lists.get(k as usize - 1));
        let name = match list {
            Some(list) => format!("list `{}`", list.name),
            None => format!("list {k}"),
        };
        let what = format!("the number of times of {name}");
        let count = asker.ask(&what, (0, limits::TIMES), |n| {
            let most = limits::TIMES;
            let rule = match list {
                Some(_) => format!("{name} has more than {most} times"),
                None => format!("a list has at most {most} times, and {name} {n}"),
            };
            let remedy = "leave out what follows, or share it among several lists".to_string();
            (rule, remedy)
        })?;
        let what = format!("a time of {name}");
        for _ in 0..count {
            asker.ask(&what, (0, limits::TIME), |n| {
                (
                    format!("a time is at most {}, and here {n}", limits::TIME),
                    "count in larger ticks, or pass several ADVANCEs".to_string(),
                )
            })?;
        }
    }
    let (byte, number, left) = asker.rest();
    if left > 0 {
        let rule = format!("{left} bytes follow the last list, which ends at byte {byte}");
        let remedy = format!("the model has {lists} lists: give the tape as many");
        asker.found_at(10, Item::Rest, byte, number, None, (rule, remedy))?;
    }
    Ok(())
}
