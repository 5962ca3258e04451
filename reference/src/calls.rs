//! Random calls of the parts that stand beside a run, with what must come out,
//! as lines of text. Bytes are hexadecimal, `-` for none.

use crate::columns::{from_columns_with, to_columns_with};
use crate::generate::random::Random;
use crate::generate::{distributions, pairs, traces};
use crate::join::join_with;
use crate::line::hex;
use crate::maker::make_tape;
use crate::rules::Rules;

/// `to` or `from`, the given bytes, the bytes lent; answer, bytes written, bytes.
pub fn columns_line(rules: Rules, random: &mut Random) -> String {
    let forth = random.one_in(2);
    let bytes = if forth {
        traces::trace(rules, random)
    } else {
        traces::columns(rules, random)
    };
    let name = if forth { "to" } else { "from" };
    let direction = if forth {
        to_columns_with
    } else {
        from_columns_with
    };
    let mut out = vec![0; bytes.len() * 5 + 10];
    let needed = direction(rules, &bytes, &mut out).unwrap_or(0);
    let call = traces::call(random, bytes, needed);
    let mut out = vec![0; call.room];
    let answer = direction(rules, &call.bytes, &mut out);
    format!(
        "{name} {} {} {}",
        hex(&call.bytes),
        call.room,
        result(answer, &out)
    )
}

/// The stream, the numbers of the lists, the bits of the doubles, each with
/// commas between, the bytes lent; answer, bytes written, bytes.
pub fn tapes_line(_rules: Rules, random: &mut Random) -> String {
    let call = distributions::call(random);
    let mut out = vec![0; call.room];
    let answer = make_tape(call.stream, &call.lists, &call.numbers, &mut out);
    let lists: Vec<String> = call.lists.iter().map(u32::to_string).collect();
    let bits = |double: &f64| format!("{:016x}", double.to_bits());
    let numbers: Vec<String> = call.numbers.iter().map(bits).collect();
    let some = |words: Vec<String>| match words.is_empty() {
        true => "-".to_string(),
        false => words.join(","),
    };
    format!(
        "{} {} {} {} {}",
        call.stream,
        some(lists),
        some(numbers),
        call.room,
        result(answer, &out)
    )
}

/// Model and tape of the first and of the second, the bytes lent for a model
/// and a tape; answer, bytes written of each, both.
pub fn join_line(rules: Rules, random: &mut Random) -> String {
    let call = pairs::call(rules, random);
    let mut model = vec![0; call.model_room];
    let mut tape = vec![0; call.tape_room];
    let (first, second) = (&call.first, &call.second);
    let answer = join_with(
        rules,
        (&first.0, &first.1),
        (&second.0, &second.1),
        &mut model,
        &mut tape,
    );
    let given = [&first.0, &first.1, &second.0, &second.1].map(|bytes| hex(bytes));
    let (number, lengths) = match answer {
        Ok(lengths) => (0, lengths),
        Err(number) => (number, (0, 0)),
    };
    format!(
        "{} {} {} {number} {} {} {} {}",
        given.join(" "),
        call.model_room,
        call.tape_room,
        lengths.0,
        lengths.1,
        hex(&model[..lengths.0]),
        hex(&tape[..lengths.1])
    )
}

/// The answer (0 for none), the bytes written and those bytes.
fn result(answer: Result<usize, u32>, out: &[u8]) -> String {
    match answer {
        Ok(length) => format!("0 {length} {}", hex(&out[..length])),
        Err(number) => format!("{number} 0 -"),
    }
}
