//! Text and bytes there and back, and what errors say.

use modeltext::show::{self, Names};
use modeltext::{model_bytes, model_text, read, tape};

fn bytes(hex: &str) -> Vec<u8> {
    let hex = if hex == "-" { "" } else { hex };
    (0..hex.len())
        .step_by(2)
        .map(|i| u8::from_str_radix(&hex[i..i + 2], 16).unwrap())
        .collect()
}

#[test]
fn bytes_to_text_to_bytes() {
    let cases = include_str!("models.txt");
    assert!(cases.lines().count() > 40);
    for line in cases.lines() {
        let (model, times) = line.split_once(' ').unwrap();
        let text = model_text(&bytes(model)).unwrap();
        assert_eq!(model_bytes(&text).unwrap(), bytes(model), "{text}");
        assert_eq!(model_text(&model_bytes(&text).unwrap()).unwrap(), text);
        let text = tape::text(&bytes(times)).unwrap();
        assert_eq!(tape::bytes(&text).unwrap(), bytes(times));
    }
}

#[test]
fn names_of_two_models() {
    let text = |label: &str| {
        format!("FACILITY crane, crane2\nSTORAGE crane = 2\nQUEUE q\nLIST l\nVALUE v = q$q\nCOUNTER 1\n{label} SEIZE crane\n GOTO {label}\n")
    };
    let names = |label: &str| Names::of(&read::model(&text(label)));
    let both = names("again").followed_by(&names("Again"));
    assert_eq!(both.facilities, ["crane", "crane2", "crane3", "crane22"]);
    assert_eq!(both.storages, ["crane", "crane2"]);
    assert_eq!((both.queues, both.lists), (words("q q2"), words("l l2")));
    assert_eq!(both.values, ["v", "v2"]);
    let labels = [Some("again"), None, Some("Again2"), None];
    assert_eq!(both.labels, labels.map(|label| label.map(str::to_string)));
    // a label that is longer than its column
    let model = read::model(&text("beginning"));
    let shown = show::text(&model.model, &Names::of(&model));
    assert!(shown.contains("\nbeginning SEIZE crane\n"), "{shown}");
    assert_eq!(model_bytes(&shown).unwrap(), model.model.bytes());
    // names of a tape's lists, and numbers behind the last name
    let times = tape::text_with(&[1, 5, 0], &words("arrivals")).unwrap();
    assert_eq!(times, "arrivals: 5\nl2:\n");
}

fn words(text: &str) -> Vec<String> {
    text.split(' ').map(str::to_string).collect()
}

const FIRST: &str = "\
* The first example of document 01.
FACILITY server
LIST     arrivals, services
COUNTER  2
         GENERATE arrivals
         SEIZE    server    ; waits while it is in use
         ADVANCE  services
         RELEASE  server
         TERMINATE 1
";

#[test]
fn first_example() {
    let wanted = bytes("01010000000202050101000401020205010301");
    assert_eq!(model_bytes(FIRST).unwrap(), wanted);
    let times = tape::bytes("arrivals: 3 2\nservices: 5 4\n").unwrap();
    assert_eq!(times, bytes("020302020504"));
}

#[test]
fn terms_and_values() {
    let text = "\
FACILITY tug, storm
STORAGE berth = 3, yard = 10
QUEUE harbour
LIST a
VALUE notok = f$storm + (r$berth < 1) + f$tug
VALUE late = - n$in + (v$notok - -5) + ((q$harbour + 1) >= cl)
COUNTER 10
        GENERATE a, 7
in      WAITIF v$notok > 0
        WAITIF tug = U
        WAITIF berth=NF
        WAITIF storm = u, 2
        assemble 3
        PREEMPT tug
        return tug
        IF p1 <> -3, out
        LET p4 = s$yard
        SPLIT 2, in
        ENTER berth
        LEAVE yard, 2
out     PRIORITY 127
        ARRIVE harbour
        DEPART harbour
        GOTO in
        TERMINATE
";
    let once = model_bytes(text).unwrap();
    let shown = model_text(&once).unwrap();
    assert_eq!(model_bytes(&shown).unwrap(), once, "{shown}");
    assert!(
        shown.contains("VALUE v2 = - n$b2 + (v$v1 - -5) + ((q$q1 + 1) >= cl)"),
        "{shown}"
    );
    assert!(shown.contains("WAITIF s1 = NF"), "{shown}");
    assert!(shown.contains("WAITIF f2 = U, 2"), "{shown}");
    assert!(shown.contains("ASSEMBLE 3"), "{shown}");
    assert!(shown.contains("PREEMPT f1"), "{shown}");
    assert!(shown.contains("RETURN f1"), "{shown}");
}

#[test]
fn where_numbers_come_from() {
    let source = read::model(FIRST);
    let at: Vec<(u32, u32)> = source.numbers.iter().map(|p| (p.line, p.column)).collect();
    let wanted = [
        (1, 1),  // edition
        (2, 10), // facilities
        (1, 1),  // storages
        (1, 1),  // queues
        (1, 1),  // values
        (3, 20), // lists
        (4, 10), // counter
        (9, 10), // blocks
        (5, 10), // GENERATE
        (5, 19), // arrivals
        (5, 27), // the priority that is left out
        (6, 10), // SEIZE
        (6, 19), // server
        (7, 10), // ADVANCE
        (7, 19), // services
        (8, 10), // RELEASE
        (8, 19), // server
        (9, 10), // TERMINATE
        (9, 20), // 1
    ];
    assert_eq!(at, wanted);
}

/// Every number of the bytes has its place, also inside values.
#[test]
fn as_many_places_as_numbers() {
    for line in include_str!("models.txt").lines() {
        let (model, times) = line.split_once(' ').unwrap();
        let text = model_text(&bytes(model)).unwrap();
        let source = read::model(&text);
        let numbers = bytes(model).iter().filter(|b| **b < 0x80).count();
        assert_eq!(source.numbers.len(), numbers, "{text}");
        let tape = tape::read(&tape::text(&bytes(times)).unwrap());
        let numbers = bytes(times).iter().filter(|b| **b < 0x80).count();
        assert_eq!(tape.numbers().len(), numbers);
    }
}

/// An edition that the text names; which ones there are is the engine's question.
#[test]
fn editions() {
    let text = FIRST.replace("COUNTER  2", "EDITION  2\nCOUNTER  2");
    let mut wanted = model_bytes(FIRST).unwrap();
    wanted[0] = 2;
    assert_eq!(model_bytes(&text).unwrap(), wanted);
    assert_eq!(read::model(&text).numbers[0].line, 4);
    let shown = model_text(&wanted).unwrap();
    assert!(shown.starts_with("EDITION 2\n"));
    assert_eq!(model_bytes(&shown).unwrap(), wanted);
    assert_eq!(
        only(&text.replace("COUNTER  2", "EDITION 1\nCOUNTER 2")),
        "5:1: EDITION stands twice, first on line 4\n    leave one of them"
    );
}

#[test]
fn tapes() {
    let tape = tape::read("a: 3*5 7\n   1 ; more\nb:\n");
    assert!(tape.faults.is_empty());
    let times: Vec<_> = tape.lists.iter().map(|list| list.times.clone()).collect();
    assert_eq!(times, vec![vec![5, 5, 5, 7, 1], vec![]]);
}

#[test]
fn long_times() {
    let tape = tape::read("a: 1000001 4294967296 2*10_000_000_000 34359738368\n");
    assert_eq!(
        tape.lists[0].times,
        [
            1_000_001,
            4_294_967_296,
            10_000_000_000,
            10_000_000_000,
            34_359_738_368
        ]
    );
    // The engine judges them; what fits five groups is shown again.
    let written = tape::bytes("a: 4294967296 10000000000 34359738367\n").unwrap();
    assert_eq!(written, bytes("039080808000a5a0afc800ffffffff7f"));
    let shown = tape::text(&written).unwrap();
    assert_eq!(tape::bytes(&shown), Ok(written));
    assert!(tape::text(&bytes("01818080808000")).is_err());
}

/// The faults of a text as they are printed.
fn faults(text: &str) -> Vec<String> {
    let found = model_bytes(text).unwrap_err();
    found.iter().map(ToString::to_string).collect()
}

fn only(text: &str) -> String {
    let found = faults(text);
    assert_eq!(found.len(), 1, "{found:?}");
    found.into_iter().next().unwrap()
}

#[test]
fn errors_name_line_and_column() {
    assert_eq!(
        only("COUNTER 1\n  SEIZE tug\n"),
        "2:9: there is no facility `tug`\n    declare it: FACILITY tug"
    );
    assert_eq!(
        only("COUNTER 1\nFACILITY a, a\n GOTO 1\n"),
        "2:13: the facility `a` is declared twice, first on line 2\n    choose another name for one of them"
    );
    assert_eq!(
        only("COUNTER 1 2\nGOTO 1\n"),
        "1:11: nothing more is expected on this line\n    take it away, or put a `;` before a comment"
    );
    assert_eq!(
        only("COUNTER 1\nVALUE v = 1 + (2\nGOTO 1\n"),
        "2:17: `)` is expected here\n    close the bracket"
    );
    assert_eq!(
        only("COUNTER 1\nhere there\n"),
        "2:1: `here` is no statement, and no block follows it as a label\n    docs/TEXT.md lists the statements; a label stands on the line of its block"
    );
    assert_eq!(
        only("COUNTER 1\n  IF p1 ? 3, out\n  GOTO 1\n"),
        "2:9: `?` is not part of the text form\n    names have letters, digits and `_`, and begin with a letter; a comment begins with `;`"
    );
    assert_eq!(
        only("COUNTER 4294967296\nGOTO 1\n"),
        "1:9: the number 4294967296 is too large\n    numbers of a model end at 4294967295"
    );
    assert_eq!(tape::read("5 3\n").faults[0].at.column, 1);
}

#[test]
fn each_fault_of_a_text_is_told() {
    let found = faults("COUNTER 1\n SIEZE a\n GENERATE 5\nx LET q = 1\n GOTO y\n TERMINATE 1\n");
    let starts = [
        "2:2: `SIEZE`",
        "3:11: 5 would be list 5",
        "4:7: `q` is no parameter",
    ];
    assert_eq!(found.len(), starts.len(), "{found:?}");
    for (fault, start) in found.iter().zip(starts) {
        assert!(fault.starts_with(start), "{fault}");
    }
}

/// Forms that misled say what to write instead.
#[test]
fn what_to_write_instead() {
    let with = |block: &str| {
        only(&format!(
            "FACILITY f\nSTORAGE room = 2\nLIST a\nCOUNTER 1\n GENERATE a\n {block}\nx TERMINATE 1\n"
        ))
    };
    for (block, told) in [
        ("ADVANCE 5", "6:10: 5 would be list 5 here and not 5 ticks\n    name a list: LIST times, ADVANCE times, and on the tape `times: 100*5` for a hundred times of 5"),
        ("LET p1 = p1 + 1 ; up", "6:14: LET takes one term and not a sum, which only a VALUE has\n    declare VALUE result = p1 + 1, and write LET p1 = v$result"),
        ("IF f=U,x", "6:5: IF compares two terms; only WAITIF takes a status code\n    write IF f$f = 1, x"),
        ("IF room = NF, x", "6:5: IF compares two terms; only WAITIF takes a status code\n    write IF r$room > 0, x"),
        ("IF p1 + 1 > 3, x", "6:8: IF takes one term here and not a sum, which only a VALUE has\n    declare VALUE result = p1 + 1, and write v$result in place of p1 + 1"),
        ("WAITIF room = 1", "6:9: `room` is no term\n    write s$room for its units in use, r$room for its free ones"),
        ("WAITIF room = U", "6:9: `room` is a storage, which has no such code\n    the codes of a storage are E empty, NE not empty, F full, NF not full"),
        ("ASSEMBLE x", "6:11: how many of a family gather is a number\n    write a whole number without a sign"),
        ("ASSEMBLE", "6:10: how many of a family gather is a number\n    write a whole number without a sign"),
        ("PREEMPT room", "6:10: there is no facility `room`\n    `room` is a storage, and ENTER and LEAVE are for storages"),
        ("RETURN", "6:8: the name of a facility is expected here\n    write the name of a facility"),
        ("WAITIF f = U, x", "6:16: how many blocks it goes back is a number\n    write a whole number without a sign"),
        ("WAITIF f$f = 1, 1", "6:16: only a WAITIF on a server is joined with waits before it\n    write WAITIF server = code, number"),
        ("advance SEIZE f", "6:2: `advance` begins a statement and cannot be a label\n    choose another word, as `advance1`"),
        ("queue TERMINATE", "6:2: `queue` begins a statement and cannot be a label\n    choose another word, as `queue1`"),
        ("GOTO ax", "6:7: there is no label `ax`\n    did you mean `x`?"),
    ] {
        assert_eq!(with(block), told, "{block}");
    }
    assert_eq!(
        only("LIST a\n GENERATE a\n TERMINATE 1\n"),
        "3:1: the model has no COUNTER\n    add a line `COUNTER 1`: the run ends when TERMINATEs have let it fall to 0 (TERMINATE 1 lets it fall by 1)"
    );
}

#[test]
fn lists_of_a_tape_are_those_of_the_model() {
    let source = read::model("LIST a, b\nCOUNTER 1\n GOTO 1\n");
    let told = |text: &str| -> Vec<String> {
        let found = tape::against(&tape::read(text), &source.names.lists);
        found.iter().map(|m| m.fault().what.clone()).collect()
    };
    assert!(told("a: 1\nB: 2\n").is_empty());
    assert_eq!(told("a: 1\n"), ["the list `b` is missing on the tape"]);
    assert_eq!(
        told("b: 1\na: 2\n"),
        ["the list `b` stands where the model has `a`"]
    );
    assert_eq!(
        told("a: 1\nb: 2\nb: 3\n"),
        ["the list `b` stands twice on the tape"]
    );
    assert_eq!(told("a: 1\nb: 2\nc: 3\n"), ["the model has no list `c`"]);
    assert_eq!(told("").len(), 2);
}
