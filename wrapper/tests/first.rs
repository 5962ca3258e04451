//! The first example of document 01, a trace there and back, the refusals of reader and writer, and streams.

use covrith::*;

const MODEL: [u8; 19] = [1, 1, 0, 0, 0, 2, 2, 5, 1, 1, 0, 4, 1, 2, 2, 5, 1, 3, 1];
const TAPE: [u8; 6] = [2, 3, 2, 2, 5, 4];

fn record(clock: u64, transaction: u64, block: u64, outcome: u64) -> Record {
    Record {
        clock,
        transaction,
        block,
        outcome,
    }
}

#[test]
fn first_example() {
    let mut work = vec![0; WORK_NUMBERS];
    let mut trace = vec![0; 65_536];
    let mut report = vec![0; REPORT_BYTES];
    let outcome = run(&MODEL, &TAPE, 1_000_000, &mut work, &mut trace, &mut report);
    let wanted = Outcome {
        end: 2,
        clock: 12,
        turns: 11,
        made: 2,
        ended: 2,
        trace_bytes: 44,
        report_bytes: 9,
        ..Outcome::default()
    };
    assert_eq!(outcome, wanted);
    let trace = &trace[..44];
    let records: Vec<Record> = Records::new(trace).map(Result::unwrap).collect();
    assert_eq!(records[..2], [record(3, 1, 1, 0), record(3, 1, 2, 0)]);
    assert_eq!(records[4], record(5, 2, 2, 1));
    assert_eq!(records[10], record(12, 2, 5, 0));
    assert_eq!(count(trace), 4 * 11);
    let mut again = [0; 44];
    let mut used = 0;
    for record in records {
        used += write_record(&mut again[used..], record).unwrap();
    }
    assert_eq!(again, trace);
}

#[test]
fn by_names() {
    let run = simulate(&MODEL, &TAPE, 4, 65_536).unwrap();
    assert_eq!((run.end, run.outcome.turns), (End::Budget, 4));
    let crane = Server {
        entries: 1,
        unit_ticks: 2,
        waits_begun: 0,
        ticks_waited: 0,
        longest: 0,
    };
    let living = [(1, Place::Fel), (2, Place::Moving)]
        .map(|(transaction, place)| Living { transaction, place });
    let wanted = Report {
        clock: 5,
        made: 2,
        ended: 0,
        facilities: vec![crane],
        storages: vec![],
        queues: vec![],
        living: living.to_vec(),
    };
    assert_eq!(run.report, wanted);
    assert_eq!(run.records().count(), 4);
    assert_eq!(
        Report::read(&run.report_bytes, &Header::read(&MODEL).unwrap()),
        Ok(wanted)
    );
}

#[test]
fn refusals() {
    let mut report = vec![7; REPORT_BYTES];
    let outcome = run(&MODEL, &TAPE, 1, &mut [], &mut [], &mut report);
    assert_eq!((outcome.result(), report[0]), (Err(Refusal::ShortWork), 7));
    assert_eq!(read_record(&[], 0), Ok(None));
    assert_eq!(read_record(&[1, 1, 1, 0], 9), Ok(None));
    assert_eq!(read_record(&[1, 1, 1], 0), Err(Refusal::RecordNumber));
    assert_eq!(read_record(&[1, 1, 0], 0), Err(Refusal::RecordRange));
    let mut records = Records::new(&[1, 1, 1, 0, 1, 0]);
    assert_eq!(records.next(), Some(Ok(record(1, 1, 1, 0))));
    assert_eq!(
        (records.next(), records.next()),
        (Some(Err(Refusal::RecordRange)), None)
    );
    assert_eq!(records.position(), 4);
    assert_eq!(
        write_record(&mut [0; 12], record(0, 1, 1, 2)),
        Err(Refusal::RecordRange)
    );
    assert_eq!(
        write_record(&mut [0; 4], record(128, 1, 1, 0)),
        Err(Refusal::RecordRoom)
    );
}

#[test]
fn only_the_holder_releases() {
    // GENERATE 1, 0; SEIZE 1; SPLIT 1, 5; ADVANCE 2; RELEASE 1; TERMINATE 1
    let model = [
        1, 1, 0, 0, 0, 2, 1, 6, 1, 1, 0, 4, 1, 14, 1, 5, 2, 2, 5, 1, 3, 1,
    ];
    let run = simulate(&model, &[1, 4, 1, 9], 100, 1_000).unwrap();
    assert_eq!((run.end, run.outcome.clock), (End::NotHolder, 4));
    assert_eq!((run.outcome.turns, run.records().count()), (5, 4));
    let places: Vec<_> = run.report.living.iter().map(|l| l.place).collect();
    assert_eq!(places, [Place::Fel, Place::Moving]);
    // GENERATE 1, 0; SEIZE 1; TERMINATE 1
    let model = [1, 1, 0, 0, 0, 1, 1, 3, 1, 1, 0, 4, 1, 3, 1];
    let run = simulate(&model, &[1, 4], 100, 1_000).unwrap();
    assert_eq!((run.end, run.outcome.ended), (End::StillHolds, 0));
}

#[test]
fn late_clocks() {
    // One comes at each time of the first list and ends.
    let model = [1, 0, 0, 0, 0, 1, 5, 2, 1, 1, 0, 3, 1];
    let longest = [0xA5, 0xA0, 0xAF, 0xC8, 0x00]; // 10,000,000,000
    let tape = |last: &[u8]| [&[4], &longest[..], &longest, &longest, last].concat();
    let late = simulate(&model, &tape(&[0x87, 0xB9, 0xD6, 0xA8, 0x00]), 100, 1_000).unwrap();
    assert_eq!((late.end, late.outcome.clock), (End::Dry, 32_000_000_000));
    assert_eq!(late.report.clock, 32_000_000_000);
    let last = late.records().last().unwrap();
    assert_eq!(last, record(32_000_000_000, 4, 2, 0));
    let past = simulate(&model, &tape(&[0x87, 0xB9, 0xD6, 0xA8, 0x01]), 100, 1_000).unwrap();
    assert_eq!(
        (past.end, past.outcome.clock),
        (End::ClockLimit, 30_000_000_000)
    );
    // 10,000,000,001, the largest of five groups and one more.
    for (time, refusal) in [
        (&[0xA5, 0xA0, 0xAF, 0xC8, 0x01][..], Refusal::TapeRange),
        (&[0xFF, 0xFF, 0xFF, 0xFF, 0x7F], Refusal::TapeRange),
        (&[0x81, 0x80, 0x80, 0x80, 0x80, 0x00], Refusal::TapeNumber),
    ] {
        let answer = simulate(&model, &tape(time), 100, 1_000);
        assert_eq!(answer.map(|run| run.end), Err(refusal));
        let trace = [time, &[1, 1, 0]].concat();
        let answer = read_record(&trace, 0).map(|_| ());
        let wanted = match refusal {
            Refusal::TapeNumber => Err(Refusal::RecordNumber),
            _ if time[0] == 0xFF => Err(Refusal::RecordRange),
            _ => Ok(()),
        };
        assert_eq!(answer, wanted);
    }
    let mut rest = [0; 12];
    let widest = record(32_000_000_000, 100_000_000, 256, 1);
    assert_eq!(write_record(&mut rest, widest), Ok(12));
    assert_eq!(read_record(&rest, 0), Ok(Some((widest, 12))));
    let past = record(32_000_000_001, 1, 1, 0);
    assert_eq!(write_record(&mut rest, past), Err(Refusal::RecordRange));
}

#[test]
fn streams() {
    let mut first = Stream::new(0).unwrap();
    let drawn: Vec<u32> = (0..100_000).map(|_| first.draw()).collect();
    assert_eq!(drawn[9_999], 1_043_618_065);
    assert_eq!(Stream::new(1), Ok(first));
    assert_eq!(Stream::new(511).unwrap().state(), 532_345_071);
    assert_eq!(Stream::new(STREAMS), Err(Refusal::NoStream));
    assert_eq!(Stream::new(u32::MAX), Err(Refusal::NoStream));
}
