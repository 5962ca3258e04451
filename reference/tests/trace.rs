//! Trace reader, record writer and byte count.

use reference::generate::random::Random;
use reference::generate::traces::low_and_high;
use reference::number::{self, number_bytes};
use reference::trace::{count_low, read_record_with, write_record_with, Record, TraceReader};
use reference::Rules;

fn read_record(bytes: &[u8], position: usize) -> Result<Record, u32> {
    read_record_with(Rules::BASE, bytes, position)
}

fn write_record(rest: &mut [u8], c: u64, t: u64, b: u64, o: u64) -> Result<usize, u32> {
    write_record_with(Rules::BASE, rest, [c, t, b, o])
}

fn read_number(bytes: &[u8], position: usize) -> Option<(u64, usize)> {
    number::read_number(bytes, position, number::MAX_NUMBER)
}

#[test]
fn numbers_as_in_the_paper() {
    assert_eq!(number_bytes(127), [0x7F]);
    assert_eq!(number_bytes(128), [0x81, 0x00]);
    assert_eq!(read_number(&[0x81, 0x00], 0), Some((128, 2)));
}

#[test]
fn numbers_round_trip_at_every_length() {
    for bits in 0..32 {
        for value in [(1u64 << bits) - 1, 1 << bits, (1 << bits) + 1] {
            let bytes = number_bytes(value);
            assert_eq!(read_number(&bytes, 0), Some((value, bytes.len())));
            assert_eq!(read_number(&bytes[..bytes.len() - 1], 0), None);
            let mut padded = vec![0x80];
            padded.extend(&bytes);
            assert_eq!(read_number(&padded, 0), None);
        }
    }
    assert_eq!(number_bytes((1 << 63) - 1).len(), 9);
}

#[test]
fn numbers_out_of_size() {
    assert_eq!(
        read_number(&[0x8F, 0xFF, 0xFF, 0xFF, 0x7F], 0),
        Some((4_294_967_295, 5))
    );
    assert_eq!(read_number(&[0x90, 0x80, 0x80, 0x80, 0x00], 0), None);
    assert_eq!(read_number(&[0x81, 0x80, 0x80, 0x80, 0x80, 0x00], 0), None);
    assert_eq!(read_number(&[], 0), None);
    assert_eq!(read_number(&[1], 1), None);
    assert_eq!(read_number(&[0x80], 0), None);
}

#[test]
fn the_largest_record_has_12_bytes() {
    let mut rest = [0xEE; 13];
    let written = write_record(&mut rest, 2_000_000_000, 100_000_000, 256, 1);
    assert_eq!(written, Ok(12));
    assert_eq!(rest[12], 0xEE);
    let record = read_record(&rest, 0).unwrap();
    assert_eq!(record.clock, 2_000_000_000);
    assert_eq!(record.transaction, 100_000_000);
    assert_eq!((record.block, record.outcome, record.next), (256, 1, 12));
}

#[test]
fn the_writer_asks_ranges_then_room() {
    let mut rest = [0xEE; 4];
    assert_eq!(write_record(&mut rest, 0, 1, 1, 0), Ok(4));
    assert_eq!(rest, [0, 1, 1, 0]);
    let mut rest = [0xEE; 3];
    assert_eq!(write_record(&mut rest, 0, 1, 1, 0), Err(33));
    let out = [
        (2_000_000_001, 1, 1, 0),
        (0, 0, 1, 0),
        (0, 100_000_001, 1, 0),
        (0, 1, 0, 0),
        (0, 1, 257, 0),
        (0, 1, 1, 2),
        (u64::MAX, u64::MAX, u64::MAX, u64::MAX),
    ];
    for (clock, transaction, block, outcome) in out {
        assert_eq!(
            write_record(&mut rest, clock, transaction, block, outcome),
            Err(32)
        );
        assert_eq!(
            write_record(&mut [0; 20], clock, transaction, block, outcome),
            Err(32)
        );
    }
    assert_eq!(rest, [0xEE; 3]);
}

#[test]
fn the_reader_asks_number_by_number() {
    assert_eq!(read_record(&[], 0), Err(30));
    assert_eq!(read_record(&[0, 1, 1, 0], 4), Err(30));
    assert_eq!(read_record(&[0, 1, 1, 0], usize::MAX), Err(30));
    assert_eq!(read_record(&[0], 0), Err(31));
    assert_eq!(read_record(&[0, 1], 0), Err(31));
    assert_eq!(read_record(&[0, 1, 1], 0), Err(31));
    assert_eq!(read_record(&[0x80, 0], 0), Err(31));
    // 32 comes before a bad number further on.
    assert_eq!(read_record(&[0, 0], 0), Err(32));
    assert_eq!(read_record(&[0, 0, 0x80], 0), Err(32));
    assert_eq!(read_record(&[0, 1, 0], 0), Err(32));
    assert_eq!(read_record(&[0, 1, 0x82, 0x01], 0), Err(32)); // block 257
    assert_eq!(read_record(&[0, 1, 1, 2], 0), Err(32));
    assert_eq!(read_record(&number_bytes(2_000_000_001), 0), Err(32));
    let mut bytes = vec![0];
    bytes.extend(number_bytes(100_000_001));
    assert_eq!(read_record(&bytes, 0), Err(32));
}

#[test]
fn a_refusal_leaves_the_position() {
    let bytes = [0, 1, 1, 0, 5, 1, 2, 1, 6, 0, 1, 1];
    let mut reader = TraceReader::with(Rules::BASE, &bytes);
    assert_eq!(reader.next_record().unwrap().clock, 0);
    assert_eq!(reader.next_record().unwrap().outcome, 1);
    assert_eq!(reader.position, 8);
    assert_eq!(reader.next_record(), Err(32));
    assert_eq!(reader.next_record(), Err(32));
    assert_eq!(reader.position, 8);
}

#[test]
fn bytes_below_80_are_counted_over_all_lent_bytes() {
    assert_eq!(count_low(&[]), 0);
    let bytes = [0, 1, 0x7F, 0x80, 0xFF, 0x81, 0];
    let mut reader = TraceReader::with(Rules::BASE, &bytes);
    assert_eq!(reader.count_low_bytes(), 4);
    reader.position = 5;
    assert_eq!(reader.count_low_bytes(), 4);
}

#[test]
fn the_count_of_a_row_is_that_of_its_parts() {
    for byte in 0..=255 {
        assert_eq!(count_low(&[byte]), u64::from(byte < 0x80));
    }
    let mut random = Random::new(81);
    for length in 0..400 {
        let bytes = low_and_high(&mut random, length);
        assert_eq!(bytes.len(), length);
        for at in [0, length / 3, length.saturating_sub(1)] {
            let (front, back) = bytes.split_at(at);
            assert_eq!(count_low(&bytes), count_low(front) + count_low(back));
        }
        let high = bytes.iter().map(|byte| u64::from(byte >> 7)).sum::<u64>();
        assert_eq!(count_low(&bytes) + high, length as u64);
    }
}
