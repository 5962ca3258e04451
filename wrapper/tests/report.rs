//! Bytes that are no report, and fronts of models that are none.

use covrith::{End, Header, Place, Refusal, Report};

fn header() -> Header {
    Header::read(&[1, 1, 1, 3, 1]).unwrap()
}

/// clock 300, made 2, ended 0, a facility, a storage, a queue, and two living
const REPORT: [u8; 22] = [
    0x82, 0x2C, 2, 0, 1, 2, 3, 4, 5, 6, 7, 8, 9, 10, 11, 12, 13, 2, 1, 4, 2, 6,
];

#[test]
fn a_report() {
    let report = Report::read(&REPORT, &header()).unwrap();
    assert_eq!((report.clock, report.made, report.ended), (300, 2, 0));
    assert_eq!(report.facilities[0].longest, 5);
    assert_eq!(report.storages[0].entries, 6);
    assert_eq!(report.queues[0].content_ticks, 12);
    let places: Vec<Place> = report.living.iter().map(|one| one.place).collect();
    assert_eq!(places, [Place::Fel, Place::Moving]);
}

#[test]
fn no_report() {
    for cut in 0..REPORT.len() {
        let position = if cut == 1 { 0 } else { cut };
        assert_eq!(
            Report::read(&REPORT[..cut], &header())
                .unwrap_err()
                .position,
            position
        );
    }
    let longer = [&REPORT[..], &[0]].concat();
    assert_eq!(
        Report::read(&longer, &header()).unwrap_err().position,
        REPORT.len()
    );
    let mut nowhere = REPORT;
    nowhere[19] = 0x7F;
    assert!(Report::read(&nowhere, &header()).is_err());
    let mut many = REPORT.to_vec();
    many.splice(17..18, [0xFF; 8].into_iter().chain([0x7F]));
    assert!(Report::read(&many, &header()).is_err()); // 2^63 - 1 living and the bytes of two
    assert!(Report::read(&[0x80, 0x01], &header()).is_err());
    assert!(Report::read(&[0xFF; 10], &header()).is_err());
}

#[test]
fn fronts_of_models() {
    for (bytes, refusal) in [
        (&[][..], Refusal::ModelNumber),
        (&[0], Refusal::ModelRange),
        (&[1], Refusal::ModelNumber),
        (&[0x80, 1], Refusal::ModelNumber),
        (&[1, 0x90, 0x80, 0x80, 0x80, 0x00], Refusal::ModelNumber),
        (
            &[1, 0x81, 0x80, 0x80, 0x80, 0x80, 0x00],
            Refusal::ModelNumber,
        ),
        (&[1, 33], Refusal::ModelRange),
        (&[1, 0, 1, 0], Refusal::ModelRange),
        (&[1, 0, 1, 0x84, 0x80, 0x00], Refusal::ModelRange),
        (&[1, 0, 1, 1], Refusal::ModelNumber),
        (&[1, 0, 1, 1, 33], Refusal::ModelRange),
    ] {
        assert_eq!(Header::read(bytes), Err(refusal), "{bytes:?}");
    }
}

#[test]
fn numbers() {
    for number in 0..100 {
        assert_eq!(End::of(number).map_or(number, End::number), number);
        assert_eq!(Refusal::of(number).map_or(number, Refusal::number), number);
    }
    assert_eq!(format!("{:>4}", Place::Ql), "  QL");
}
