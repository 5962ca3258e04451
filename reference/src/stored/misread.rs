//! Runs that tell the papers' words from a near misreading of them, each with what the papers give.

use super::first_example;
use crate::generate::Case;

/// Refusal, end, clock, turns, records, made, ended.
pub type Wanted = [u64; 7];

/// Each with the living, number and place.
pub fn cases() -> Vec<(Case, Wanted, Vec<(u64, u64)>)> {
    vec![
        // The first waits while nobody has entered the TERMINATE. The second enters it, which is end 2: "Unless that ends
        // the run, the WS scheme follows". So the first is still on the WSL, although its comparison no longer holds.
        (
            of(&[
                &[1, 0, 0, 0, 0, 1, 1, 4],
                &[1, 1, 0],              // GENERATE l1, 0
                &[10, 4, 1, 5, 0, 1, 4], // IF n$b1 > 1, b4
                &[9, 4, 4, 1, 0, 0],     // WAITIF n$b4 = 0
                &[3, 1],                 // TERMINATE 1
            ]),
            [0, 2, 2, 6, 6, 2, 1],
            vec![(1, 3)],
        ),
        // "terms are read before the block's own entry counts": the first gives its parameter 0 and the second 1.
        (
            of(&[
                &[1, 0, 0, 0, 0, 1, 2, 5],
                &[1, 1, 0],              // GENERATE l1, 0
                &[12, 1, 4, 2],          // LET p1 = n$b2
                &[10, 2, 1, 1, 0, 1, 5], // IF p1 = 1, b5
                &[3, 1],                 // TERMINATE 1
                &[3, 0],                 // TERMINATE 0
            ]),
            [0, 1, 2, 8, 8, 2, 2],
            vec![],
        ),
        // The same of a WAITIF: the first finds no entry and passes.
        (
            of(&[
                &[1, 0, 0, 0, 0, 1, 1, 3],
                &[1, 1, 0],          // GENERATE l1, 0
                &[9, 4, 2, 5, 0, 0], // WAITIF n$b2 > 0
                &[3, 1],             // TERMINATE 1
            ]),
            [0, 2, 1, 3, 3, 2, 1],
            vec![(2, 4)],
        ),
        spent_where_all_places_are_taken(),
        waits_at_a_server(),
        sixty_five_numbers(),
    ]
}

/// "A spent list makes none": the second asks for no living place at the GENERATE, where 1,024 live.
fn spent_where_all_places_are_taken() -> (Case, Wanted, Vec<(u64, u64)>) {
    let case = of(&[
        &[1, 1, 0, 0, 0, 1, 1, 9],
        &[1, 1, 0],              // GENERATE l1, 0
        &[10, 4, 1, 5, 0, 1, 9], // IF n$b1 > 1, b9
        &[14, 129, 127, 8],      // SPLIT 255, b8
        &[14, 129, 127, 8],
        &[14, 129, 127, 8],
        &[14, 129, 127, 8],
        &[14, 2, 8], // SPLIT 2, b8
        &[8, 2, 1],  // WAITIF f1 = NU
        &[3, 1],     // TERMINATE 1
    ]);
    let copies = (3..=1_024).map(|copy| (copy, 2));
    let living = std::iter::once((1, 2)).chain(copies).collect();
    (case, [0, 2, 2, 1_033, 1_033, 1_024, 1], living)
}

/// "After blocks 4 to 7 enter": the copy that must wait for the facility wakes nobody. So the facility's second entry wakes the
/// second of three, and two are put back.
fn waits_at_a_server() -> (Case, Wanted, Vec<(u64, u64)>) {
    let case = Case {
        tape: vec![3, 1, 0, 0, 1, 2],
        ..of(&[
            &[1, 1, 0, 0, 0, 2, 1, 9],
            &[1, 1, 0],  // GENERATE l1, 0
            &[8, 2, 1],  // WAITIF f1 = NU
            &[3, 0],     // TERMINATE 0
            &[1, 2, 1],  // GENERATE l2, 1
            &[14, 1, 6], // SPLIT 1, b6
            &[4, 1],     // SEIZE f1
            &[13, 1],    // PRIORITY 1
            &[5, 1],     // RELEASE f1
            &[3, 0],     // TERMINATE 0
        ])
    };
    (case, [0, 1, 2, 19, 17, 5, 2], vec![(1, 2), (3, 2), (4, 2)])
}

/// "so far within 64 numbers": a value of 65, its leading count among them.
fn sixty_five_numbers() -> (Case, Wanted, Vec<(u64, u64)>) {
    let six = [0, 0, 1].repeat(6);
    let bracket = [&[0, 11, 6][..], &six].concat();
    let case = of(&[
        &[1, 0, 0, 0, 1, 8],
        &[0, 10, 1, 0, 1, 0, 2],
        &bracket,
        &bracket,
        &[0, 0, 1].repeat(5),
        &[1, 1, 2],
        &[1, 1, 0], // GENERATE l1, 0
        &[3, 1],    // TERMINATE 1
    ]);
    (case, [5, 0, 0, 0, 0, 0, 0], vec![])
}

/// A model of these bytes on a tape of two times.
fn of(bytes: &[&[u8]]) -> Case {
    Case {
        model: bytes.concat(),
        tape: vec![2, 1, 1],
        ..first_example()
    }
}
