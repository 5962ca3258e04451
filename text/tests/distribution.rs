//! The text form of distributions.

use modeltext::distribution::{self, arguments, Drawn, Form};
use modeltext::shape::Shape;
use modeltext::Fault;

/// A text beside which lies one file.
fn read(text: &str) -> Result<Vec<Drawn>, Vec<Fault>> {
    distribution::read(text, &|name| match name {
        "measured.txt" => Ok("* seconds\n3\n 2.5 ; the first\n\n10\n".to_string()),
        "empty.txt" => Ok("* nothing\n".to_string()),
        "words.txt" => Ok("3\nfour\n".to_string()),
        "two.txt" => Ok("3 4\n".to_string()),
        _ => Err("no such file".to_string()),
    })
}

#[test]
fn three_forms() {
    let text = "* a study\narrivals: spread 12.5 +- 4, 200 times ; each quarter\n\nstays: curve 0:1 0.5:3 1:10, 7 times\nwalk: fixed 7 , 1 time\n";
    let lists = read(text).unwrap();
    let names: Vec<&str> = lists.iter().map(|list| list.name.as_str()).collect();
    assert_eq!(names, ["arrivals", "stays", "walk"]);
    assert_eq!(lists[0].form, Form::Spread(12.5, 4.0));
    assert_eq!(
        lists[1].form,
        Form::Curve(vec![(0.0, 1.0), (0.5, 3.0), (1.0, 10.0)])
    );
    let columns: Vec<u32> = lists[1].places.iter().map(|at| at.column).collect();
    assert_eq!(
        (columns, lists[1].count_at.column),
        (vec![14, 16, 18, 22, 24, 26], 30)
    );
    assert_eq!(
        arguments(&lists),
        (
            vec![1, 200, 0, 0, 2, 7, 2, 3, 0, 1, 8, 0],
            vec![12.5, 4.0, 0.0, 1.0, 0.5, 3.0, 1.0, 10.0, 7.0]
        )
    );
}

#[test]
fn faults_have_places() {
    let cases = [
        ("arrivals", 1, "`:` is expected"),
        ("2: fixed 7, 1 times", 1, "name of a list"),
        ("a: fixed 7", 11, "count of times is missing"),
        ("a: fixed 7, many times", 13, "`many` is no count"),
        ("a: fixed 7, 3", 13, "count of times is expected"),
        ("a: gauss 7, 3 times", 4, "a distribution is expected"),
        ("a: , 3 times", 4, "a distribution is expected"),
        ("a: normal 7, 3 times", 4, "`normal` takes MEAN SD"),
        (
            "a: exponential 7 4, 3 times",
            18,
            "`exponential` takes MEAN",
        ),
        ("a: spread 7 4, 3 times", 4, "`spread` takes MEAN +- HALF"),
        ("a: fixed nan, 3 times", 10, "`nan` is no number"),
        ("a: fixed 1e3, 3 times", 10, "`1e3` is no number"),
        ("a: curve 0:1 7, 3 times", 14, "`7` has no `:`"),
        ("a: exponential -3, 3 times", 16, "-3 is below 0"),
        ("a: exponential 0, 3 times", 16, "the mean is more than 0"),
        ("a: exponential 1e3, 3 times", 16, "`1e3` is no number"),
        ("a: exponential ., 3 times", 16, "`.` is no number"),
        ("a: exponential 1.2.3, 3 times", 16, "`1.2.3` is no number"),
        (
            "a: exponential 90000, 3 times",
            16,
            "the longest time of the curve would be 1029",
        ),
        (
            "a: exponential 2000000, 3 times",
            16,
            "a time of a distribution is at most 1000000",
        ),
        (
            "a: exponential 99999999999, 3 times",
            16,
            "a number of a distribution is at most 1000000",
        ),
        ("a: normal 20 10.5, 3 times", 14, "at most half its mean"),
        (
            "a: lognormal 20 61, 3 times",
            17,
            "at most three times its mean",
        ),
        ("a: erlang 0 20, 3 times", 11, "1 to 100 phases"),
        ("a: erlang 2.5 20, 3 times", 11, "`2.5` is no whole number"),
        ("a: erlang 3 0, 3 times", 13, "the mean is more than 0"),
        ("a: weibull 0.4 20, 3 times", 12, "at least 0.5"),
        (
            "a: triangular 4 3 12, 3 times",
            17,
            "rise: least, most frequent, most",
        ),
        (
            "a: triangular 4 6 5, 3 times",
            19,
            "rise: least, most frequent, most",
        ),
        ("a: uniform 5 4, 3 times", 14, "4 is below 5"),
        ("a: uniform 5 1000000, 3 times", 14, "at most 999999"),
        ("a: uniform 1.5 4, 3 times", 12, "`1.5` is no whole number"),
        (
            "a: discrete 0:0.7 1:0.2, 3 times",
            21,
            "sum to 1, and here to 0.9",
        ),
        (
            "a: discrete 1:0.7 1:0.3, 3 times",
            19,
            "rise, and here 1 follows 1",
        ),
        ("a: discrete 0:1 1:0, 3 times", 19, "at least 1/65536"),
        ("a: discrete 0, 3 times", 13, "`0` has no `:`"),
        (
            "a: empirical none.txt, 3 times",
            14,
            "`none.txt` cannot be read: no such file",
        ),
        (
            "a: fixed 7, 3 times, 4 times",
            22,
            "stands behind the distribution already",
        ),
        (
            "a: fixed 7, times 0, 4 times",
            19,
            "a whole number from 1 to 10000000000",
        ),
        (
            "a: fixed 7, times 2000000000, 4 times",
            19,
            "7 x 2000000000",
        ),
        (
            "a: fixed 7, 4 times, stream 0",
            29,
            "stream 0 is the tape's own",
        ),
        ("a: fixed 7, 4 times, stream 512", 29, "from 1 to 511"),
        ("a: curve 0:1 1:x, 3 times", 16, "`x` is no number"),
    ];
    for (text, column, what) in cases {
        let faults = read(text).unwrap_err();
        assert_eq!((faults.len(), faults[0].at.column), (1, column), "{text}");
        assert!(faults[0].what.contains(what), "{text}: {}", faults[0].what);
    }
}

#[test]
fn a_line_without_a_name_goes_on() {
    let text = "a: curve 0:1\n* half\n   0.5:3\n   1:10\n   , 7 times\nb: fixed 2, 1 time\n";
    let lists = read(text).unwrap();
    assert_eq!(lists.len(), 2);
    assert_eq!(
        lists[0].form,
        Form::Curve(vec![(0.0, 1.0), (0.5, 3.0), (1.0, 10.0)])
    );
    let places = |text: &str| -> Vec<(u32, u32)> {
        let faults = read(text).unwrap_err();
        faults.iter().map(|f| (f.at.line, f.at.column)).collect()
    };
    assert_eq!(places("a: curve 0:1\n 0.5:x 1:10, 7 times"), [(2, 6)]);
    assert_eq!(places("a: curve 0:1\n 1:10"), [(2, 6)]);
    // what goes on with a line that is wrong is not told again
    assert_eq!(
        places("?: curve 0:1\n 1:x, 7 times\nb: fixed"),
        [(1, 1), (3, 4)]
    );
    assert_eq!(places("1:10, 7 times"), [(1, 1)]);
}

#[test]
fn a_file_of_measured_times() {
    let lists = read("a: empirical measured.txt, 3 times").unwrap();
    let half = |ticks: i128| ticks << 31;
    assert_eq!(
        lists[0].shape,
        Some(Shape::Empirical(vec![half(5), half(6), half(20)]))
    );
    // 2.5 and 3 both round to 3 ticks
    assert_eq!(
        lists[0].form,
        Form::Curve(vec![
            (0.0, 3.0),
            (43_690.0 / 65_536.0, 3.0),
            (43_691.0 / 65_536.0, 10.0),
            (1.0, 10.0)
        ])
    );
    for (file, line, column, what) in [
        ("empty.txt", 1, 1, "no measured time"),
        ("words.txt", 2, 1, "`four` is no number"),
        ("two.txt", 1, 3, "one measured time"),
    ] {
        let fault = &read(&format!("a: empirical {file}, 3 times")).unwrap_err()[0];
        assert_eq!(fault.file.as_deref(), Some(file));
        assert_eq!((fault.at.line, fault.at.column), (line, column));
        assert!(fault.what.contains(what), "{fault}");
    }
}

#[test]
fn behind_a_distribution() {
    let text = "a: exponential 20, times 60000, 5 times, stream 3\nb: fixed 7, stream 4, 2 times\n";
    let lists = read(text).unwrap();
    assert_eq!(
        (lists[0].factor, lists[0].count, lists[0].stream),
        (60_000, 5, Some(3))
    );
    assert_eq!(
        (lists[1].factor, lists[1].count, lists[1].stream),
        (1, 2, Some(4))
    );
    // what is resolved reads back
    let again: Vec<String> = lists.iter().flat_map(Drawn::resolved).collect();
    assert!(again.iter().all(|line| line.len() <= 100));
    let again = read(&again.join("\n")).unwrap();
    for (one, other) in lists.iter().zip(&again) {
        assert_eq!(
            (&one.name, &one.form, one.count, one.factor, one.stream),
            (
                &other.name,
                &other.form,
                other.count,
                other.factor,
                other.stream
            )
        );
    }
    let faults = read("a: fixed 7, 1 time, stream 4\nb: fixed 7, 1 time, stream 4").unwrap_err();
    assert!(faults[0].what.contains("`a` has stream 4 already"));
    assert_eq!(faults[0].at.line, 2);
}

#[test]
fn a_u_is_rounded_and_told() {
    let lists = read("a: curve 0:1 0.9:3 0.5:4 1:4, 3 times").unwrap();
    let Form::Curve(points) = &lists[0].form else {
        panic!()
    };
    assert_eq!(points[1].0, 58_982.0 / 65_536.0);
    assert_eq!(
        lists[0].notes,
        ["u counts in 65,536ths: `a` takes 0.9 as 0.899993896484375"]
    );
}

#[test]
fn each_u_gives_a_whole_part() {
    let times = |text: &str| read(&format!("a: {text}, 1 time")).unwrap()[0].form.times();
    let count = |times: &[u64], of: u64| times.iter().filter(|t| **t == of).count();
    let dice = times("uniform 1 6");
    assert_eq!((dice.len(), dice[0], dice[65_535]), (65_536, 1, 6));
    for face in 1..=6 {
        assert!((10_922..=10_923).contains(&count(&dice, face)));
    }
    let coin = times("discrete 0:0.7 1:0.3");
    assert_eq!((count(&coin, 0), count(&coin, 1)), (45_875, 19_661));
    assert_eq!(times("fixed 7.5")[3], 7);
    // half a tick is not added to what is asked for as a spread
    assert_eq!(times("spread 3 +- 2").iter().sum::<u64>(), 163_840);
    assert_eq!(times("uniform 1 5").iter().sum::<u64>(), 196_606);
    assert!(times("normal 20 0").iter().all(|t| *t == 20));
}
