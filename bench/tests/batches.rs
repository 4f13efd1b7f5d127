//! What a batch writes besides the answers of the worked rows: its report's rows, and what it says of odd input.

use bench::{Day, Kind, Matrix, Reports, Summary, Tape, batch};

const HEADER: &str = "symbol,who,open,open_at,high,high_at,low,low_at,last,last_at,volume,trades";

/// The batch's output by Matrix One, line by line: with a tape the same as without.
fn output(input: &str) -> Vec<String> {
    let [mut text, mut least] = [Vec::new(), Vec::new()];
    let kept = batch::<Tape>(Matrix::One, input.as_bytes(), &mut text).is_ok();
    let reported = batch::<Reports>(Matrix::One, input.as_bytes(), &mut least).is_ok();
    assert_eq!(reported, kept);
    assert_eq!(text, least);
    let text = String::from_utf8(text).unwrap();
    text.lines().map(String::from).collect()
}

/// A moment that tells a participant's messages apart.
fn moment(number: u32) -> u64 {
    34_200_000_000_000 + u64::from(number)
}

/// A message line from a kind, a participant, a number, a symbol and the bytes that the kind adds.
fn line(kind: char, who: char, number: u32, symbol: &str, rest: &[u8]) -> String {
    let mut body = vec![kind as u8, who as u8];
    body.extend(number.to_be_bytes());
    body.extend(moment(number).to_be_bytes());
    body.extend(format!("{symbol:8}").bytes());
    body.extend(rest);
    let digits: String = body.iter().map(|byte| format!("{byte:02x}")).collect();
    format!("{who} {:04x}{digits}", body.len())
}

fn content(price: u64, size: u32, condition: &str) -> Vec<u8> {
    [
        &price.to_be_bytes()[..],
        &size.to_be_bytes(),
        condition.as_bytes(),
    ]
    .concat()
}

fn report(who: char, number: u32, condition: &str, price: u64, size: u32) -> String {
    line('R', who, number, "AB", &content(price, size, condition))
}

fn cancel(who: char, number: u32, symbol: &str, target: u32) -> String {
    line('X', who, number, symbol, &target.to_be_bytes())
}

fn reinstate(who: char, number: u32, symbol: &str, target: u32) -> String {
    line('S', who, number, symbol, &target.to_be_bytes())
}

fn correct(who: char, number: u32, target: u32, price: u64) -> String {
    let rest = [&target.to_be_bytes()[..], &content(price, 100, "@   ")].concat();
    line('C', who, number, "AB", &rest)
}

/// Runs the messages over AB and CD and compares the answers and the rows of AB.
fn check(participants: &str, messages: &[String], answers: &[&str], rows: &[&str]) {
    let input = format!("AB CD\n{participants}\n{}", messages.join("\n"));
    let written = output(&input);
    let (told, report) = written.split_at(messages.len());
    assert_eq!(told, answers);
    assert_eq!(report[0], HEADER);
    assert_eq!(&report[1..report.len() - 1], rows);
    assert_eq!(report.last().unwrap(), "CD,ALL,,,,,,,,,0,0");
}

/// The day of the messages over AB and CD, with its tape.
fn day(participants: &str, messages: &[String]) -> Day<Tape> {
    let input = format!("AB CD\n{participants}\n{}", messages.join("\n"));
    batch(Matrix::One, input.as_bytes(), &mut Vec::new()).unwrap()
}

#[test]
fn an_empty_day_has_a_row_a_symbol() {
    check("N", &[], &[], &["AB,ALL,,,,,,,,,0,0"]);
}

#[test]
fn a_participant_without_a_report_that_stands_has_no_row() {
    let messages = [
        report('Q', 1, "@   ", 100_000, 100),
        report('N', 1, "@   ", 101_000, 100),
        report('Q', 2, "@ L ", 100_500, 100),
        cancel('N', 2, "AB", 1),
    ];
    let rows = [
        "AB,ALL,100000,1,100500,3,100000,1,100500,3,200,2",
        "AB,Q,100000,1,100500,3,100000,1,100500,3,200,2",
    ];
    check("N Q", &messages, &["1", "2", "3", "4"], &rows);
    let rows = [
        "AB,ALL,100000,1,101000,2,100000,1,101000,2,300,3",
        "AB,N,101000,2,101000,2,101000,2,101000,2,100,1",
        "AB,Q,100000,1,100500,3,100000,1,100500,3,200,2",
    ];
    check("N Q", &messages[..3], &["1", "2", "3"], &rows);
}

#[test]
fn a_carried_summary_is_the_row_of_its_moment() {
    let conditions = [
        "@   ", "@ L ", "@ Z ", "@4  ", "@  I", "@  M", "@9  ", "@F P",
    ];
    let mut messages = Vec::new();
    let mut carried = [0; 3];
    for number in 1..=200 {
        let mixed = number * 7_919 % 1_009;
        let who = ['N', 'P', 'Q'][mixed as usize % 3];
        let condition = conditions[mixed as usize / 3 % 8];
        let price = 100_000 + 100 * u64::from(mixed % 11);
        let target = 1 + mixed % number.min(20);
        messages.push(match mixed % 7 {
            0 => cancel(who, number, "AB", target),
            1 | 2 => reinstate(who, number, "AB", target),
            3 | 4 => correct(who, number, target, price),
            _ => report(who, number, condition, price, mixed),
        });
        let input = format!("AB\nN P Q\n{}", messages.join("\n"));
        let day = day("N P Q", &messages);
        let last = day.kept.entries.last();
        let Some((last, after)) = last.and_then(|last| Some((last, last.after?))) else {
            continue;
        };
        carried[match last.message.kind {
            Kind::Cancel { .. } => 0,
            Kind::Reinstate { .. } => 1,
            _ => 2,
        }] += 1;
        let row = output(&input)[messages.len() + 1].clone();
        assert_eq!(row, format!("AB,ALL,{}", figures(&after)), "{input}");
    }
    assert!(carried.iter().all(|count| *count >= 5), "{carried:?}");
}

/// The figures as a report's row has them.
fn figures(summary: &Summary) -> String {
    let marks = [summary.open, summary.high, summary.low, summary.last];
    let marks = marks.map(|mark| match mark {
        Some(mark) => format!("{},{}", mark.price, mark.place),
        None => ",".into(),
    });
    format!("{},{},{}", marks.join(","), summary.volume, summary.trades)
}

#[test]
fn the_first_fault_of_a_line_is_answered() {
    let whole = report('N', 1, "@ Z ", 100_000, 100);
    let digits = &whole[2..];
    let with = |at: usize, bytes: &str| {
        format!(
            "N {}{bytes}{}",
            &digits[..2 * at],
            &digits[2 * at + bytes.len()..]
        )
    };
    let mut cases: Vec<(String, &str)> = (0..40)
        .map(|bytes| (format!("N {}", &digits[..2 * bytes]), "refused 12 Short"))
        .collect();
    for bad in [
        "",
        "N",
        "n 00",
        "N 0",
        "N  00",
        "N 00\r",
        "N zz",
        "N \u{ff}\u{ff}",
    ] {
        cases.push((bad.into(), "refused 22 BadLine"));
    }
    cases.extend([
        (with(0, "0000"), "refused 11 Oversize"),
        (with(0, "0041"), "refused 11 Oversize"),
        ("N 0000".into(), "refused 11 Oversize"),
        (with(2, "5a"), "refused 13 BadKind"),
        (format!("{}00", with(0, "0027")), "refused 14 BadLength"),
        (with(3, "61"), "refused 15 BadParticipant"),
        (with(4, "00000000"), "refused 16 BadNumber"),
        (with(16, "4120422020202020"), "refused 17 BadSymbol"),
        (cancel('N', 1, "AB", 0), "refused 18 BadTarget"),
        (reinstate('N', 1, "AB", 0), "refused 18 BadTarget"),
        (with(24, "0000000000000000"), "refused 19 BadPrice"),
        (with(24, "000000e8d4a51000"), "refused 19 BadPrice"),
        (with(32, "05f5e100"), "refused 20 BadSize"),
        (with(36, "40452020"), "refused 21 BadCondition"),
        (format!("{whole}00"), "refused 23 ExtraBytes"),
        (format!("Q {digits}"), "refused 33 WrongLine"),
        (format!("Z {digits}"), "refused 33 WrongLine"),
        (
            report('Q', 1, "@   ", 100_000, 100),
            "refused 34 UnknownParticipant",
        ),
    ]);
    for (line, answer) in cases {
        assert_eq!(output(&format!("AB\nN\n{line}\n"))[0], answer, "{line:?}");
    }
}

#[test]
fn a_bad_header_is_the_only_line() {
    let symbols: Vec<String> = (0..4_097).map(|number| format!("S{number}")).collect();
    let too_many = format!("{}\nN", symbols.join(" "));
    let letters: Vec<String> = ('A'..='Z').chain(['A']).map(String::from).collect();
    let letters = format!("AB\n{}", letters.join(" "));
    for (input, answer) in [
        ("", "1 Empty"),
        ("AB", "1 Empty"),
        ("AB\n", "1 Empty"),
        ("AB\n\nN 00\n", "1 Empty"),
        ("\nN", "1 Empty"),
        ("ab", "9 BadHeader"),
        ("AB \nN", "9 BadHeader"),
        (" AB\nN", "9 BadHeader"),
        ("AB  CD\nN", "9 BadHeader"),
        (" \nN", "9 BadHeader"),
        ("A\tB\nN", "9 BadHeader"),
        ("AB\r\nN", "9 BadHeader"),
        ("ABCDEFGHI\nN", "9 BadHeader"),
        ("AB\nNQ", "9 BadHeader"),
        ("AB\nn", "9 BadHeader"),
        (&too_many, "2 TooMany"),
        (&letters, "2 TooMany"),
        ("AB AB\nN", "3 Repeated"),
        ("AB\nN N", "3 Repeated"),
    ] {
        assert_eq!(output(input), [format!("refused {answer}")], "{input:?}");
    }
}
