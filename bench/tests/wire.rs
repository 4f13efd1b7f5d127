//! A stored day over two ports.

use bench::{Rest, wire};
use std::time::Duration;

#[test]
fn each_line_has_an_end_and_packets_come() {
    let rest = Rest {
        packets: 16,
        time: Duration::from_millis(1),
    };
    let day = include_bytes!("../../tests/days/stored-day.txt");
    let figures = wire(day, Some(rest)).unwrap();
    assert_eq!((figures.entries, figures.packets), (20_000, 2_500));
    // A busy machine may lose some, but not all.
    assert!(figures.lost < figures.entries, "{} lost", figures.lost);
}
