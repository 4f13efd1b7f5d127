//! A short day through the plain forwarder.

use bench::{Course, forward, latency};
use std::net::{Ipv4Addr, TcpListener, UdpSocket};
use std::thread;

/// So many listeners at ports in a row, and the first of these.
fn listeners(count: u16) -> (Vec<TcpListener>, u16) {
    let listen = |port| TcpListener::bind((Ipv4Addr::LOCALHOST, port)).ok();
    let row = |first: u16| -> Option<Vec<_>> { (first..first + count).map(listen).collect() };
    (20_000..30_000)
        .step_by(100)
        .find_map(|first| Some((row(first)?, first)))
        .unwrap()
}

/// A port for packets that is free.
fn free_port() -> u16 {
    let socket = UdpSocket::bind((Ipv4Addr::LOCALHOST, 0)).unwrap();
    socket.local_addr().unwrap().port()
}

#[test]
fn each_message_comes_and_has_its_time() {
    let (listeners, first_port) = listeners(3);
    let course = Course {
        first_port,
        lines: 3,
        ports: [free_port(), free_port()],
        rate: 2_000,
        messages: 1_000,
    };
    let figures = thread::scope(|scope| {
        let forwarding = scope.spawn(|| forward(listeners, course.ports));
        let figures = latency(&course).unwrap();
        forwarding.join().unwrap().unwrap();
        figures
    });
    assert_eq!((figures.nanos.len(), figures.lost), (1_000, 0));
    assert!(figures.within(500) <= figures.within(999));
    assert_eq!(figures.within(1_000), *figures.nanos.last().unwrap());
    assert!(figures.seconds >= 0.499, "{}", figures.seconds);
}
