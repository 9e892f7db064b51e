//! Groups written, and read back.

use lunozhar::handshake::{self, Group, Kind};
use std::net::SocketAddrV4;

#[test]
fn written_groups_are_read_back() {
    let hosts: Vec<SocketAddrV4> = (0..32).map(|n| SocketAddrV4::new([255, 255, 255, 200 + n].into(), 65_535 - u16::from(n))).collect();
    let busy = handshake::busy(&hosts).unwrap();
    assert_eq!(busy.len(), 737);
    assert_eq!(handshake::hosts(&busy).unwrap(), hosts);
    let read = |bytes: &[u8]| handshake::read_group(bytes).unwrap();
    assert_eq!(read(&busy), Group { kind: Kind::Reply { code: 503 }, major: 0, minor: 6, used: 737 });
    assert_eq!(read(&handshake::ok()), Group { kind: Kind::Reply { code: 200 }, major: 0, minor: 6, used: 23 });
    assert_eq!(read(&handshake::greeting()), Group { kind: Kind::Greeting, major: 0, minor: 6, used: 24 });
    assert_eq!(handshake::hosts(&handshake::greeting()).unwrap(), []);
}

#[test]
fn fields_are_joined() {
    let group = b"GNUTELLA CONNECT/0.10\r\nA: x\r\nB: y\r\na: z\r\n  w\r\n\r\nA: more\r\n\r\n";
    assert_eq!(handshake::read_group(group).unwrap(), Group { kind: Kind::Greeting, major: 0, minor: 10, used: 48 });
    assert_eq!(handshake::field(group, "A").unwrap(), b"x,z w");
    assert_eq!(handshake::field(group, b"b").unwrap(), b"y");
}

#[test]
fn the_longest_value_is_read() {
    let group = [b"GNUTELLA CONNECT/0.6\r\nA: ".to_vec(), vec![b'x'; 4_067], b"\r\n\r\n".to_vec()].concat();
    assert_eq!(group.len(), 4_096);
    assert_eq!(handshake::field(&group, "A").unwrap(), vec![b'x'; 4_067]);
}
