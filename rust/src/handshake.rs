//! The handshake: groups of lines that open a connection, read and written.
//!
//! A group is a greeting or a reply and its fields, each on a line, up to an empty line. Bytes behind it are not looked at.

use crate::raw::{self, Pair, Pairs, Written};
use crate::refusal::{checked, checked_using};
use crate::{boundary, Refusal, Refused};
use std::net::SocketAddrV4;

/// The longest group, which is also longer than any field's value.
const GROUP: usize = 4_096;

/// The longest reply that names hosts: 32 of 21 bytes with the commas between them.
const BUSY: usize = 34 + 32 * 21 + 31;

/// What a group's first line says.
#[derive(Clone, Copy, Debug, PartialEq, Eq)]
pub enum Kind {
    /// `GNUTELLA CONNECT/0.6`
    Greeting,
    /// `GNUTELLA/0.6 200 OK`, with whatever code and text.
    Reply {
        /// The status code: 200 takes the connection.
        code: u32,
    },
}

/// A group that was read.
#[derive(Clone, Copy, Debug, PartialEq, Eq)]
pub struct Group {
    /// Greeting or reply.
    pub kind: Kind,
    /// The version before the dot.
    pub major: u32,
    /// The version behind the dot. The version is 0.6 or later.
    pub minor: u32,
    /// The group's length: what comes behind is the next group, or messages.
    pub used: usize,
}

/// Reads the group at the front of the bytes.
///
/// # Errors
///
/// [`Refusal::NotWhole`] where the group's end is not there yet; [`Refusal::NoGroupEnd`] where 4,096 bytes have none; [`Refusal::BadHandshake`].
///
/// ```
/// use lunozhar::handshake::{self, Kind};
/// use lunozhar::Refusal;
///
/// let bytes = b"GNUTELLA/0.6 200 OK\r\nUser-Agent: Station/1.0\r\n\r\nmore";
/// let group = handshake::read_group(bytes)?;
/// assert_eq!((group.kind, group.major, group.minor), (Kind::Reply { code: 200 }, 0, 6));
/// assert_eq!(&bytes[group.used..], b"more");
/// assert_eq!(handshake::read_group(&bytes[..40]).unwrap_err().refusal, Refusal::NotWhole);
/// # Ok::<(), lunozhar::Refused>(())
/// ```
pub fn read_group(bytes: &[u8]) -> Result<Group, Refused> {
    let group = boundary::read_group(bytes);
    checked_using(group.answer, group.used)?;
    let kind = if group.kind == raw::KIND_GREETING { Kind::Greeting } else { Kind::Reply { code: group.code } };
    Ok(Group { kind, major: group.major, minor: group.minor, used: group.used })
}

/// The value of a field of the group at the front of the bytes, whatever the name's case. Values of equal names are joined by commas.
///
/// # Errors
///
/// As for [`read_group`], and [`Refusal::NotFound`] where the group has no such field.
///
/// ```
/// use lunozhar::handshake;
///
/// let bytes = b"GNUTELLA CONNECT/0.6\r\nUser-Agent: Station/1.0\r\n\r\n";
/// assert_eq!(handshake::field(bytes, "user-agent")?, b"Station/1.0");
/// # Ok::<(), lunozhar::Refused>(())
/// ```
pub fn field(bytes: &[u8], name: impl AsRef<[u8]>) -> Result<Vec<u8>, Refused> {
    let mut value = vec![0; GROUP];
    let asked = boundary::read_field(bytes, name.as_ref(), &mut value);
    checked_using(asked.answer, asked.used)?;
    value.truncate(asked.written);
    Ok(value)
}

/// The first 32 hosts of the X-Try field of the group at the front of the bytes; none where it has no such field.
///
/// # Errors
///
/// As for [`read_group`], and [`Refusal::BadPayload`] where any host is wrong, also one behind the 32nd.
///
/// ```
/// use lunozhar::handshake;
///
/// let bytes = b"GNUTELLA/0.6 503 Busy\r\nX-Try: 192.0.2.1:6346, 192.0.2.2:6347\r\n\r\n";
/// let hosts = handshake::hosts(bytes)?;
/// assert_eq!(hosts[1], "192.0.2.2:6347".parse().unwrap());
/// # Ok::<(), lunozhar::Refused>(())
/// ```
pub fn hosts(bytes: &[u8]) -> Result<Vec<SocketAddrV4>, Refused> {
    let hosts = boundary::read_hosts(bytes);
    checked_using(hosts.answer, hosts.used)?;
    let pairs = hosts.pairs.pairs.iter().take(hosts.pairs.count);
    Ok(pairs.map(|pair| SocketAddrV4::new(pair.address.into(), pair.port)).collect())
}

/// What a writer writes to an area of so many bytes.
fn written(area: usize, write: impl FnOnce(&mut [u8]) -> Written) -> Result<Vec<u8>, Refusal> {
    let mut out = vec![0; area];
    let told = write(&mut out);
    checked(told.answer)?;
    out.truncate(told.written);
    Ok(out)
}

/// The greeting.
///
/// ```
/// assert_eq!(lunozhar::handshake::greeting(), b"GNUTELLA CONNECT/0.6\r\n\r\n");
/// ```
pub fn greeting() -> Vec<u8> {
    written(GROUP, boundary::write_greeting).expect("the area is long enough")
}

/// The reply that takes a connection.
///
/// ```
/// assert_eq!(lunozhar::handshake::ok(), b"GNUTELLA/0.6 200 OK\r\n\r\n");
/// ```
pub fn ok() -> Vec<u8> {
    written(GROUP, boundary::write_ok).expect("the area is long enough")
}

/// The reply that turns a connection away and names up to 32 other hosts.
///
/// # Errors
///
/// [`Refusal::BadPayload`] for more than 32 hosts, or a port 0.
///
/// ```
/// use lunozhar::handshake;
///
/// let hosts = ["192.0.2.1:6346".parse().unwrap()];
/// assert_eq!(handshake::busy(&hosts)?, b"GNUTELLA/0.6 503 Busy\r\nX-Try: 192.0.2.1:6346\r\n\r\n");
/// assert_eq!(handshake::busy(&[])?, b"GNUTELLA/0.6 503 Busy\r\n\r\n");
/// # Ok::<(), lunozhar::Refusal>(())
/// ```
pub fn busy(hosts: &[SocketAddrV4]) -> Result<Vec<u8>, Refusal> {
    let mut pairs = Pairs { count: hosts.len(), ..Pairs::default() };
    for (pair, host) in pairs.pairs.iter_mut().zip(hosts) {
        *pair = Pair { address: host.ip().octets(), port: host.port() };
    }
    written(BUSY, |out| boundary::write_busy(pairs, out))
}
