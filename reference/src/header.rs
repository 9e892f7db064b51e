//! The message header: number, type, TTL, Hops and payload length in 23 bytes (document 002, 2.2.1).

/// Bytes of a header.
pub const BYTES: usize = 23;
/// The longest payload.
pub const PAYLOAD: usize = 4096;

pub const PING: u8 = 0x00;
pub const PONG: u8 = 0x01;
pub const UPDATE: u8 = 0x30;
pub const QUERY: u8 = 0x80;
pub const HIT: u8 = 0x81;

/// A header that was read.
#[derive(Clone, Copy, Debug, PartialEq, Eq)]
pub struct Header {
    pub number: [u8; 16],
    pub kind: u8,
    pub ttl: u8,
    pub hops: u8,
    pub payload: u32,
}

/// Reads the header at the start of `bytes`, if so many are there.
#[inline]
pub fn read(bytes: &[u8]) -> Option<Header> {
    let bytes = bytes.get(..BYTES)?;
    let payload = u32::from_le_bytes([bytes[19], bytes[20], bytes[21], bytes[22]]);
    let number = bytes[..16].try_into().ok()?;
    Some(Header { number, kind: bytes[16], ttl: bytes[17], hops: bytes[18], payload })
}

/// Writes a header into the first 23 bytes of `out`.
#[inline]
pub fn write(out: &mut [u8], number: &[u8; 16], kind: u8, ttl: u8, hops: u8, payload: usize) {
    let out = &mut out[..BYTES];
    out[..16].copy_from_slice(number);
    out[16] = kind;
    out[17] = ttl;
    out[18] = hops;
    out[19..].copy_from_slice(&(payload as u32).to_le_bytes());
}

/// A whole message.
pub fn message(number: &[u8; 16], kind: u8, ttl: u8, hops: u8, payload: &[u8]) -> Vec<u8> {
    let mut bytes = vec![0; BYTES];
    write(&mut bytes, number, kind, ttl, hops, payload.len());
    bytes.extend(payload);
    bytes
}
