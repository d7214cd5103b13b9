//! Pieces of an image as a phone might have written it, sound or not.

/// The kinds of container: eight bytes by a third byte of 0, four bytes, and
/// eight bytes by E2.
pub const EIGHT_BY_ZERO: &[u8] = &[0xE1, 0x40, 0x00, 0x01, 0x00, 0x00, 0x03, 0xFF];
pub const FOUR: &[u8] = &[0xE1, 0x40, 0x01, 0x00];
pub const EIGHT: &[u8] = &[0xE2, 0x40, 0x00, 0x01, 0x00, 0x00, 0x03, 0xFF];
pub const HEADS: [&[u8]; 3] = [EIGHT_BY_ZERO, FOUR, EIGHT];

/// Flags of a record's header (document 01, "Bytes from a phone" and "Bytes of
/// an image").
pub const LAST: u8 = 0x40;
pub const SHORT: u8 = 0x10;
pub const HAS_ID: u8 = 0x08;

/// The block type that holds a message, and the one that ends the blocks.
pub const MESSAGE: u8 = 0x03;
pub const END: u8 = 0xFE;

/// What a record says of itself, and the bytes that follow, which need not be
/// as many as it says.
#[derive(Copy, Clone)]
pub struct Claim<'a> {
    pub header: u8,
    pub kind: u8,
    pub payload: u32,
    pub id: u8,
    pub body: &'a [u8],
}

impl Claim<'_> {
    /// The header decides how the lengths are written, and whether the id's is.
    pub fn bytes(&self) -> Vec<u8> {
        let mut bytes = vec![self.header, self.kind];
        if self.header & SHORT != 0 {
            bytes.push(self.payload as u8);
        } else {
            bytes.extend_from_slice(&self.payload.to_be_bytes());
        }
        if self.header & HAS_ID != 0 {
            bytes.push(self.id);
        }
        bytes.extend_from_slice(self.body);
        bytes
    }
}

/// A record that keeps what it claims.
pub fn record(header: u8, kind: &[u8], id: &[u8], payload: &[u8]) -> Vec<u8> {
    let id = if header & HAS_ID != 0 { id } else { &[] };
    Claim {
        header,
        kind: kind.len() as u8,
        payload: payload.len() as u32,
        id: id.len() as u8,
        body: &[kind, id, payload].concat(),
    }
    .bytes()
}

/// A block with its length in the form it belongs in.
pub fn block(kind: u8, body: &[u8]) -> Vec<u8> {
    if body.len() < 255 {
        return [&[kind, body.len() as u8], body].concat();
    }
    long_block(kind, body)
}

/// A block with FF and two bytes of length, whatever the length.
pub fn long_block(kind: u8, body: &[u8]) -> Vec<u8> {
    let [high, low] = (body.len() as u16).to_be_bytes();
    [&[kind, 0xFF, high, low], body].concat()
}
