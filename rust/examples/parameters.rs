//! Limits as transport parameters, and back (RFC 9000, section 18): a stack carries these six in its handshake, beside its own.

use gotsavena::{PeerLimits, Settings, read_varint, write_varint};

const MAX_DATA: u64 = 0x04;
const BIDI_LOCAL: u64 = 0x05;
const BIDI_REMOTE: u64 = 0x06;
const UNI: u64 = 0x07;
const STREAMS_BIDI: u64 = 0x08;
const STREAMS_UNI: u64 = 0x09;

/// The parameters in which an endpoint sends the limits that it grants.
pub fn written(limits: &PeerLimits) -> Vec<u8> {
    let six = [
        (MAX_DATA, limits.max_data),
        (BIDI_LOCAL, limits.bidi_local),
        (BIDI_REMOTE, limits.bidi_remote),
        (UNI, limits.uni),
        (STREAMS_BIDI, limits.streams_bidi),
        (STREAMS_UNI, limits.streams_uni),
    ];
    let mut out = Vec::new();
    for (id, value) in six {
        let mut bytes = [0; 8];
        let len = write_varint(value, &mut bytes).expect("limits are below 2^62");
        put(&mut out, id);
        put(&mut out, len as u64);
        out.extend(&bytes[..len]);
    }
    out
}

fn put(out: &mut Vec<u8>, value: u64) {
    let mut bytes = [0; 8];
    let len = write_varint(value, &mut bytes).expect("identifiers and lengths are small");
    out.extend(&bytes[..len]);
}

/// The limits that the peer's parameters grant. One that is left out is 0, and those of other identifiers are the stack's. `None` is a
/// TRANSPORT_PARAMETER_ERROR: something is cut short, isn't of its length, or comes twice (sections 7.4 and 18). `Endpoint::new` checks
/// the values themselves.
pub fn read(mut parameters: &[u8]) -> Option<PeerLimits> {
    let (mut limits, mut seen) = (PeerLimits::default(), Vec::new());
    while !parameters.is_empty() {
        let id = take_varint(&mut parameters)?;
        let len = usize::try_from(take_varint(&mut parameters)?).ok()?;
        let (value, rest) = parameters.split_at_checked(len)?;
        parameters = rest;
        if seen.contains(&id) {
            return None;
        }
        seen.push(id);
        let limit = match id {
            MAX_DATA => &mut limits.max_data,
            BIDI_LOCAL => &mut limits.bidi_local,
            BIDI_REMOTE => &mut limits.bidi_remote,
            UNI => &mut limits.uni,
            STREAMS_BIDI => &mut limits.streams_bidi,
            STREAMS_UNI => &mut limits.streams_uni,
            _ => continue,
        };
        let (number, taken) = read_varint(value)?;
        if taken != len {
            return None;
        }
        *limit = number;
    }
    Some(limits)
}

fn take_varint(bytes: &mut &[u8]) -> Option<u64> {
    let (value, len) = read_varint(bytes)?;
    *bytes = &bytes[len..];
    Some(value)
}

#[allow(dead_code)]
fn main() {
    let granted = Settings::default().limits();
    let sent = written(&granted);
    println!("{} bytes: {sent:02x?}", sent.len());
    println!("{:#?}", read(&sent).expect("they are ours"));
}
