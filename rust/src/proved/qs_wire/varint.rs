// Made from crates/qs_wire/src/varint.rt by rust/erase; not edited by hand.
use crate::proved::qs_wire::fault::FaultKind;
use crate::shim::byteorder::{BigEndian, ByteOrder};

/// The number at the front of the bytes and how many bytes it takes, or `None` where the bytes end
/// before it does.
#[inline]
pub fn read_varint(bytes: &[u8]) -> Option<(u64, usize)> {
    parse(bytes)
}

fn parse(bytes: &[u8]) -> Option<(u64, usize)> {
    match number_at(bytes) {
        Ok((value, after)) => Some((value, bytes.len() - after.len())),
        Err(_) => None,
    }
}

#[inline]
pub(crate) fn number_at(bytes: &[u8]) -> Result<(u64, &[u8]), FaultKind> {
    let Some((&first, after)) = bytes.split_first() else {
        return Err(FaultKind::Truncated);
    };
    // Each size cuts the bytes for itself, so that the bounds are tested once.
    if first < 0x40 {
        return Ok((u64::from(first), after));
    }
    if first < 0x80 {
        if bytes.len() < 2 {
            return Err(FaultKind::Truncated);
        }
        let (_, after) = bytes.split_at(2);
        return Ok((u64::from(BigEndian::read_u16(bytes)) & 0x3fff, after));
    }
    if first < 0xc0 {
        if bytes.len() < 4 {
            return Err(FaultKind::Truncated);
        }
        let (_, after) = bytes.split_at(4);
        return Ok((u64::from(BigEndian::read_u32(bytes)) & 0x3fff_ffff, after));
    }
    if bytes.len() < 8 {
        return Err(FaultKind::Truncated);
    }
    let (_, after) = bytes.split_at(8);
    Ok((BigEndian::read_u64(bytes) & 0x3fff_ffff_ffff_ffff, after))
}

/// How many bytes the shortest spelling takes.
#[inline]
pub fn varint_len(value: u64) -> usize {
    debug_assert!(value < 1 << 62);
    match value {
        0..=0x3f => 1,
        0x40..=0x3fff => 2,
        0x4000..=0x3fff_ffff => 4,
        _ => 8,
    }
}

/// Writes the shortest spelling at the front and returns its length. `None` if the number is 2^62 or more or doesn't fit; then nothing is
/// written.
#[inline]
pub fn write_varint(value: u64, out: &mut [u8]) -> Option<usize> {
    if value >= 1 << 62 {
        return None;
    }
    let len = varint_len(value);
    if out.len() < len {
        return None;
    }
    Some(spell(value, out))
}

#[inline]
pub(crate) fn spell(value: u64, out: &mut [u8]) -> usize {
    debug_assert!(value < 1 << 62);
    if value < 0x40 {
        out[0] = value as u8;
        return 1;
    }
    if value < 0x4000 {
        BigEndian::write_u16(out, 0x4000 + value as u16);
        return 2;
    }
    if value < 0x4000_0000 {
        BigEndian::write_u32(out, 0x8000_0000 + value as u32);
        return 4;
    }
    spell_long(value, out)
}

// Apart, so that the shorter sizes, which are most, stay small where they are called.
#[inline(never)]
fn spell_long(value: u64, out: &mut [u8]) -> usize {
    debug_assert!(1 << 30 <= value);
    debug_assert!(value < 1 << 62);
    BigEndian::write_u64(out, 0xc000_0000_0000_0000 + value);
    8
}
