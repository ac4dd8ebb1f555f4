// Made from crates/qs_wire/src/fields.rt by rust/erase; not edited by hand.
use crate::proved::qs_wire::fault::FaultKind;
use crate::proved::qs_wire::frame::EcnCounts;
use crate::proved::qs_wire::varint::number_at;

#[inline]
pub(crate) fn plain_at(len: u64, bytes: &[u8]) -> Result<(&[u8], &[u8]), FaultKind> {
    if (bytes.len() as u64) < len {
        return Err(FaultKind::Truncated);
    }
    Ok(bytes.split_at(len as usize))
}

#[inline]
pub(crate) fn counted_at(bytes: &[u8]) -> Result<(&[u8], &[u8]), FaultKind> {
    let (len, rest) = number_at(bytes)?;
    plain_at(len, rest)
}

/// Judged as soon as the length is read, since the bytes that follow can't be counted with it.
#[inline]
pub(crate) fn identifier_at(bytes: &[u8]) -> Result<(&[u8], &[u8]), FaultKind> {
    let Some((&len, rest)) = bytes.split_first() else {
        return Err(FaultKind::Truncated);
    };
    match len {
        1..=20 => plain_at(u64::from(len), rest),
        _ => Err(FaultKind::IdentifierLength),
    }
}

#[inline]
pub(crate) fn number_if(there: bool, bytes: &[u8]) -> Result<(u64, &[u8]), FaultKind> {
    if there {
        number_at(bytes)
    } else {
        Ok((0, bytes))
    }
}

/// All if no number counts them: a STREAM without a length goes on to the payload's end.
#[inline]
pub(crate) fn counted_if(there: bool, bytes: &[u8]) -> Result<(&[u8], &[u8]), FaultKind> {
    if there {
        counted_at(bytes)
    } else {
        Ok(bytes.split_at(bytes.len()))
    }
}

fn counts_at(bytes: &[u8]) -> Result<(Option<EcnCounts>, &[u8]), FaultKind> {
    let (ect0, rest) = number_at(bytes)?;
    let (ect1, rest) = number_at(rest)?;
    let (ce, rest) = number_at(rest)?;
    Ok((Some(EcnCounts { ect0, ect1, ce }), rest))
}

#[inline]
pub(crate) fn ecn_if(there: bool, bytes: &[u8]) -> Result<(Option<EcnCounts>, &[u8]), FaultKind> {
    if there {
        counts_at(bytes)
    } else {
        Ok((None, bytes))
    }
}

/// What follows so many numbers, and what is left of a limit from which each takes one more than itself: so a sum that falls below zero is
/// found without a list.
fn skip_numbers(count: u64, limit: u64, bytes: &[u8]) -> Result<(u64, &[u8]), FaultKind> {
    let mut left = limit;
    let mut rest = bytes;
    for _ in 0..count {
        let (value, after) = number_at(rest)?;
        left = left.saturating_sub(value + 1);
        rest = after;
    }
    Ok((left, rest))
}

/// The numbers of an ACK's ranges, and whether they fall below zero. Told apart, since that is judged only when the whole frame was read.
#[inline]
pub(crate) fn ranges_at(largest: u64, bytes: &[u8]) -> Result<(&[u8], bool, &[u8]), FaultKind> {
    debug_assert!(largest < 1 << 62);
    let (pairs, numbers) = number_at(bytes)?;
    let (left, rest) = skip_numbers(2 * pairs + 1, largest + 2, numbers)?;
    Ok((&numbers[..numbers.len() - rest.len()], left == 0, rest))
}
