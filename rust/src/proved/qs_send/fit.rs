// Made from crates/qs_send/src/fit.rt by rust/erase; not edited by hand.
//! How many bytes fit beside the number that counts them.

/// The greatest count of bytes, at most `most`, that fits into the room together with the count's own
/// shortest spelling. 0 where none does.
#[inline]
pub fn longest_fit(room: usize, most: u64) -> u64 {
    debug_assert!(most < 1 << 62);
    let room = room as u64;
    // Mostly the count takes two bytes, and needs no other look.
    if matches!(room, 0x41..=0x4001) {
        return (room - 2).min(most);
    }
    let one = room.saturating_sub(1).min(0x3f);
    let two = room.saturating_sub(2).min(0x3fff);
    let four = room.saturating_sub(4).min(0x3fff_ffff);
    let eight = room.saturating_sub(8);
    one.max(two).max(four).max(eight).min(most)
}
