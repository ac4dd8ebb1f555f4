//! The part of the crate `byteorder` that the proved source uses, so that the library has no dependency.

pub trait ByteOrder {
    fn read_u16(bytes: &[u8]) -> u16;
    fn read_u32(bytes: &[u8]) -> u32;
    fn read_u64(bytes: &[u8]) -> u64;
    fn write_u16(bytes: &mut [u8], value: u16);
    fn write_u32(bytes: &mut [u8], value: u32);
    fn write_u64(bytes: &mut [u8], value: u64);
}

pub enum BigEndian {}

impl ByteOrder for BigEndian {
    #[inline]
    fn read_u16(bytes: &[u8]) -> u16 {
        u16::from_be_bytes(front(bytes))
    }

    #[inline]
    fn read_u32(bytes: &[u8]) -> u32 {
        u32::from_be_bytes(front(bytes))
    }

    #[inline]
    fn read_u64(bytes: &[u8]) -> u64 {
        u64::from_be_bytes(front(bytes))
    }

    #[inline]
    fn write_u16(bytes: &mut [u8], value: u16) {
        bytes[..2].copy_from_slice(&value.to_be_bytes());
    }

    #[inline]
    fn write_u32(bytes: &mut [u8], value: u32) {
        bytes[..4].copy_from_slice(&value.to_be_bytes());
    }

    #[inline]
    fn write_u64(bytes: &mut [u8], value: u64) {
        bytes[..8].copy_from_slice(&value.to_be_bytes());
    }
}

#[inline]
fn front<const N: usize>(bytes: &[u8]) -> [u8; N] {
    let mut front = [0; N];
    front.copy_from_slice(&bytes[..N]);
    front
}
