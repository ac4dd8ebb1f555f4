// Made from crates/qs_wire/src/frame_type.rt by rust/erase; not edited by hand.
use crate::proved::qs_wire::stream_id::Dir;

/// What the number of a type says: of STREAM three bits, of the others the frame alone. One name for each, so that reader and writer share
/// the numbers.
#[derive(Clone, Copy)]
pub(crate) enum FrameType {
    Padding,
    Ping,
    Ack { ecn: bool },
    ResetStream,
    StopSending,
    Crypto,
    NewToken,
    Stream { off: bool, len: bool, fin: bool },
    MaxData,
    MaxStreamData,
    MaxStreams { dir: Dir },
    DataBlocked,
    StreamDataBlocked,
    StreamsBlocked { dir: Dir },
    NewConnectionId,
    RetireConnectionId,
    PathChallenge,
    PathResponse,
    ConnectionClose,
    ApplicationClose,
    HandshakeDone,
}

const FIN: u64 = 0x01;

const LEN: u64 = 0x02;

const OFF: u64 = 0x04;

impl FrameType {
    #[inline]
    pub(crate) fn of(number: u64) -> Option<FrameType> {
        match number {
            0x00 => Some(FrameType::Padding),
            0x01 => Some(FrameType::Ping),
            0x02 => Some(FrameType::Ack { ecn: false }),
            0x03 => Some(FrameType::Ack { ecn: true }),
            0x04 => Some(FrameType::ResetStream),
            0x05 => Some(FrameType::StopSending),
            0x06 => Some(FrameType::Crypto),
            0x07 => Some(FrameType::NewToken),
            0x08..=0x0f => Some(FrameType::Stream {
                off: number & OFF != 0,
                len: number & LEN != 0,
                fin: number & FIN != 0,
            }),
            0x10 => Some(FrameType::MaxData),
            0x11 => Some(FrameType::MaxStreamData),
            0x12 => Some(FrameType::MaxStreams { dir: Dir::Bidi }),
            0x13 => Some(FrameType::MaxStreams { dir: Dir::Uni }),
            0x14 => Some(FrameType::DataBlocked),
            0x15 => Some(FrameType::StreamDataBlocked),
            0x16 => Some(FrameType::StreamsBlocked { dir: Dir::Bidi }),
            0x17 => Some(FrameType::StreamsBlocked { dir: Dir::Uni }),
            0x18 => Some(FrameType::NewConnectionId),
            0x19 => Some(FrameType::RetireConnectionId),
            0x1a => Some(FrameType::PathChallenge),
            0x1b => Some(FrameType::PathResponse),
            0x1c => Some(FrameType::ConnectionClose),
            0x1d => Some(FrameType::ApplicationClose),
            0x1e => Some(FrameType::HandshakeDone),
            _ => None,
        }
    }

    #[inline]
    pub(crate) fn number(self) -> u64 {
        match self {
            FrameType::Padding => 0x00,
            FrameType::Ping => 0x01,
            FrameType::Ack { ecn } => 0x02 + u64::from(ecn),
            FrameType::ResetStream => 0x04,
            FrameType::StopSending => 0x05,
            FrameType::Crypto => 0x06,
            FrameType::NewToken => 0x07,
            FrameType::Stream { off, len, fin } => {
                0x08 + u64::from(off) * OFF + u64::from(len) * LEN + u64::from(fin) * FIN
            }
            FrameType::MaxData => 0x10,
            FrameType::MaxStreamData => 0x11,
            FrameType::MaxStreams { dir: Dir::Bidi } => 0x12,
            FrameType::MaxStreams { dir: Dir::Uni } => 0x13,
            FrameType::DataBlocked => 0x14,
            FrameType::StreamDataBlocked => 0x15,
            FrameType::StreamsBlocked { dir: Dir::Bidi } => 0x16,
            FrameType::StreamsBlocked { dir: Dir::Uni } => 0x17,
            FrameType::NewConnectionId => 0x18,
            FrameType::RetireConnectionId => 0x19,
            FrameType::PathChallenge => 0x1a,
            FrameType::PathResponse => 0x1b,
            FrameType::ConnectionClose => 0x1c,
            FrameType::ApplicationClose => 0x1d,
            FrameType::HandshakeDone => 0x1e,
        }
    }
}
