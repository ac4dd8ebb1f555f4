// Made from crates/qs_c/src/structs.rt by rust/erase; not edited by hand.
use crate::proved::qs_calls::{CloseKind, Closer, Filled, NotedClose, Token};
use crate::proved::qs_conn::{Closing, Made, PeerLimits, Settings, Share, Tuning};

const SHARES: u32 = 4;

#[repr(C)]
#[derive(Clone, Copy)]
pub struct GvSettings {
    pub conn_window: u64,
    pub bidi_local: u64,
    pub bidi_remote: u64,
    pub uni: u64,
    pub send_buffer: usize,
    pub grant_bidi: u64,
    pub grant_uni: u64,
    pub lifetime_bidi: u64,
    pub lifetime_uni: u64,
}

/// Shares are 1 for a half, 2 for a quarter, 3 for an eighth, 4 for a sixteenth; 0 for none, if there may be none. A window of 0 is none
/// too, since a field that an older program doesn't know is 0.
#[repr(C)]
#[derive(Clone, Copy)]
pub struct GvTuning {
    pub credit_step: u32,
    pub count_step: u32,
    pub within_credit: bool,
    pub reads_when_closed: bool,
    pub epoch: u64,
    pub send_window: u64,
    pub answers_stops: bool,
}

#[repr(C)]
#[derive(Clone, Copy)]
pub struct GvLimits {
    pub max_data: u64,
    pub bidi_local: u64,
    pub bidi_remote: u64,
    pub uni: u64,
    pub streams_bidi: u64,
    pub streams_uni: u64,
}

#[repr(C)]
#[derive(Clone, Copy)]
pub struct GvMade {
    pub number: u64,
    pub len: usize,
    pub is_ack_eliciting: bool,
}

#[repr(C)]
#[derive(Clone, Copy)]
pub struct GvRequest {
    pub items: bool,
    pub streams: bool,
    pub alone: bool,
    pub first: u64,
    pub most_bytes: usize,
}

#[repr(C)]
#[derive(Clone, Copy)]
pub struct GvFilled {
    pub has_last_stream: bool,
    pub more: bool,
    pub token: u64,
    pub len: usize,
    pub last_stream: u64,
}

#[repr(C)]
#[derive(Clone, Copy)]
pub struct GvToken {
    pub epoch: u64,
    pub first: u64,
    pub number: u64,
}

#[repr(C)]
#[derive(Clone, Copy)]
pub struct GvClosing {
    pub code: u64,
    pub frame_type: u64,
    pub place: usize,
}

#[repr(C)]
#[derive(Clone, Copy)]
pub struct GvTold {
    pub by: u32,
    pub kind: u32,
    pub code: u64,
}

impl GvMade {
    pub(crate) fn of(made: Made) -> GvMade {
        GvMade {
            number: made.number,
            len: made.len,
            is_ack_eliciting: made.is_ack_eliciting,
        }
    }
}

impl GvFilled {
    pub(crate) fn of(filled: Filled) -> GvFilled {
        GvFilled {
            has_last_stream: filled.last_stream.is_some(),
            more: filled.more,
            token: filled.token.number,
            len: filled.len,
            last_stream: match filled.last_stream {
                Some(stream) => stream.value(),
                None => 0,
            },
        }
    }
}

impl GvToken {
    pub(crate) fn of(token: Token) -> GvToken {
        GvToken {
            epoch: token.epoch,
            first: token.first,
            number: token.number,
        }
    }

    pub(crate) fn token(&self) -> Token {
        Token {
            epoch: self.epoch,
            first: self.first,
            number: self.number,
        }
    }
}

impl GvClosing {
    pub(crate) fn of(closing: Closing) -> GvClosing {
        GvClosing {
            code: closing.code,
            frame_type: closing.frame_type,
            place: closing.place,
        }
    }
}

impl GvTold {
    pub(crate) fn of(close: NotedClose) -> GvTold {
        GvTold {
            by: match close.by {
                Closer::Us => 0,
                Closer::Peer => 1,
            },
            kind: match close.kind {
                CloseKind::Transport => 0,
                CloseKind::Application => 1,
            },
            code: close.code,
        }
    }
}

impl GvSettings {
    pub(crate) fn settings(&self) -> Settings {
        Settings {
            conn_window: self.conn_window,
            bidi_local: self.bidi_local,
            bidi_remote: self.bidi_remote,
            uni: self.uni,
            send_buffer: self.send_buffer,
            grant_bidi: self.grant_bidi,
            grant_uni: self.grant_uni,
            lifetime_bidi: self.lifetime_bidi,
            lifetime_uni: self.lifetime_uni,
        }
    }
}

impl GvTuning {
    pub(crate) fn tuning(&self) -> Option<Tuning> {
        let credit_step = share_of(self.credit_step)?;
        if self.count_step > SHARES {
            return None;
        }
        Some(Tuning {
            credit_step,
            count_step: share_of(self.count_step),
            within_credit: self.within_credit,
            answers_stops: self.answers_stops,
            reads_when_closed: self.reads_when_closed,
            epoch: self.epoch,
            send_window: window_if(self.send_window),
        })
    }
}

fn share_of(number: u32) -> Option<Share> {
    match number {
        1 => Some(Share::Half),
        2 => Some(Share::Quarter),
        3 => Some(Share::Eighth),
        4 => Some(Share::Sixteenth),
        _ => None,
    }
}

fn window_if(bytes: u64) -> Option<u64> {
    if bytes == 0 {
        return None;
    }
    Some(bytes)
}

impl GvLimits {
    pub(crate) fn limits(&self) -> PeerLimits {
        PeerLimits {
            max_data: self.max_data,
            bidi_local: self.bidi_local,
            bidi_remote: self.bidi_remote,
            uni: self.uni,
            streams_bidi: self.streams_bidi,
            streams_uni: self.streams_uni,
        }
    }
}
