//! What quinn's own tests of its streams look at, told by the layer's calls.
use std::collections::VecDeque;

use gotsavena::{Fill, Frame, RecvState};

use super::{
    code_of, ours, quinns, theirs, Carried, Retransmits, ShouldTransmit, StreamEvent, StreamsState,
};
use crate::{frame, Dir, Side, StreamId};

/// Those that the peer may open count too, as quinn makes them in advance.
pub struct Halves<'a>(&'a StreamsState);

impl Halves<'_> {
    pub fn contains_key(&self, id: &StreamId) -> bool {
        let half = self.0.end.report(ours(*id)).and_then(|report| report.recv);
        match half.map(|half| half.state) {
            Some(RecvState::DataRead | RecvState::ResetRead) => false,
            Some(_) => true,
            None => self.0.is_read(*id),
        }
    }

    pub fn get_mut(&self, id: &StreamId) -> Option<()> {
        self.contains_key(id).then_some(())
    }

    pub fn len(&self) -> u64 {
        self.0.max_remote().iter().sum()
    }
}

impl std::ops::Index<usize> for Carried {
    type Output = frame::StreamMeta;

    fn index(&self, place: usize) -> &frame::StreamMeta {
        &self.streams[place]
    }
}

/// Of how many priorities streams wait to send, and 1 if none does, as quinn always has a level.
pub struct Levels(usize);

impl Levels {
    pub fn len(&self) -> usize {
        self.0.max(1)
    }
}

impl StreamsState {
    pub fn can_send_stream_data(&self) -> bool {
        self.end.next_sendable(ours(StreamId(0))).is_some()
    }

    pub fn events(&mut self) -> &mut VecDeque<StreamEvent> {
        self.hear();
        &mut self.events
    }

    pub fn recv(&self) -> Halves<'_> {
        Halves(self)
    }

    pub fn pending(&self) -> Levels {
        let levels = self.in_order().into_iter().map(|(priority, ..)| priority);
        Levels(levels.collect::<std::collections::BTreeSet<_>>().len())
    }

    pub fn data_recvd(&self) -> u64 {
        self.end.spent()
    }

    pub fn receive_window(&self) -> u64 {
        self.window
    }

    pub fn local_max_data(&self) -> u64 {
        self.end.granted().max(self.window + self.end.taken_sum())
    }

    pub fn max_remote(&self) -> [u64; 2] {
        [Dir::Bi, Dir::Uni].map(|dir| self.end.granted_streams(theirs(dir)))
    }

    pub fn max_streams_dirty(&self) -> [bool; 2] {
        let first = self.settings.limits();
        let [bidi, uni] = self.max_remote();
        [bidi > first.streams_bidi, uni > first.streams_uni]
    }

    /// They stay pending, since a look must change nothing.
    pub fn due(&mut self) -> Retransmits {
        let (mut frames, mut due) = (Vec::new(), Retransmits::default());
        self.fill(&mut frames, 1200, &Fill::control());
        for placed in gotsavena::frames(&frames).flatten() {
            match placed.frame {
                Frame::ResetStream { stream, code, .. } => {
                    due.reset_stream.push((quinns(stream), code_of(code)))
                }
                Frame::StopSending { stream, code } => due
                    .stop_sending
                    .push(frame::StopSending { id: quinns(stream), error_code: code_of(code) }),
                Frame::MaxData { .. } => due.max_data = true,
                Frame::MaxStreams { dir, .. } => {
                    due.max_stream_id[(dir == theirs(Dir::Uni)) as usize] = true
                }
                _ => {}
            }
        }
        let carried = std::mem::take(&mut self.carried);
        self.retransmit(carried);
        due
    }

    /// By how much the limit is above a window beyond what was consumed: no limit falls.
    pub fn receive_window_shrink_debt(&self) -> u64 {
        self.local_max_data() - self.window - self.end.taken_sum()
    }

    pub fn add_read_credits(&mut self, credits: u64) -> ShouldTransmit {
        let stream = ours(StreamId::new(!self.side, Dir::Uni, 0));
        let mut bytes = [0; 1024];
        for _ in 0..credits / 1024 {
            let offset = self.end.taken(stream).unwrap_or(0);
            let frame = Frame::Stream { stream, offset, fin: false, bytes: &bytes };
            self.end.take_frame(&frame).expect("within the credit");
            self.end.read(stream, &mut bytes).expect("it is open");
        }
        ShouldTransmit(self.is_sendable())
    }
}
