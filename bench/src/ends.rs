//! Two endpoints in one process, and what the rows do with them.

use crate::pattern::{self, Source};
use crate::requests::poll;
use gotsavena::{Dir, Endpoint, Fill, Read, Role, Settings, StreamId, Token, frames};

/// How packets reach the other endpoint.
#[derive(Clone, Copy, PartialEq)]
pub enum Way {
    /// `make_packet`, `receive`, and ACK frames.
    Made,
    /// `fill`, as in a stack that has its own packets, and `receive`.
    Filled,
    /// `fill`, `take_frame` for each frame, and acknowledged by token.
    Taken,
}

/// The parameters of a row of the whole loop.
#[derive(Clone, Copy)]
pub struct Load {
    /// How many streams carry bytes.
    pub active: u64,
    /// How many are open. The others send nothing.
    pub open: u64,
    /// The window of each stream, in bytes.
    pub window: u64,
    /// How many bytes a call of `write` is given.
    pub write: usize,
    /// How many packets are made before the other endpoint acknowledges.
    pub burst: usize,
    /// Each packet whose number is a multiple of this is lost; with 0 none is.
    pub lose: u64,
    /// How many bytes are read in all.
    pub total: u64,
    /// The room of a packet, in bytes.
    pub room: usize,
    pub way: Way,
    /// Whether each endpoint is asked for events.
    pub polls: bool,
    /// About how many bytes are written before each burst.
    pub fill: usize,
}

pub const PLAIN: Load = Load {
    active: 1,
    open: 1,
    window: 1 << 20,
    write: 16 << 10,
    burst: 10,
    lose: 0,
    total: 128 << 20,
    room: 1200,
    way: Way::Made,
    polls: false,
    fill: 256 << 10,
};

/// The connection's window in every row, in bytes.
const CONN_WINDOW: u64 = 16 << 20;

pub struct Pair {
    pub sender: Endpoint,
    pub reader: Endpoint,
    pub streams: Vec<StreamId>,
    load: Load,
    source: Source,
    // How many bytes were written to each active stream, and how many were read.
    given: Vec<u64>,
    taken: Vec<u64>,
    out: Vec<u8>,
    // Their tokens and lengths, and the payloads.
    packets: Vec<(Token, usize, Vec<u8>)>,
    spare: Vec<Vec<u8>>,
    lost: Vec<u64>,
    // The tokens of packets that arrived, joined.
    came: Option<Token>,
    pub made: u64,
    /// How many bytes were written in all.
    pub written: u64,
}

impl Pair {
    pub fn new(load: Load) -> Pair {
        let settings = Settings::small()
            .conn_window(CONN_WINDOW)
            .stream_windows(load.window)
            .send_buffer(load.window as usize)
            .streams(4096, 1 << 16);
        let mut sender = Endpoint::new(Role::Client, settings, settings.limits())
            .expect("the settings are in range");
        let reader = Endpoint::new(Role::Server, settings, settings.limits())
            .expect("the settings are in range");
        // An endpoint may open 4,096 streams of a direction, so above that count half of them are bidirectional.
        let mut ids: Vec<StreamId> = Vec::new();
        for number in 0..load.open.max(load.active) {
            let dir = if number < 4096 { Dir::Uni } else { Dir::Bidi };
            ids.push(sender.open(dir).expect("the peer grants as many"));
        }
        ids.truncate(load.active as usize);
        Pair {
            sender,
            reader,
            streams: ids,
            load,
            source: Source::new(load.write),
            given: vec![0; load.active as usize],
            taken: vec![0; load.active as usize],
            out: vec![0; 64 << 10],
            packets: Vec::new(),
            spare: Vec::new(),
            lost: Vec::new(),
            came: None,
            made: 0,
            written: 0,
        }
    }

    /// Fills the send buffers of the active streams, up to what the load asks for.
    pub fn write(&mut self) {
        let times = self.load.fill / self.source.each() / self.streams.len() + 1;
        for (&stream, given) in self.streams.iter().zip(&mut self.given) {
            for _ in 0..times {
                let bytes = self.source.at(*given);
                let count = self.sender.write(stream, bytes).unwrap_or(0);
                *given += count as u64;
                self.written += count as u64;
                if count < bytes.len() {
                    break;
                }
            }
        }
    }

    /// Makes a burst of packets, loses some, and delivers the others.
    pub fn carry(&mut self) {
        for _ in 0..self.load.burst {
            let mut payload = self.spare.pop().unwrap_or_default();
            payload.resize(self.load.room, 0);
            let Some((token, len)) = self.make(&mut payload) else {
                break;
            };
            self.packets.push((token, len, payload));
        }
        for (token, len, payload) in self.packets.drain(..) {
            self.made += 1;
            if self.load.lose > 0 && self.made % self.load.lose == 0 {
                self.lost.push(token.number);
            } else if self.load.way == Way::Taken {
                take(&mut self.reader, &payload[..len]);
                let joined = self.came.map_or(Some(token), |came| came.and(token));
                self.came = joined.or(self.came);
            } else {
                _ = self
                    .reader
                    .receive(token.number, &payload[..len])
                    .expect("an honest packet");
            }
            self.spare.push(payload);
        }
    }

    // Makes the next packet and returns its token and length.
    fn make(&mut self, payload: &mut [u8]) -> Option<(Token, usize)> {
        if self.load.way == Way::Made {
            let made = self.sender.make_packet(payload).ok()??;
            return Some((self.sender.token_of(made.number), made.len));
        }
        let filled = self.sender.fill(payload, &Fill::all()).ok()??;
        Some((filled.token, filled.len))
    }

    /// Reads what arrived on each active stream and returns the number of bytes.
    pub fn read(&mut self) -> u64 {
        if self.load.polls {
            poll(&mut self.reader);
        }
        while self.reader.accept().is_some() {}
        let mut count = 0;
        for (&stream, taken) in self.streams.iter().zip(&mut self.taken) {
            while let Ok(Read::Bytes(some)) = self.reader.read(stream, &mut self.out) {
                pattern::check(*taken, &self.out[..some]);
                *taken += some as u64;
                count += some as u64;
            }
        }
        count
    }

    /// Delivers the reader's next packet to the sender, then declares the losses.
    pub fn answer(&mut self) {
        let mut payload = self.spare.pop().unwrap_or_default();
        payload.resize(self.load.room, 0);
        if self.load.way == Way::Taken {
            if let Some(came) = self.came.take() {
                self.sender.acked(came).expect("they were given");
            }
            if let Ok(Some(filled)) = self.reader.fill(&mut payload, &Fill::all()) {
                take(&mut self.sender, &payload[..filled.len]);
                self.reader.acked(filled.token).expect("it was given");
            }
        } else if let Ok(Some(made)) = self.reader.make_packet(&mut payload) {
            _ = self
                .sender
                .receive(made.number, &payload[..made.len])
                .expect("an honest packet");
            if self.load.way == Way::Filled {
                // `fill` writes no ACK.
                let token = self.reader.token_of(made.number);
                self.reader.acked(token).expect("it was given");
            }
        }
        self.spare.push(payload);
        for number in self.lost.drain(..) {
            // If the packet was sent again, an ACK of it may have arrived already.
            let _ = self.sender.declare_lost(number);
        }
        if self.load.polls {
            poll(&mut self.sender);
        }
    }

    /// Plays this many bursts. Each is read and acknowledged.
    pub fn play(&mut self, turns: u64) {
        for _ in 0..turns {
            self.write();
            self.carry();
            self.read();
            self.answer();
        }
    }
}

/// Hands the frames in, one by one.
pub fn take(end: &mut Endpoint, payload: &[u8]) {
    for placed in frames(payload) {
        let frame = placed.expect("an honest packet").frame;
        _ = end.take_frame(&frame).expect("an honest packet");
    }
}
