//! Every public call of quinn's connections and streams, played over quinn's streams and over ours: random scripts with seeds, and
//! scenes of one kind of call each. Each answer, and what an application hears once both ends are at rest, is a line 'call KEY: ..',
//! where the key is that of a script or scene. A line 'sum NAME: N' tells of all scripts. `embed/quinn/test` compares the lines.
use std::collections::{BTreeMap, BTreeSet};

use rand::{rngs::StdRng, Rng, SeedableRng};

use super::*;

const LATENCY: Duration = Duration::from_millis(10);

struct App {
    ch: ConnectionHandle,
    // Kept here, since no call lists them: the streams it opened or accepted, and how many bytes it wrote to each and read of it.
    known: Vec<StreamId>,
    written: BTreeMap<StreamId, usize>,
    taken: BTreeMap<StreamId, usize>,
    // An application that waits hears of these; events of others aren't compared, as quinn reports each frame.
    to_write: BTreeSet<StreamId>,
    to_read: BTreeSet<StreamId>,
    ended: BTreeSet<StreamId>,
}

struct Script {
    key: String,
    random: StdRng,
    pair: Pair,
    apps: [App; 2],
    drops: u32,
    // Then no stream is reset: quinn and the layer give credit back at different times.
    is_narrow: bool,
    grant: u32,
    window: u32,
}

// By number and offset, so that any byte can be checked alone.
fn bytes_of(id: StreamId, from: usize, len: usize) -> Vec<u8> {
    let salt = VarInt::from(id).into_inner() as usize;
    (from..from + len).map(|offset| (offset * 7 + salt + offset / 256) as u8).collect()
}

fn app(ch: ConnectionHandle) -> App {
    let (known, written, taken, to_write, to_read, ended) = Default::default();
    App { ch, known, written, taken, to_write, to_read, ended }
}

fn transport(change: impl Fn(&mut TransportConfig)) -> Arc<TransportConfig> {
    let mut config = TransportConfig::default();
    change(&mut config);
    Arc::new(config)
}

impl Script {
    fn new(key: &str, seed: u64, change: impl Fn(&mut TransportConfig)) -> Self {
        let config = transport(change);
        let server = ServerConfig { transport: config.clone(), ..server_config() };
        let mut pair = Pair::new(Arc::new(EndpointConfig::default()), server);
        pair.latency = LATENCY;
        let mut client = client_config();
        client.transport_config(config);
        let (client, server) = pair.connect_with(client);
        let random = StdRng::seed_from_u64(seed);
        let apps = [app(client), app(server)];
        Script {
            key: key.into(),
            random,
            pair,
            apps,
            drops: 0,
            is_narrow: false,
            grant: 4,
            window: 0,
        }
    }

    fn say(&self, text: impl std::fmt::Display) {
        println!("call {}: {}", self.key, text);
    }

    fn conn(&mut self, side: usize) -> &mut Connection {
        let ch = self.apps[side].ch;
        match side {
            0 => self.pair.client_conn_mut(ch),
            _ => self.pair.server_conn_mut(ch),
        }
    }

    // What is dropped doesn't depend on what came before, so that both implementations lose the same.
    fn rest(&mut self, seed: u64) {
        let mut random = StdRng::seed_from_u64(seed);
        for _ in 0..3_000 {
            let arrival = self.pair.time + self.pair.latency;
            if !self.pair.step() {
                return;
            }
            let drops = self.drops;
            for inbound in [&mut self.pair.client.inbound, &mut self.pair.server.inbound] {
                inbound.retain(|datagram| {
                    datagram.0 < arrival || drops == 0 || random.gen_range(0..100) >= drops
                });
            }
        }
        panic!("{}: the ends don't come to rest", self.key);
    }

    // One of the latest, so that streams meet; or one that isn't open, so that errors are compared too.
    fn pick(&mut self, side: usize, sends: bool) -> StreamId {
        let own = [Side::Client, Side::Server][side];
        let is_so = |id: &&StreamId| id.dir() == Dir::Bi || (id.initiator() == own) == sends;
        let latest: Vec<_> = self.apps[side].known.iter().rev().filter(is_so).take(8).collect();
        match latest.len() {
            0 => StreamId::new(own, Dir::Bi, 1_000),
            count => *latest[self.random.gen_range(0..count)],
        }
    }

    fn dir(&mut self) -> Dir {
        [Dir::Bi, Dir::Uni][self.random.gen_range(0..2)]
    }

    fn code(&mut self) -> VarInt {
        VarInt::from_u32(self.random.gen_range(0..1_000))
    }

    fn open(&mut self, side: usize) -> Option<StreamId> {
        let dir = self.dir();
        let id = self.conn(side).streams().open(dir);
        self.apps[side].known.extend(id);
        self.say(format!("{} opens {:?}: {:?}", side, dir, id));
        id
    }

    fn accept(&mut self, side: usize) {
        let dir = self.dir();
        let id = self.conn(side).streams().accept(dir);
        self.apps[side].known.extend(id);
        self.say(format!("{} accepts {:?}: {:?}", side, dir, id));
    }

    fn write(&mut self, side: usize, id: StreamId, len: usize) {
        let at = self.apps[side].written.get(&id).copied().unwrap_or(0);
        let (bytes, mut done) = (bytes_of(id, at, len), 0);
        let answer = loop {
            match self.conn(side).send_stream(id).write(&bytes[done..]) {
                Ok(count) => done += count,
                Err(error) => break Err(error),
            }
            if done == len {
                break Ok(());
            }
        };
        self.wrote(side, id, done, answer == Err(WriteError::Blocked));
        self.say(format!("{} writes {} to {}: {} {:?}", side, len, id, done, answer));
    }

    fn wrote(&mut self, side: usize, id: StreamId, count: usize, is_refused: bool) {
        *self.apps[side].written.entry(id).or_default() += count;
        if is_refused {
            self.apps[side].to_write.insert(id);
        }
    }

    // Once more if not all was taken, so that the refusal is compared.
    fn write_chunks(&mut self, side: usize, id: StreamId) {
        let at = self.apps[side].written.get(&id).copied().unwrap_or(0);
        let sizes: Vec<usize> = (0..3).map(|_| self.random.gen_range(0..900)).collect();
        let bytes = bytes::Bytes::from(bytes_of(id, at, sizes.iter().sum::<usize>() + 1));
        let mut from = 1;
        let mut chunks: Vec<_> = sizes
            .iter()
            .map(|size| {
                bytes.slice({
                    from += size;
                    from - size - 1..from - 1
                })
            })
            .collect();
        let answer = self.conn(side).send_stream(id).write_chunks(&mut chunks);
        let left: Vec<usize> = chunks.iter().map(|chunk| chunk.len()).collect();
        let count = answer.as_ref().map_or(0, |written| written.bytes);
        self.wrote(side, id, count, answer == Err(WriteError::Blocked));
        self.say(format!("{} writes chunks to {}: {:?}, left {:?}", side, id, answer, left));
        if answer.is_ok() && left.iter().sum::<usize>() > 0 {
            self.write(side, id, 1);
        }
    }

    fn read(&mut self, side: usize, id: StreamId, most: usize) {
        let mut got = Vec::new();
        let mut half = self.conn(side).recv_stream(id);
        let answer = match half.read(true) {
            Err(error) => format!("{:?}", error),
            Ok(mut chunks) => {
                let answer = loop {
                    match chunks.next(most - got.len()) {
                        Ok(Some(chunk)) => got.extend_from_slice(&chunk.bytes),
                        Ok(None) => break "the end".into(),
                        Err(error) => break format!("{:?}", error),
                    }
                    if got.len() == most {
                        break "so many".into();
                    }
                };
                let _ = chunks.finalize();
                answer
            }
        };
        let at = self.apps[side].taken.entry(id).or_default();
        assert!(got == bytes_of(id, *at, got.len()), "{} at {}", id, at);
        *at += got.len();
        if answer == "Blocked" {
            self.apps[side].to_read.insert(id);
        }
        self.say(format!("{} reads {} of {}: {} {}", side, most, id, got.len(), answer));
    }

    fn use_sender(&mut self, side: usize, id: StreamId) {
        let (code, priority) = (self.code(), self.random.gen_range(-2..3));
        let call = self.random.gen_range(usize::from(self.is_narrow)..6);
        if call < 3 {
            self.apps[side].ended.insert(id);
        }
        let mut half = self.conn(side).send_stream(id);
        let answer = match call {
            0 => format!("reset {:?}", half.reset(code).ok()),
            1 | 2 => format!("finish {:?}", half.finish()),
            3 => format!("stopped {:?}", half.stopped().ok()),
            4 => format!("set_priority {:?}", half.set_priority(priority).ok()),
            _ => format!("priority {:?}", half.priority().ok()),
        };
        self.say(format!("{} {}: {}", side, id, answer));
    }

    // (quinn grants another stream only as the next packet comes)
    fn use_receiver(&mut self, side: usize, id: StreamId) {
        let code = self.code();
        let answer = self.conn(side).recv_stream(id).stop(code).ok();
        self.conn(1 - side).ping();
        self.say(format!("{} stops {}: {:?}", side, id, answer));
    }

    fn use_connection(&mut self, side: usize) {
        // (quinn forgets a greater count that is set again or lowered before it was sent, and adds to a window that shrank)
        self.grant += self.random.gen_range(1..3);
        self.window += self.random.gen_range(0..4_000);
        let (dir, grant, window) = (self.dir(), self.grant, self.window);
        // (with losses the two send different datagrams, so the answers would differ)
        let call = self.random.gen_range(0..if self.drops == 0 { 5 } else { 3 });
        let conn = self.conn(side);
        let answer = match call {
            0 => format!("pings {:?}", conn.ping()),
            1 => format!("has a window of {} {:?}", window, conn.set_receive_window(window.into())),
            2 => format!(
                "grants {} {:?} {:?}",
                grant,
                dir,
                conn.set_max_concurrent_streams(dir, grant.into())
            ),
            3 => format!("sends a datagram {:?}", conn.datagrams().send(vec![7; 100].into())),
            _ => format!("receives {:?}", conn.datagrams().recv()),
        };
        if call == 2 {
            self.conn(1 - side).ping();
        }
        self.say(format!("{} {}", side, answer));
    }

    fn call(&mut self, side: usize) {
        let (to, of) = (self.pick(side, true), self.pick(side, false));
        let len = self.random.gen_range(1..4_000);
        match self.random.gen_range(0..20) {
            0..=2 => drop(self.open(side)),
            3..=5 => self.accept(side),
            // (without credit on the connection quinn answers that first)
            6..=9 if self.is_narrow && self.apps[side].ended.contains(&to) => {}
            6..=8 => self.write(side, to, len),
            9 => self.write_chunks(side, to),
            10..=13 => self.read(side, of, len),
            14..=16 => self.use_sender(side, to),
            17 if !self.is_narrow => self.use_receiver(side, of),
            _ => self.use_connection(side),
        }
    }

    // Of a stream only if the application waits for it, since quinn reports each frame; that it was stopped only to its writer, and not if
    // it was reset before.
    fn hear(&mut self, side: usize) {
        let events: Vec<_> = std::iter::from_fn(|| self.conn(side).poll()).collect();
        let app = &mut self.apps[side];
        for event in &events {
            if let Event::Stream(StreamEvent::Stopped { id, .. }) = event {
                app.to_write.remove(id);
            }
        }
        let mut counts = |event: &&Event| match event {
            Event::Stream(StreamEvent::Readable { id }) => app.to_read.remove(id),
            Event::Stream(StreamEvent::Writable { id }) => app.to_write.remove(id),
            Event::Stream(StreamEvent::Stopped { id, .. }) => !app.ended.contains(id),
            _ => true,
        };
        let told: BTreeSet<_> =
            events.iter().filter(&mut counts).map(|event| format!("{:?}", event)).collect();
        let streams = self.conn(side).streams().send_streams();
        self.say(format!("{} hears {:?}, {} may be unacknowledged", side, told, streams));
    }

    fn close(&mut self) {
        let (side, code, time) = (self.random.gen_range(0..2), self.code(), self.pair.time);
        self.conn(side).close(time, code, (&b"bye"[..]).into());
        for side in [side, 1 - side] {
            let (to, of) = (self.pick(side, true), self.pick(side, false));
            self.open(side);
            self.write(side, to, 1);
            self.rest(0);
            self.hear(side);
            self.read(side, of, 10_000);
            let conn = self.conn(side);
            let (closed, drained) = (conn.is_closed(), conn.is_drained());
            self.say(format!("{} is closed {}, drained {}", side, closed, drained));
        }
    }

    fn datagrams(&mut self) -> u64 {
        (0..2).map(|side| self.conn(side).stats().udp_tx.datagrams).sum()
    }
}

#[test]
fn random_scripts() {
    let (mut datagrams, mut took) = (0, Duration::default());
    for seed in 0..60 {
        let (window, is_narrow) = ([2_000u32, 20_000, 200_000][seed as usize % 3], seed % 2 == 0);
        let mut script = Script::new(&format!("script-{}", seed), seed, |config| {
            config.stream_receive_window(window.into());
            config.receive_window(if is_narrow { window * 2 } else { 1 << 22 }.into());
            config.send_window(u64::from(window) * 3);
            config.max_concurrent_bidi_streams(4u32.into());
            config.max_concurrent_uni_streams(4u32.into());
        });
        script.is_narrow = is_narrow;
        script.window = if is_narrow { window * 2 } else { 1 << 22 };
        script.drops = if seed < 30 { 0 } else { 5 };
        let start = script.pair.time;
        for round in 0..40 {
            for _ in 0..script.random.gen_range(1..8) {
                let side = script.random.gen_range(0..2);
                script.call(side);
            }
            script.rest(round);
            script.hear(0);
            script.hear(1);
        }
        datagrams += script.datagrams();
        took += script.pair.time - start;
        script.close();
    }
    println!("sum datagrams: {}", datagrams);
    println!("sum milliseconds: {}", took.as_millis());
}

// One kind of call each. `expected` says why if they differ.

fn scene(key: &str, change: impl Fn(&mut TransportConfig)) -> Script {
    Script::new(key, 0, change)
}

impl Script {
    fn stream(&mut self, dir: Dir, len: usize) -> StreamId {
        let id = self.conn(0).streams().open(dir).unwrap();
        assert_eq!(self.conn(0).send_stream(id).write(&bytes_of(id, 0, len)), Ok(len));
        self.rest(0);
        assert_eq!(self.conn(1).streams().accept(dir), Some(id));
        self.events();
        id
    }

    fn events(&mut self) -> [Vec<String>; 2] {
        [0, 1].map(|side| {
            std::iter::from_fn(|| self.conn(side).poll())
                .map(|event| format!("{:?}", event))
                .collect()
        })
    }

    fn room(&mut self) -> usize {
        let id = self.conn(0).streams().open(Dir::Uni).unwrap();
        self.conn(0).send_stream(id).write(&[0; 100_000]).unwrap_or(0)
    }

    fn chunks(&mut self, id: StreamId, ordered: bool) -> String {
        let mut half = self.conn(1).recv_stream(id);
        let mut chunks = match half.read(ordered) {
            Ok(chunks) => chunks,
            Err(error) => return format!("{:?}", error),
        };
        let mut told = String::new();
        loop {
            match chunks.next(usize::MAX) {
                Ok(Some(chunk)) => told += &format!("{} at {}, ", chunk.bytes.len(), chunk.offset),
                last => break told += &format!("{:?}", last),
            }
        }
        told + &format!(", {:?}", chunks.finalize())
    }
}

#[test]
fn no_bytes() {
    let mut script =
        scene("no-bytes", |config| drop(config.stream_receive_window(1_000u32.into())));
    let id = script.conn(0).streams().open(Dir::Uni).unwrap();
    let answer = script.conn(0).send_stream(id).write(&[]);
    script.rest(0);
    let accepted = script.conn(1).streams().accept(Dir::Uni);
    script.say(format!("{:?} opens {:?}", answer, accepted));
    script.conn(0).send_stream(id).write(&[0; 1_000]).unwrap();
    let answer = script.conn(0).send_stream(id).write(&[]);
    script.say(format!("without room {:?}", answer));
    script.rest(0);
    let mut half = script.conn(1).recv_stream(id);
    let mut chunks = half.read(true).unwrap();
    let none = chunks.next(0).map(|chunk| chunk.map(|chunk| chunk.bytes.len()));
    drop(chunks.finalize());
    script.say(format!("at most 0 bytes {:?}", none));
}

#[test]
fn reads() {
    let mut script = scene("chunks", |_| {});
    let id = script.stream(Dir::Uni, 5_000);
    let told = script.chunks(id, true);
    script.say(told);
    script.key = "out-of-order".into();
    let id = script.stream(Dir::Uni, 10);
    for _ in 0..2 {
        script.conn(0).send_stream(id).write(&[0; 10]).unwrap();
        script.pair.drive_client();
        script.pair.server.inbound.drain(..1);
    }
    script.conn(0).send_stream(id).write(&[0; 10]).unwrap();
    script.pair.drive_client();
    script.pair.time += LATENCY;
    script.pair.drive_server();
    let (out, ordered) = (script.chunks(id, false), script.chunks(id, true));
    script.say(format!("{}; in order {}", out, ordered));
}

#[test]
fn stops_and_resets() {
    let mut script = scene("stopped-after-reset", |_| {});
    let id = script.stream(Dir::Uni, 10);
    script.conn(1).recv_stream(id).stop(7u32.into()).unwrap();
    script.rest(0);
    script.conn(0).send_stream(id).reset(8u32.into()).unwrap();
    let stopped = script.conn(0).send_stream(id).stopped().ok();
    script.say(format!("{:?}", stopped));
    script.rest(0);
    let stopped = script.conn(0).send_stream(id).stopped().ok();
    let events = script.events();
    script.say(format!("{:?}, {:?}", stopped, events));
    script.key = "stop-crosses-reset".into();
    let id = script.stream(Dir::Uni, 10);
    script.conn(1).recv_stream(id).stop(7u32.into()).unwrap();
    script.conn(0).send_stream(id).reset(8u32.into()).unwrap();
    script.rest(0);
    let events = script.events();
    script.say(format!("{:?}", events));
    script.key = "unpolled-send-streams".into();
    let before = script.conn(0).streams().send_streams();
    let id = script.stream(Dir::Uni, 10);
    script.conn(0).send_stream(id).finish().unwrap();
    let id = script.stream(Dir::Bi, 10);
    script.conn(0).send_stream(id).reset(8u32.into()).unwrap();
    script.rest(0);
    let after = script.conn(0).streams().send_streams();
    script.say(format!("{} and {}", before, after));
}

#[test]
fn credit() {
    let narrow = |config: &mut TransportConfig| drop(config.receive_window(4_000u32.into()));
    let mut script = scene("credit-of-a-stopped-stream", narrow);
    let id = script.stream(Dir::Uni, 3_000);
    script.conn(1).recv_stream(id).stop(7u32.into()).unwrap();
    script.rest(0);
    script.conn(0).send_stream(id).reset(8u32.into()).unwrap();
    script.rest(0);
    let room = script.room();
    script.say(room);
    let mut script = scene("without-credit", narrow);
    let (done, stopped) = (script.stream(Dir::Uni, 10), script.stream(Dir::Uni, 10));
    let _ = script.stream(Dir::Uni, 3_980);
    script.conn(0).send_stream(done).finish().unwrap();
    script.conn(1).recv_stream(stopped).stop(7u32.into()).unwrap();
    script.pair.drive_server();
    script.pair.server.inbound.clear();
    script.pair.client.drive(script.pair.time + LATENCY, script.pair.server.addr);
    let answers = [done, stopped].map(|id| script.conn(0).send_stream(id).write(b"x"));
    script.say(format!("finished, stopped {:?}", answers));
    let mut script =
        scene("exact-credit", |config| drop(config.stream_receive_window(1_000u32.into())));
    let id = script.stream(Dir::Uni, 1_000);
    let _ = script.chunks(id, true);
    script.rest(0);
    let events = script.events();
    script.say(format!("{:?}", events));
}

#[test]
fn settings() {
    let window = |config: &mut TransportConfig| drop(config.receive_window((1u32 << 20).into()));
    let mut script = scene("window-grows-idle", window);
    let before = script.datagrams();
    script.conn(1).set_receive_window((1u32 << 22).into());
    script.rest(0);
    let datagrams = script.datagrams() - before;
    script.say(format!("{} datagrams", datagrams));
    let mut script =
        scene("window-shrinks-and-grows", |config| drop(config.receive_window(4_000u32.into())));
    for window in [2_000u32, 3_000] {
        script.conn(1).set_receive_window(window.into());
    }
    script.rest(0);
    let room = script.room();
    script.say(room);
    let mut script = scene("count-is-told", |_| {});
    script.conn(1).set_max_concurrent_streams(Dir::Uni, 200u32.into());
    script.rest(0);
    let events = script.events();
    script.say(format!("{:?}", events));
    let mut script = scene("count-falls-and-rises", |_| {});
    for count in [200u32, 0, 300] {
        script.conn(1).set_max_concurrent_streams(Dir::Uni, count.into());
        script.conn(0).ping();
        script.rest(0);
        let opened = std::iter::from_fn(|| script.conn(0).streams().open(Dir::Uni)).count();
        script.say(format!("{}: {} more", count, opened));
    }
}

#[test]
fn news() {
    let mut script = scene("readable", |_| {});
    let id = script.stream(Dir::Uni, 10);
    for _ in 0..3 {
        script.conn(0).send_stream(id).write(b"x").unwrap();
        script.rest(0);
    }
    let events = script.events();
    script.say(format!("{:?}", events));
    script.key = "pending-retransmits".into();
    script.conn(0).send_stream(id).reset(8u32.into()).unwrap();
    let pending = script.conn(0).has_pending_retransmits();
    script.say(pending);
    script.key = "connection".into();
    script.rest(0);
    script.conn(0).initiate_key_update();
    let _ = script.stream(Dir::Bi, 10);
    let (space, most) =
        (script.conn(0).datagrams().send_buffer_space(), script.conn(1).datagrams().max_size());
    let (address, ip) = (script.conn(0).remote_address().ip(), script.conn(0).local_ip());
    script.say(format!("{} {:?} {} {:?}", address, ip, space, most));
    let conn = script.conn(0);
    let (side, rtt, window) = (conn.side(), conn.rtt(), conn.congestion_state().window());
    let has_data = conn.crypto_session().handshake_data().is_some();
    let zero_rtt = (conn.has_0rtt(), conn.accepted_0rtt(), conn.is_handshaking());
    let text = format!("{:?} {:?} {} {} {:?}", side, rtt, window, has_data, zero_rtt);
    script.say(text);
}

// Each with a byte, and 1,000 bytes of window for a hundred of them.
const MANY: usize = 20_000;

fn many(key: &str) -> Script {
    scene(key, |config| {
        config.max_concurrent_uni_streams((MANY as u32).into());
        config.max_concurrent_bidi_streams((MANY as u32).into());
        config.receive_window((MANY as u32 * 10).into());
    })
}

#[test]
fn many_streams() {
    let mut script = many("many-streams");
    for _ in 0..MANY {
        let id = script.conn(0).streams().open(Dir::Uni).unwrap();
        assert_eq!(script.conn(0).send_stream(id).write(b"x"), Ok(1));
    }
    script.rest(0);
    let accepted: Vec<_> =
        std::iter::from_fn(|| script.conn(1).streams().accept(Dir::Uni)).collect();
    let told: BTreeSet<_> = accepted.iter().map(|&id| script.chunks(id, true)).collect();
    let is_closed = script.conn(1).is_closed();
    script.say(format!("{} come, {:?}, closed {}", accepted.len(), told, is_closed));
}

#[test]
fn many_answers() {
    let mut script = many("many-answers");
    let asked: Vec<_> =
        (0..MANY).map(|_| script.conn(0).streams().open(Dir::Bi).unwrap()).collect();
    for &id in &asked {
        assert_eq!(script.conn(0).send_stream(id).write(b"x"), Ok(1));
        script.conn(0).send_stream(id).finish().unwrap();
    }
    script.rest(0);
    while let Some(id) = script.conn(1).streams().accept(Dir::Bi) {
        let _ = script.chunks(id, true);
        assert_eq!(script.conn(1).send_stream(id).write(&bytes_of(id, 0, 1)), Ok(1));
        script.conn(1).send_stream(id).finish().unwrap();
    }
    script.rest(0);
    // None is read, but those at the edges.
    for id in [asked[0], asked[MANY - 1]] {
        script.read(0, id, 10);
    }
    let is_closed = script.conn(0).is_closed();
    script.say(format!("closed {}", is_closed));
}

// After a Retry, or a server with other protocols that refuses 0-RTT: then nothing that was sent before counts.
fn zero_rtt(key: &str, is_refused: bool) {
    let mut crypto = server_crypto();
    crypto.alpn_protocols = vec!["one".into(), "other".into()];
    let server =
        ServerConfig { use_retry: !is_refused, ..ServerConfig::with_crypto(Arc::new(crypto)) };
    let mut pair = Pair::new(Arc::new(EndpointConfig::default()), server);
    pair.latency = LATENCY;
    let mut crypto = client_crypto();
    crypto.alpn_protocols = vec!["one".into()];
    let client = pair.begin_connect(ClientConfig::new(Arc::new(crypto.clone())));
    pair.drive();
    pair.server.assert_accept();
    let time = pair.time;
    pair.client_conn_mut(client).close(time, VarInt(0), [][..].into());
    pair.drive();
    pair.client.connections.clear();
    pair.server.connections.clear();
    pair.client.addr.set_port(CLIENT_PORTS.lock().unwrap().next().unwrap());
    if is_refused {
        crypto.alpn_protocols = vec!["other".into()];
    }
    let client = pair.begin_connect(ClientConfig::new(Arc::new(crypto)));
    let conn = pair.client_conn_mut(client);
    conn.set_max_concurrent_streams(Dir::Uni, 200u32.into());
    conn.set_receive_window((1u32 << 21).into());
    let early: Vec<_> = (0..5).map(|_| conn.streams().open(Dir::Bi).unwrap()).collect();
    let written =
        early.iter().map(|&id| conn.send_stream(id).write(b"early").unwrap()).sum::<usize>();
    conn.send_stream(early[0]).reset(7u32.into()).unwrap();
    pair.drive();
    let server = pair.server.assert_accept();
    let accepted = pair.client_conn_mut(client).accepted_0rtt();
    let again = pair.client_streams(client).open(Dir::Bi);
    pair.client_conn_mut(client).ping();
    pair.drive();
    let opened = std::iter::from_fn(|| pair.server_streams(server).open(Dir::Uni)).count();
    let came = std::iter::from_fn(|| pair.server_streams(server).accept(Dir::Bi)).count();
    println!(
        "call {}: {} early, accepted {}, {:?}, {} opened, {} came",
        key, written, accepted, again, opened, came
    );
}

#[test]
fn early_data() {
    zero_rtt("early-data-refused", true);
    zero_rtt("early-data-after-retry", false);
}
