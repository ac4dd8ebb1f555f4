//! The fuzz target of the Rust crate. An input means here what it means to the target of the C library, `c/fuzz`: the same calls in the same
//! order, with the same checks. So both have the same digest of an input, up to the first memory that is refused.

mod codes;
mod events;
mod frames;
mod input;
mod looks;
mod packets;
#[path = "../../tests/support/refusing.rs"]
mod refusing;
mod seen;
mod streams;
mod world;

use codes::{Code, OK, OUT_OF_RANGE, TOO_MANY_STREAMS};
use gotsavena::{Endpoint, PeerLimits, Role, Settings, Share, Token, Tuning};
use input::Input;
use refusing::Memory;
use seen::Seen;
use world::{Digest, PACKETS, STREAMS, Side, World};

/// A window or a buffer, now and then of any size.
fn take_window(input: &mut Input<'_>) -> u64 {
    const SIZES: [u64; 8] = [1, 50, 1024, 4096, 20_000, 1 << 16, 1 << 18, 1 << 20];
    match input.byte() {
        0xf0.. => input.number(),
        code => SIZES[code as usize % SIZES.len()],
    }
}

/// What an endpoint is made with.
struct Plan {
    settings: Settings,
    tuning: Tuning,
    conn_window: u64,
    send_buffer: u64,
    bounds_writes: bool,
}

fn take_plan(input: &mut Input<'_>) -> Plan {
    let conn_window = take_window(input);
    let settings = Settings::default()
        .conn_window(conn_window)
        .bidi_local_window(take_window(input))
        .bidi_remote_window(take_window(input))
        .uni_window(take_window(input));
    let send_buffer = take_window(input);
    let grant_bidi = input.byte() % 80;
    let grant_uni = input.byte() % 80;
    let settings = settings
        .send_buffer(send_buffer as usize)
        .bidi_streams(grant_bidi, grant_bidi + input.byte())
        .uni_streams(grant_uni, grant_uni + input.byte());
    let shares = input.byte();
    let switches = input.byte();
    let send_window = (switches >> 3 & 1 != 0).then(|| take_window(input));
    let tuning = Tuning::default()
        .credit_step(share(shares % 4))
        .count_step((shares / 4 % 5).checked_sub(1).map(share))
        .within_credit(switches & 1 != 0)
        .reads_when_closed(switches & 2 != 0)
        .answers_stops(switches & 4 != 0)
        .send_window(send_window.filter(|&bytes| bytes > 0))
        .epoch(switches >> 4);
    let bounds_writes = switches & 1 != 0 || send_window.is_some_and(|bytes| bytes > 0);
    Plan {
        settings,
        tuning,
        conn_window,
        send_buffer,
        bounds_writes,
    }
}

fn share(code: u64) -> Share {
    [Share::Half, Share::Quarter, Share::Eighth, Share::Sixteenth][code as usize]
}

fn make_side(
    name: usize,
    role: Role,
    how: u64,
    plan: &Plan,
    peer: PeerLimits,
) -> Result<Side, u64> {
    const PLAIN: u64 = 1;
    const WITH_MEMORY: u64 = 2;
    let is_tuned = how & 3 != PLAIN && how & 3 != WITH_MEMORY;
    let made = if is_tuned {
        Endpoint::with_tuning(role, plan.settings, plan.tuning, peer)
    } else {
        Endpoint::new(role, plan.settings, peer)
    };
    Ok(Side {
        end: made.map_err(|fault| fault.number())?,
        name,
        role,
        memory: Memory::default(),
        is_refusable: how & 3 != PLAIN,
        bounds_writes: is_tuned && plan.bounds_writes,
        is_foreign: false,
        was_closed: false,
        widest: plan.conn_window,
        widest_buffer: plan.send_buffer,
        granted: 0,
        spent: 0,
        taken: 0,
        next_number: 0,
        joined: Token {
            epoch: 0,
            first: 0,
            number: 0,
        },
        seen: [Seen::default(); STREAMS],
        news: [0; STREAMS],
    })
}

/// What both endpoints are made with, and what each knows of the other one's limits.
fn take_plans(input: &mut Input<'_>, is_honest: bool) -> [(Plan, PeerLimits); 2] {
    let mut take = || {
        let plan = take_plan(input);
        let granted = if is_honest {
            plan.settings.limits()
        } else {
            streams::take_limits(input)
        };
        (plan, granted)
    };
    let (first, of_first) = take();
    let (second, of_second) = take();
    [(first, of_second), (second, of_first)]
}

/// Makes both endpoints; the digest alone if a setting is out of its range.
fn begin<'a>(mut input: Input<'a>) -> Result<World<'a>, u64> {
    let first = input.byte();
    let is_honest = first & 2 == 0;
    let plans = take_plans(&mut input, is_honest);
    let mut digest = Digest::new();
    let mut make = |at: usize| {
        let roles = [Role::Client, Role::Server];
        let role = roles[(first as usize & 1) ^ at];
        let (plan, peer) = &plans[at];
        let made = make_side(at, role, first >> (2 + 3 * at), plan, *peer);
        let status = codes::code(&made);
        let is_known = [OK, OUT_OF_RANGE, TOO_MANY_STREAMS].contains(&status);
        assert!(is_known, "an endpoint");
        digest.mix(status);
        made.map_err(|_| digest.value)
    };
    let sides = [make(0)?, make(1)?];
    let packets = [const { None }; PACKETS];
    let is_whole = is_honest;
    Ok(World {
        input,
        sides,
        packets,
        place: 0,
        is_honest,
        is_whole,
        digest,
    })
}

/// From here on one allocation of the side is refused, or some in a row.
fn refuse(w: &mut World<'_>, at: usize) {
    let until = w.input.byte() % 32;
    let count = w.input.byte() % 4;
    let s = &mut w.sides[at];
    s.memory.until = until;
    s.memory.refusals = if s.is_refusable { 1 + count } else { 0 };
    w.digest.is_compared = false;
}

type Call = fn(&mut World<'_>, usize);

/// In the order of the C target. One of its calls passes wrong arguments, which Rust hasn't.
const CALLS: [Call; 45] = [
    packets::make,
    packets::make,
    packets::make,
    packets::fill,
    packets::fill,
    packets::deliver,
    packets::deliver,
    packets::deliver,
    packets::lose,
    packets::acknowledge,
    packets::receive_raw,
    packets::receive_composed,
    packets::receive_composed,
    packets::take_composed,
    packets::use_number,
    packets::join,
    packets::carry,
    packets::carry,
    streams::open_one,
    streams::open_one,
    streams::accept_one,
    streams::write_some,
    streams::write_some,
    streams::write_some,
    streams::end_sending,
    streams::end_receiving,
    streams::read_some,
    streams::consume_some,
    streams::set_one,
    streams::raise_limits,
    streams::note_closed,
    events::hear,
    events::hear,
    events::report_blocked,
    refuse,
    looks::search,
    looks::look_close,
    |w, _| frames::read_frames(w),
    |w, _| frames::put_ranges(w),
    |_, _| (),
    packets::receive_pieces,
    packets::receive_numbers,
    packets::make_many,
    packets::receive_at_limit,
    packets::receive_at_count,
];

/// Plays an input, and returns a digest of the answers.
///
/// # Panics
///
/// Where something doesn't hold, with its words.
pub fn run(bytes: &[u8]) -> u64 {
    let mut w = match begin(Input(bytes)) {
        Ok(w) => w,
        Err(digest) => return digest,
    };
    let mut calls = 0;
    while !w.input.0.is_empty() {
        let which = w.input.byte();
        let at = usize::from(which >> 7 != 0);
        CALLS[(which & 0x7f) as usize % CALLS.len()](&mut w, at);
        looks::look(&mut w, at);
        calls += 1;
        if calls % 4 == 0 {
            looks::look_at_all(&mut w.sides[at]);
        }
    }
    for s in &mut w.sides {
        s.memory.refusals = 0;
    }
    packets::settle(&mut w);
    for at in [0, 1] {
        looks::look(&mut w, at);
        let seen = looks::look_at_all(&mut w.sides[at]);
        w.mix(seen);
        events::hear_all(&mut w, at);
    }
    w.digest.value
}
