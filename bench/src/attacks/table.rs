//! The attacks, each with its three sizes.

use super::crowds as c;
use super::packets as p;
use super::play::{Attack, Setup, Target};
use super::streams as s;

const SERVER: Setup = Setup {
    window: 1 << 20,
    streams: 100,
    max_data: 1 << 40,
    max_stream_data: 1 << 40,
    send_buffer: 1 << 20,
    within_credit: false,
};
/// Windows for a path of high bandwidth and long delay.
const WIDE: Setup = Setup {
    window: 1 << 28,
    ..SERVER
};
/// The peer may open 4,096 streams at once.
pub const BUSY: Setup = Setup {
    streams: 4096,
    ..SERVER
};
/// The peer may open 65,536 at once.
const CROWDED: Setup = Setup {
    streams: 1 << 16,
    ..SERVER
};
const CROWDED_TIGHT: Setup = Setup {
    max_stream_data: 10,
    ..CROWDED
};
/// The peer's limits: for each stream, or for all together.
const TIGHT: Setup = Setup {
    max_stream_data: 10,
    ..BUSY
};
const POOR: Setup = Setup {
    max_data: 10,
    ..BUSY
};
/// The same, with writes bounded by credit, or by send buffers of that size.
const TIGHT_WITHIN: Setup = Setup {
    within_credit: true,
    ..TIGHT
};
const POOR_WITHIN: Setup = Setup {
    within_credit: true,
    ..POOR
};
const TIGHT_BUFFERS: Setup = Setup {
    send_buffer: 10,
    ..TIGHT
};
const BYTEWISE: Setup = Setup {
    max_stream_data: 1,
    ..SERVER
};

impl<T: Target + 'static> Attack<T> {
    pub const BY_BYTES: &'static [Attack<T>] = &[
        Attack {
            name: "two-stopped",
            what: "of so many opened streams two are stopped, and a byte of both comes again",
            sizes: [4096, 16_384, 65_536],
            setup: SERVER,
            ready: s::two_stopped,
            steps: |_| 200,
            step: s::repeat_both,
        },
        Attack {
            name: "reset-over-holes",
            what: "on so many streams 4,096 bytes come, each second one, then a reset, which is read",
            sizes: [4, 16, 64],
            setup: SERVER,
            ready: p::nothing,
            steps: s::reset_payloads,
            step: s::reset_over_holes,
        },
        Attack {
            name: "stopped-holes",
            what: "of a stopped stream so many bytes come, each second one",
            sizes: [12_800, 51_200, 204_800],
            setup: SERVER,
            ready: s::stopped,
            steps: s::by_many,
            step: s::stopped_holes,
        },
        Attack {
            name: "far-byte",
            what: "one payload brings the first byte of 16 streams, at this offset",
            sizes: [65_535, 262_143, 1_048_575],
            setup: BUSY,
            ready: p::nothing,
            steps: |_| 64,
            step: s::far_byte,
        },
        Attack {
            name: "near-and-far-byte",
            what: "the same, with the byte at 1 before it",
            sizes: [32_768, 131_072, 524_288],
            setup: BUSY,
            ready: p::nothing,
            steps: |_| 64,
            step: s::near_and_far_byte,
        },
        Attack {
            name: "bytes-apart",
            what: "on each of four streams 16 bytes come, each so far behind the one before it, then resets, which are read",
            sizes: [2047, 2048, 65_535],
            setup: BUSY,
            ready: p::nothing,
            steps: |_| 256,
            step: s::bytes_apart,
        },
        Attack {
            name: "many-apart",
            what: "the same with 64 bytes on one stream",
            sizes: [2047, 2048, 16_383],
            setup: BUSY,
            ready: p::nothing,
            steps: |_| 256,
            step: s::many_apart,
        },
        Attack {
            name: "edges-apart",
            what: "the same with two bytes each, over a multiple of the distance",
            sizes: [2047, 2048, 16_383],
            setup: BUSY,
            ready: p::nothing,
            steps: |_| 256,
            step: s::edges_apart,
        },
        Attack {
            name: "drawn-up",
            what: "on each of 32 streams a byte comes at this distance, then the one before it, then resets, which are read",
            sizes: [2047, 2048, 16_383],
            setup: BUSY,
            ready: p::nothing,
            steps: |_| 128,
            step: s::drawn_up,
        },
        Attack {
            name: "pages-then-filled",
            what: "a byte in each of so many pages of 2 KiB past the first, then the one before them",
            sizes: [252, 4092, 16_380],
            setup: WIDE,
            ready: p::nothing,
            steps: |pages| pages + 1,
            step: s::page_or_gap,
        },
        Attack {
            name: "window-downwards",
            what: "each second byte of so many of the connection's credit, the last one first",
            sizes: [1 << 16, 1 << 20, 1 << 24],
            setup: SERVER,
            ready: p::nothing,
            steps: s::by_twice_many,
            step: s::window_downwards,
        },
        Attack {
            name: "window-upwards",
            what: "the same in order",
            sizes: [1 << 16, 1 << 20, 1 << 24],
            setup: SERVER,
            ready: p::nothing,
            steps: s::by_twice_many,
            step: s::window_upwards,
        },
        Attack {
            name: "window-scattered",
            what: "the same in no order",
            sizes: [1 << 16, 1 << 20, 1 << 22],
            setup: SERVER,
            ready: p::nothing,
            steps: s::by_twice_many,
            step: s::window_scattered,
        },
        Attack {
            name: "byte-on-each",
            what: "a byte comes on each of so many streams that the end opened",
            sizes: [4096, 16_384, 65_536],
            setup: SERVER,
            ready: s::own_streams,
            steps: s::by_many,
            step: s::byte_on_each,
        },
        Attack {
            name: "three-quarters",
            what: "of so many streams the last byte of a window came first, and three quarters of it were read",
            sizes: [8, 16, 32],
            setup: SERVER,
            ready: p::nothing,
            steps: s::quarters_payloads,
            step: s::three_quarters,
        },
    ];

    pub const BY_ACKS: &'static [Attack<T>] = &[
        Attack {
            name: "acked-ranges",
            what: "an ACK of so many ranges, and the packets that it newly acknowledges are reported",
            sizes: [150, 300, 600],
            setup: SERVER,
            ready: p::nothing,
            steps: |_| 20,
            step: p::many_ranges,
        },
        Attack {
            name: "acked-padded",
            what: "an ACK of so many packets beside padding up to 1,200 bytes, and those that it newly acknowledges are reported",
            sizes: [250, 1000, 4000],
            setup: SERVER,
            ready: p::nothing,
            steps: |_| 10,
            step: p::padded_ack,
        },
        Attack {
            name: "all-but-first",
            what: "of so many packets all but the first are acknowledged, and then each one more",
            sizes: [5000, 10_000, 20_000],
            setup: SERVER,
            ready: p::all_but_first,
            steps: |_| 200,
            step: p::next_packet,
        },
        Attack {
            name: "ack-again",
            what: "an ACK of all so many packets but the first and the last comes again, 100 times in one payload",
            sizes: [16_000, 32_000, 64_000],
            setup: SERVER,
            ready: p::all_between,
            steps: |_| 50,
            step: p::ack_again,
        },
    ];

    pub const BY_ITEMS: &'static [Attack<T>] = &[
        Attack {
            name: "one-ping",
            what: "a PING is answered in a room of so many bytes",
            sizes: [1200, 4096, 16_383],
            setup: SERVER,
            ready: p::nothing,
            steps: |_| 1,
            step: p::ping_in,
        },
        Attack {
            name: "ping-beside-limits",
            what: "a PING is answered while so many streams stand at their limits",
            sizes: [100, 640, 4096],
            setup: TIGHT,
            ready: p::blocked,
            steps: |_| 200,
            step: p::ping,
        },
        Attack {
            name: "ping-beside-starved",
            what: "a PING is answered while so many streams wait for the connection's credit",
            sizes: [100, 640, 4096],
            setup: POOR,
            ready: p::blocked,
            steps: |_| 200,
            step: p::ping,
        },
        Attack {
            name: "ping-beside-resets",
            what: "a PING is answered while so many streams have a reset that isn't acknowledged",
            sizes: [100, 640, 4096],
            setup: BUSY,
            ready: p::resets,
            steps: |_| 200,
            step: p::ping,
        },
        Attack {
            name: "news-beside-limits",
            what: "a PING, then the application asks for events, while so many writers wait for their streams' credit",
            sizes: [100, 640, 4096],
            setup: TIGHT_WITHIN,
            ready: p::waiting,
            steps: |_| 200,
            step: p::ping_heard,
        },
        Attack {
            name: "news-beside-starved",
            what: "the same, while they wait for the connection's credit",
            sizes: [100, 640, 4096],
            setup: POOR_WITHIN,
            ready: p::waiting,
            steps: |_| 200,
            step: p::ping_heard,
        },
        Attack {
            name: "news-beside-full",
            what: "the same, while they wait for room in their buffers, which their streams' credit holds back",
            sizes: [100, 640, 4096],
            setup: TIGHT_BUFFERS,
            ready: p::waiting,
            steps: |_| 200,
            step: p::ping_heard,
        },
        Attack {
            name: "said-beside-limits",
            what: "150 STREAM_DATA_BLOCKED in place of the PING, each of which is news",
            sizes: [100, 640, 4096],
            setup: TIGHT_WITHIN,
            ready: p::waiting,
            steps: |_| 200,
            step: p::said_heard,
        },
        Attack {
            name: "stops-beside-limits",
            what: "ten STOP_SENDING of further writers in place of the PING",
            sizes: [100, 640, 4096],
            setup: TIGHT_WITHIN,
            ready: p::waiting,
            steps: |_| 20,
            step: p::stops_heard,
        },
        Attack {
            name: "blocked-below",
            what: "so often a stream was blocked at another limit, and now a lower stream is",
            sizes: [10_000, 30_000, 100_000],
            setup: BYTEWISE,
            ready: p::blocked_often,
            steps: |_| 100,
            step: p::blocked_below,
        },
        Attack {
            name: "stop-downwards",
            what: "so many streams are stopped by STOP_SENDING, the last one first, and each is answered",
            sizes: [100, 640, 4096],
            setup: BUSY,
            ready: p::sending,
            steps: |streams| streams,
            step: p::stop_downwards,
        },
        Attack {
            name: "stops-beside-blocked",
            what: "of so many streams a hundred at a time are stopped, while a lower one is blocked and finds no room to say so",
            sizes: [1000, 4000, 16_000],
            setup: TIGHT,
            ready: p::one_blocked,
            steps: |streams| streams / 100,
            step: p::stop_hundred,
        },
        Attack {
            name: "stop-again",
            what: "so many STOP_SENDING of one stream come in one payload, each with a new code",
            sizes: [40, 80, 160],
            setup: SERVER,
            ready: p::one_sending,
            steps: |_| 200,
            step: p::stop_again,
        },
    ];
    pub const BY_CROWDS: &'static [Attack<T>] = &[
        Attack {
            name: "news-beside-stopped",
            what: "a PING comes, the application asks for events, and it is answered, after so many requests of which the peer stopped each 64th",
            sizes: [4096, 16_384, 65_536],
            setup: BUSY,
            ready: c::requests_stopped,
            steps: |_| 200,
            step: c::ping_and_news,
        },
        Attack {
            name: "news-beside-own-stopped",
            what: "the same after so many streams that the end opened, of which the peer stopped each 64th",
            sizes: [4096, 16_384, 65_536],
            setup: BUSY,
            ready: c::own_stopped,
            steps: |_| 200,
            step: c::ping_and_news,
        },
        Attack {
            name: "news-beside-open",
            what: "the same after so many requests of which each 64th stays open",
            sizes: [4096, 16_384, 65_536],
            setup: BUSY,
            ready: c::requests_open,
            steps: |_| 200,
            step: c::ping_and_news,
        },
        Attack {
            name: "news-beside-half-over",
            what: "the same beside so many streams of which one half is over, by turns",
            sizes: [4096, 16_384, 65_536],
            setup: CROWDED,
            ready: c::half_over,
            steps: |_| 200,
            step: c::ping_and_news,
        },
        Attack {
            name: "news-beside-half-told",
            what: "the same beside so many streams with a byte that was told, and read of each second one",
            sizes: [4096, 16_384, 65_536],
            setup: CROWDED,
            ready: c::half_told,
            steps: |_| 200,
            step: c::ping_and_news,
        },
        Attack {
            name: "news-beside-half-read",
            what: "the same beside so many streams of which each second one was read in part",
            sizes: [4096, 16_384, 65_536],
            setup: CROWDED,
            ready: c::half_read,
            steps: |_| 200,
            step: c::ping_and_news,
        },
        Attack {
            name: "news-beside-short",
            what: "the same beside so many streams with room to write, but that each 64th was cut short",
            sizes: [4096, 16_384, 65_536],
            setup: TIGHT_BUFFERS,
            ready: c::short_beside_writable,
            steps: |_| 200,
            step: c::ping_and_news,
        },
        Attack {
            name: "last-of-told",
            what: "a byte comes on the last of so many streams, of which 63 of 64 have a byte that was told, and is told and read",
            sizes: [4096, 16_384, 65_536],
            setup: CROWDED,
            ready: c::most_told,
            steps: |_| 200,
            step: c::last_of_told,
        },
        Attack {
            name: "ends-in-strides",
            what: "so many streams end, each time another of its 64, and the application asks for events",
            sizes: [4096, 16_384, 65_536],
            setup: CROWDED,
            ready: c::open_all,
            steps: |streams| streams,
            step: c::end_in_strides,
        },
        Attack {
            name: "crowd-by-one",
            what: "one frame opens so many streams",
            sizes: [4096, 16_384, 65_536],
            setup: CROWDED,
            ready: p::nothing,
            steps: |_| 1,
            step: c::open_by_one,
        },
        Attack {
            name: "resets-above-blocked",
            what: "64 streams are opened by STOP_SENDING, above so many that stand at their limits, and the resets are sent",
            sizes: [1024, 4096, 16_384],
            setup: CROWDED_TIGHT,
            ready: c::blocked,
            steps: |_| 100,
            step: c::resets_above,
        },
    ];
}
