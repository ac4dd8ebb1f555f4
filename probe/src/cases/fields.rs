//! Cases by field: credit of the connection, counts, ACK, layouts, types, and the frames that a transport judges itself.

use super::{CODE, Case, Context, MOST_TO_FILL, Need, Step, Whose, plain, send};
use crate::wire::{
    ACK, CRYPTO, DATA_BLOCKED, MAX_DATA, MAX_STREAM_DATA, MAX_STREAMS, MOST, RESET_STREAM,
    STOP_SENDING, STREAM, STREAM_DATA_BLOCKED, STREAMS_BLOCKED, frame, push_long, push_varint,
};
use gotsavena::Dir;

type OfStream = fn(u64) -> Vec<u8>;
type OfContext = fn(&Context<'_>, u64) -> Vec<u8>;

/// The greatest count of streams (RFC 9000, section 4.6).
const MOST_STREAMS: u64 = 1 << 60;
/// The place of a stream that no filling touches.
const FREE: u64 = MOST_TO_FILL + 1;

fn one(name: &str, payload: Vec<u8>) -> Case {
    Case::new(name, vec![plain(payload)])
}

fn uni(context: &Context<'_>, index: u64) -> u64 {
    context.id(Whose::Peers, Dir::Uni, index)
}

fn bidi(context: &Context<'_>, index: u64) -> u64 {
    context.id(Whose::Peers, Dir::Bidi, index)
}

// After all credit was used up a stream is touched, which is new or open.
fn credit() -> Vec<Case> {
    let kinds: [(&str, u64, OfContext); 7] = [
        ("stream-byte", 1, |context, stream| {
            context.stream(stream, 0, 1, false)
        }),
        ("stream-empty", 0, |context, stream| {
            context.stream(stream, 0, 0, false)
        }),
        ("stream-empty", 1, |context, stream| {
            context.stream(stream, 1, 0, false)
        }),
        ("stream-fin", 0, |context, stream| {
            context.stream(stream, 0, 0, true)
        }),
        ("stream-fin", 1, |context, stream| {
            context.stream(stream, 1, 0, true)
        }),
        ("reset-stream", 0, |_, stream| {
            frame(RESET_STREAM, &[stream, CODE, 0])
        }),
        ("reset-stream", 1, |_, stream| {
            frame(RESET_STREAM, &[stream, CODE, 1])
        }),
    ];
    let mut all = Vec::new();
    for (kind, by, make) in kinds {
        for state in ["new", "open"] {
            let mut steps = Vec::new();
            if state == "open" {
                steps.push(send(|context| {
                    context.stream(uni(context, FREE), 0, 0, false)
                }));
            }
            steps.push(send(|context| context.fill(0, false)));
            steps.push(send(move |context| make(context, uni(context, FREE))));
            let sign = if by == 0 {
                "credit".to_owned()
            } else {
                format!("credit+{by}")
            };
            let name = format!("{kind}/peers-uni/{state}/{sign}");
            let mut case = Case::new(name, steps).needs(&[Need::Credit]);
            // HTTP/3 refuses a stream whose type lacks.
            if kind == "stream-fin" && by == 0 {
                case = case.needs(&[Need::AnyBytes]);
            }
            all.push(case);
        }
    }
    let filled = [
        ("credit/exact", 0, false),
        ("credit/past", 1, false),
        ("credit/exact-by-resets", 0, true),
        ("credit/past-by-resets", 1, true),
    ];
    for (name, past, by_resets) in filled {
        let step = send(move |context| context.fill(past, by_resets));
        all.push(Case::new(name, vec![step]).needs(&[Need::Credit]));
    }
    let both = Step::Both(
        Box::new(|context| context.fill(0, true)),
        Box::new(|context| frame(RESET_STREAM, &[uni(context, FREE), CODE, 1])),
    );
    let mut crossing = Case::new("credit/past-by-resets-of-two-packets", vec![both]);
    crossing.by_order = true;
    all.push(crossing.needs(&[Need::Credit]));
    all
}

// What comes again uses no credit (RFC 9000, sections 2.2 and 4.1).
fn again() -> Vec<Case> {
    let repeat = |context: &Context<'_>| {
        let stream = uni(context, 0);
        context.stream(stream, context.limit(stream) - 400, 400, false)
    };
    let overlap = |context: &Context<'_>| {
        let stream = uni(context, 0);
        context.stream(stream, context.limit(stream) - 300, 300, false)
    };
    let first = |context: &Context<'_>| context.stream(uni(context, 0), 100, 900, false);
    let mut many: Vec<Step> = (0..30).map(|_| send(first)).collect();
    many.push(send(|context| {
        context.stream(uni(context, 0), 500, 600, false)
    }));
    let tails = |context: &Context<'_>| context.fill(0, false);
    vec![
        Case::new("again/30-times", many),
        Case::new(
            "again/at-limit",
            vec![send(repeat), send(repeat), send(overlap)],
        )
        .needs(&[Need::Limit(Whose::Peers, Dir::Uni)]),
        Case::new("again/at-credit", vec![send(tails), send(tails)]).needs(&[Need::Credit]),
        Case::new(
            "again/bytes-at-credit",
            vec![send(repeat), send(tails), send(repeat)],
        )
        .needs(&[Need::Limit(Whose::Peers, Dir::Uni), Need::Credit]),
        Case::new(
            "again/fin",
            vec![
                send(|context| context.stream(uni(context, 0), 30, 10, true)),
                send(|context| context.stream(uni(context, 0), 30, 10, true)),
                send(|context| context.stream(uni(context, 0), 0, 30, false)),
            ],
        ),
        Case::new(
            "again/other-bytes",
            vec![
                send(|context| context.stream(uni(context, 0), 100, 10, false)),
                send(|context| {
                    let mut text = context.stream(uni(context, 0), 100, 10, false);
                    if let Some(last) = text.last_mut() {
                        *last ^= 0xff;
                    }
                    text
                }),
            ],
        ),
        Case::new(
            "again/packet",
            vec![Step::Twice(Box::new(|context| {
                context.stream(uni(context, 0), 0, 3, false)
            }))],
        ),
        Case::new(
            "again/reset-of-another-code",
            vec![
                send(|context| frame(RESET_STREAM, &[uni(context, 0), CODE, 40])),
                send(|context| frame(RESET_STREAM, &[uni(context, 0), CODE - 1, 40])),
            ],
        ),
    ]
}

// What was read is known no less than what is stored (RFC 9000, section 4.5).
fn read() -> Vec<Case> {
    let mut all = Vec::new();
    for (name, dir) in [("bidi", Dir::Bidi), ("uni", Dir::Uni)] {
        let stream = move |context: &Context<'_>| context.id(Whose::Peers, dir, 0);
        let whole = move || send(move |context| context.stream(stream(context), 0, 100, false));
        let ends: [(&str, OfStream); 2] = [
            ("reset-stream", |stream| {
                frame(RESET_STREAM, &[stream, CODE, 99])
            }),
            ("stream-fin", |stream| {
                frame(STREAM | 0x01, &[stream, 50, 0])
            }),
        ];
        for (kind, make) in ends {
            let steps = vec![whole(), send(move |context| make(stream(context)))];
            let mut case = Case::new(format!("{kind}/peers-{name}/read/highest-1"), steps);
            if kind == "stream-fin" && dir == Dir::Bidi {
                case = case.needs(&[Need::AnyBytes]);
            }
            all.push(case);
        }
        let empty = vec![send(move |context| {
            context.stream(stream(context), 0, 0, true)
        })];
        let name = format!("stream-fin/peers-{name}/new/zero");
        all.push(Case::new(name, empty).needs(&[Need::AnyBytes]));
    }
    all
}

// A frame opens its stream and all below (RFC 9000, sections 2.1 and 3.2), which take data later.
fn opening() -> Vec<Case> {
    let kinds: [(&str, OfStream); 5] = [
        ("reset-stream", |stream| {
            frame(RESET_STREAM, &[stream, CODE, 0])
        }),
        ("stream-data-blocked", |stream| {
            frame(STREAM_DATA_BLOCKED, &[stream, 0])
        }),
        ("stop-sending", |stream| {
            frame(STOP_SENDING, &[stream, CODE])
        }),
        ("max-stream-data", |stream| {
            frame(MAX_STREAM_DATA, &[stream, 1 << 20])
        }),
        ("stream-empty", |stream| frame(STREAM, &[stream, 0, 0])),
    ];
    let mut all = Vec::new();
    for (kind, make) in kinds {
        for dir in [Dir::Bidi, Dir::Uni] {
            let is_for_senders = matches!(kind, "stop-sending" | "max-stream-data");
            if dir == Dir::Uni && is_for_senders {
                continue;
            }
            let name = if dir == Dir::Bidi { "bidi" } else { "uni" };
            let steps = vec![
                send(move |context| make(context.id(Whose::Peers, dir, 5))),
                Step::Over(
                    Box::new(move |context| context.id(Whose::Peers, dir, 2)),
                    40,
                ),
            ];
            all.push(Case::new(format!("opens/{kind}/{name}"), steps).needs(&[Need::Streams(6)]));
        }
    }
    all
}

fn counts() -> Vec<Case> {
    let answered = || Step::Over(Box::new(|context| bidi(context, 0)), 40);
    let list = [
        ("max-streams-bidi", MAX_STREAMS, 0),
        ("max-streams-uni", MAX_STREAMS + 1, 0),
        ("streams-blocked-bidi", STREAMS_BLOCKED, 5),
        ("streams-blocked-uni", STREAMS_BLOCKED + 1, 5),
    ];
    let mut all = Vec::new();
    for (name, kind, low) in list {
        for (at, count) in [
            (low.to_string(), low),
            ("2^60-1".to_owned(), MOST_STREAMS - 1),
            ("2^60".to_owned(), MOST_STREAMS),
            ("2^60+1".to_owned(), MOST_STREAMS + 1),
            ("greatest".to_owned(), MOST),
        ] {
            let steps = vec![plain(frame(kind, &[count])), answered()];
            all.push(Case::new(format!("{name}/{at}"), steps));
        }
    }
    for (name, kind) in [("max-data", MAX_DATA), ("data-blocked", DATA_BLOCKED)] {
        for (at, number) in [("0", 0), ("greatest", MOST)] {
            let steps = vec![plain(frame(kind, &[number])), answered()];
            all.push(Case::new(format!("{name}/{at}"), steps));
        }
    }
    all
}

fn layouts() -> Vec<Case> {
    let cut: [(&str, &[u8]); 14] = [
        ("type", &[0x40]),
        ("max-data", &[0x10]),
        ("max-data-2", &[0x10, 0x80, 1]),
        ("stream-length", &[0x0e, 2, 0, 9, 0x21]),
        ("stream-offset", &[0x0e, 2]),
        ("reset-stream", &[0x04, 2, 7]),
        ("stop-sending", &[0x05, 0]),
        ("ack", &[0x02, 0, 0, 1, 0]),
        ("crypto", &[0x06, 0, 9, 1]),
        ("path-challenge", &[0x1a, 1, 2, 3]),
        ("max-streams", &[0x12]),
        ("streams-blocked", &[0x16]),
        ("stream-data-blocked", &[0x15, 0]),
        ("connection-close", &[0x1c, 0, 0, 9]),
    ];
    let mut all: Vec<Case> = cut
        .into_iter()
        .map(|(name, text)| one(&format!("cut/{name}"), text.to_vec()))
        .collect();
    let long_type = |context: &Context<'_>| {
        let mut text = vec![0x40];
        text.extend(context.stream(uni(context, 0), 0, 3, false));
        text
    };
    let long_numbers = |context: &Context<'_>| {
        let stream = uni(context, 0);
        let bytes = context.stream(stream, 0, 3, false).split_off(4);
        let mut text = vec![0x0e];
        for number in [stream, 0, 3] {
            push_long(&mut text, number);
        }
        text.extend(bytes);
        text
    };
    let past = |stream: fn(&Context<'_>) -> u64| {
        move |context: &Context<'_>| context.stream(stream(context), MOST, 1, false)
    };
    let to_the_end = |context: &Context<'_>| {
        let bytes = context.stream(uni(context, 0), 0, 9, false).split_off(4);
        [frame(0x0c, &[uni(context, 0), 0]), bytes].concat()
    };
    let without_offset = |context: &Context<'_>| {
        let bytes = context.stream(uni(context, 0), 0, 9, false).split_off(4);
        [frame(0x0a, &[uni(context, 0), 9]), bytes].concat()
    };
    let length = |context: &Context<'_>| frame(STREAM, &[uni(context, 0), 0, MOST, 0x21]);
    all.extend([
        one("empty-payload", Vec::new()),
        one("padding", vec![0; 30]),
        one("pings", vec![1; 30]),
        one("long-type/ping", vec![0x40, 0x01]),
        Case::new("long-type/stream", vec![send(long_type)]),
        Case::new("long-numbers", vec![send(long_numbers)]),
        Case::new(
            "offset-past-2^62-1/bidi",
            vec![send(past(|context| bidi(context, 0)))],
        ),
        Case::new(
            "offset-past-2^62-1/uni",
            vec![send(past(|context| uni(context, 0)))],
        ),
        one(
            "offset-past-2^62-1/crypto",
            [frame(CRYPTO, &[MOST, 1]), vec![0]].concat(),
        ),
        Case::new("stream-to-the-end", vec![send(to_the_end)]),
        Case::new("stream-without-offset", vec![send(without_offset)]),
        Case::new("stream-length/greatest", vec![send(length)]),
    ]);
    let unknown = [
        ("0x1f", 0x1f),
        ("0x21", 0x21),
        ("0xff", 0xff),
        ("greatest", MOST),
        ("datagram", 0x31),
        ("reserved", 31 * 1000 + 27),
    ];
    for (name, kind) in unknown {
        let mut text = Vec::new();
        push_varint(&mut text, kind);
        // (two PINGs behind it, lest these be refused where the type isn't; or a datagram of a byte)
        text.extend([1, 1]);
        all.push(one(&format!("unknown-type/{name}"), text));
    }
    all
}

fn acks() -> Vec<Case> {
    let of_largest = |make: fn(u64) -> Vec<u8>| send(move |context| make(context.largest));
    vec![
        one("ack/unsent", frame(ACK, &[1 << 30, 0, 0, 0])),
        one("ack/greatest", frame(ACK, &[MOST, 0, 0, 0])),
        Case::new(
            "ack/next",
            vec![
                plain(vec![1]),
                // (until it has acknowledged all: it may delay that by 25 ms)
                Step::Pause(100),
                of_largest(|largest| frame(ACK, &[largest + 1, 0, 0, 0])),
            ],
        ),
        one("ack/first-range-below-0", frame(ACK, &[0, 0, 0, 1])),
        one("ack/gap-below-0", frame(ACK, &[1, 0, 1, 0, 0, 0])),
        one("ack/range-below-0", frame(ACK, &[2, 0, 1, 0, 0, 1])),
        Case::new(
            "ack/ecn",
            vec![of_largest(|largest| {
                frame(0x03, &[largest, 0, 0, 0, 0, 0, 0])
            })],
        ),
        Case::new(
            "ack/again",
            vec![
                of_largest(|largest| frame(ACK, &[largest, 0, 0, 0])),
                of_largest(|largest| frame(ACK, &[largest, 0, 0, 0])),
            ],
        ),
        Case::new(
            "ack/delay-greatest",
            vec![of_largest(|largest| frame(ACK, &[largest, MOST, 0, 0]))],
        ),
        Case::new(
            "ack/count-greatest",
            vec![of_largest(|largest| frame(ACK, &[largest, 0, MOST, 0]))],
        ),
    ]
}

fn identifier(sequence: u64, retire: u64, len: u8) -> Vec<u8> {
    let mut text = frame(0x18, &[sequence, retire]);
    text.push(len);
    text.extend(vec![sequence as u8 ^ 0x5a; usize::from(len)]);
    text.extend([sequence as u8; 16]);
    text
}

fn of_transport() -> Vec<Case> {
    let in_order = |context: &Context<'_>| {
        let stream = uni(context, 0);
        [
            context.stream(stream, 0, 3, false),
            frame(STOP_SENDING, &[stream, CODE]),
            vec![0x21],
        ]
        .concat()
    };
    let too_many = (1..=12).map(|sequence| {
        send(move |context| match sequence <= context.active_ids + 1 {
            true => identifier(sequence, 0, 8),
            false => vec![1],
        })
    });
    let identifiers = vec![
        one("new-connection-id/of-0-bytes", identifier(1, 0, 0)),
        one("new-connection-id/of-21-bytes", identifier(1, 0, 21)),
        one("new-connection-id/retires-more", identifier(1, 2, 8)),
        Case::new(
            "new-connection-id/again",
            vec![plain(identifier(1, 0, 8)), plain(identifier(1, 0, 8))],
        ),
        Case::new("new-connection-id/too-many", too_many.collect()),
    ];
    let identifiers = identifiers
        .into_iter()
        .map(|case| case.needs(&[Need::Server]));
    let others = vec![
        one("new-token", vec![7, 3, 1, 2, 3]),
        one("handshake-done", vec![0x1e]),
        one("retire-connection-id/never-issued", frame(0x19, &[1000])),
        one("path-response", vec![0x1b, 1, 2, 3, 4, 5, 6, 7, 8]),
        Case::new("order/first-fault-counts", vec![send(in_order)]),
    ];
    identifiers.chain(others).collect()
}

pub fn all() -> Vec<Case> {
    let lists: [fn() -> Vec<Case>; 8] = [
        credit,
        again,
        read,
        opening,
        counts,
        layouts,
        acks,
        of_transport,
    ];
    lists.into_iter().flat_map(|list| list()).collect()
}
