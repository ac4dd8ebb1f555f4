//! Cases of what an endpoint has to send, and of what it may not send any more.

use super::{CODE, Case, Context, Need, Owed, Step, Whose, plain, send};
use crate::wire::{RESET_STREAM, STOP_SENDING, frame};
use gotsavena::Dir;

fn stop(whose: Whose, dir: Dir) -> Step {
    send(move |context| frame(STOP_SENDING, &[context.id(whose, dir, 0), CODE]))
}

fn stops() -> Vec<Case> {
    let own = |dir| [Need::AnyBytes, Need::Own(dir)];
    let open = |context: &Context<'_>| {
        context.stream(context.id(Whose::Peers, Dir::Bidi, 0), 10, 20, false)
    };
    vec![
        Case::new(
            "stops/own-bidi",
            vec![
                stop(Whose::Own, Dir::Bidi),
                Step::Owes(Owed::Reset(Whose::Own, Dir::Bidi)),
            ],
        )
        .needs(&own(Dir::Bidi)),
        Case::new(
            "stops/own-uni",
            vec![
                stop(Whose::Own, Dir::Uni),
                Step::Owes(Owed::Reset(Whose::Own, Dir::Uni)),
            ],
        )
        .needs(&own(Dir::Uni)),
        Case::new(
            "stops/peers-bidi/new",
            vec![
                stop(Whose::Peers, Dir::Bidi),
                Step::Owes(Owed::Reset(Whose::Peers, Dir::Bidi)),
            ],
        )
        .needs(&[Need::AnyBytes]),
        Case::new(
            "stops/peers-bidi/open",
            vec![
                send(open),
                stop(Whose::Peers, Dir::Bidi),
                Step::Owes(Owed::Reset(Whose::Peers, Dir::Bidi)),
            ],
        ),
        Case::new(
            "stops/unacknowledged-answer",
            vec![
                Step::Quiet(true),
                Step::Over(
                    Box::new(|context| context.id(Whose::Peers, Dir::Bidi, 0)),
                    40,
                ),
                stop(Whose::Peers, Dir::Bidi),
                Step::Pause(1200),
                Step::Quiet(false),
            ],
        ),
        Case::new(
            "stops/and-resets",
            vec![
                send(open),
                send(|context| {
                    let stream = context.id(Whose::Peers, Dir::Bidi, 0);
                    [
                        frame(RESET_STREAM, &[stream, CODE, 40]),
                        frame(STOP_SENDING, &[stream, CODE]),
                    ]
                    .concat()
                }),
                send(|context| {
                    context.stream(context.id(Whose::Peers, Dir::Bidi, 0), 30, 10, true)
                }),
                stop(Whose::Peers, Dir::Bidi),
            ],
        ),
    ]
}

// What was read or given up is granted again, without being asked for (RFC 9000, sections 4.2 and 4.6).
fn credit(dir: Dir, name: &str) -> Vec<Case> {
    let stream = move |index| move |context: &Context<'_>| context.id(Whose::Peers, dir, index);
    let mut resets = Vec::new();
    for index in 0..4 {
        resets.push(send(move |context| {
            let id = stream(index)(context);
            let size = context.limit(id).min(context.seen.max_data / 4);
            frame(RESET_STREAM, &[id, CODE, size])
        }));
    }
    resets.push(Step::Owes(Owed::Data));
    let ended = |is_reset: bool| -> Vec<Step> {
        let steps = (0..16).map(|index| match is_reset {
            false => Step::Over(Box::new(stream(index)), 40),
            true => send(move |context| {
                let id = stream(index)(context);
                let mut text = frame(RESET_STREAM, &[id, CODE, 0]);
                if dir == Dir::Bidi {
                    text.extend(frame(STOP_SENDING, &[id, CODE]));
                }
                text
            }),
        });
        steps.chain([Step::Owes(Owed::Streams(dir))]).collect()
    };
    // HTTP/3 may read no unidirectional stream of a type that it doesn't know.
    let of_http: &[Need] = if dir == Dir::Uni {
        &[Need::AnyBytes]
    } else {
        &[]
    };
    vec![
        Case::new(
            format!("grants/stream-data/{name}"),
            vec![
                Step::FillStream(dir),
                Step::Owes(Owed::Stream(dir)),
                Step::FillStream(dir),
                Step::FillStream(dir),
                Step::Owes(Owed::Data),
            ],
        )
        .needs(&[
            Need::Limit(Whose::Peers, dir),
            Need::SmallLimit(Whose::Peers, dir),
        ])
        .needs(of_http),
        Case::new(format!("grants/data-of-resets/{name}"), resets)
            .needs(&[Need::Limit(Whose::Peers, dir), Need::Streams(4)]),
        Case::new(format!("grants/streams/{name}"), ended(false)).needs(&[Need::Streams(16)]),
        Case::new(format!("grants/streams-of-resets/{name}"), ended(true))
            .needs(&[Need::Streams(16)]),
    ]
}

fn lost() -> Vec<Case> {
    let whole = || {
        Step::Over(
            Box::new(|context| context.id(Whose::Peers, Dir::Bidi, 0)),
            40,
        )
    };
    vec![
        Case::new(
            "lost/bytes",
            vec![
                Step::Quiet(true),
                whole(),
                Step::Lose,
                Step::Quiet(false),
                plain(vec![1]),
                Step::Owes(Owed::Again),
            ],
        )
        .needs(&[Need::AnyBytes]),
        Case::new(
            "lost/reset-stream",
            vec![
                Step::Quiet(true),
                stop(Whose::Own, Dir::Bidi),
                Step::Owes(Owed::Reset(Whose::Own, Dir::Bidi)),
                Step::Lose,
                Step::Quiet(false),
                plain(vec![1]),
                Step::Owes(Owed::ResetAgain),
            ],
        )
        .needs(&[Need::AnyBytes, Need::Own(Dir::Bidi)]),
    ]
}

fn others() -> Vec<Case> {
    let ask = |context: &Context<'_>| {
        // (a request of HTTP/3, and nothing behind it)
        let len = if context.is_http { 18 } else { 40 };
        context.stream(context.id(Whose::Peers, Dir::Bidi, 0), 0, len, true)
    };
    let mut tight = Case::new(
        "tight-limits",
        vec![send(ask), Step::Pause(200), Step::Owes(Owed::Blocked)],
    );
    tight.is_tight = true;
    vec![
        Case::new(
            "path-challenge",
            vec![
                plain(vec![0x1a, 1, 2, 3, 4, 5, 6, 7, 8]),
                Step::Owes(Owed::PathResponse),
            ],
        ),
        tight,
    ]
}

pub fn all() -> Vec<Case> {
    let mut all = stops();
    all.extend(credit(Dir::Bidi, "bidi"));
    all.extend(credit(Dir::Uni, "uni"));
    all.extend(lost());
    all.extend(others());
    all
}
