//! Cases by construction: what a frame does that names a stream depends on its kind, on whose stream it is and of which direction, on
//! the stream's state, and on where the frame's number lies. A case's name has the four.

use super::{CODE, Case, Context, Need, Step, Whose, send};
use crate::wire::{MAX_STREAM_DATA, MOST, RESET_STREAM, STOP_SENDING, STREAM_DATA_BLOCKED, frame};
use gotsavena::Dir;

#[derive(Clone, Copy, PartialEq, Eq)]
enum Kind {
    /// STREAM with one byte that ends at the number.
    Byte,
    /// STREAM with FIN alone.
    Fin,
    /// STREAM with neither.
    Empty,
    Reset,
    Stop,
    MaxStreamData,
    Blocked,
}

impl Kind {
    /// Those whose number is an offset of the stream.
    const BY_OFFSET: [Kind; 4] = [Kind::Byte, Kind::Fin, Kind::Empty, Kind::Reset];
    /// Those whose number doesn't count.
    const OTHERS: [Kind; 3] = [Kind::Stop, Kind::MaxStreamData, Kind::Blocked];

    fn name(self) -> &'static str {
        match self {
            Kind::Byte => "stream-byte",
            Kind::Fin => "stream-fin",
            Kind::Empty => "stream-empty",
            Kind::Reset => "reset-stream",
            Kind::Stop => "stop-sending",
            Kind::MaxStreamData => "max-stream-data",
            Kind::Blocked => "stream-data-blocked",
        }
    }

    fn frame(self, context: &Context<'_>, stream: u64, number: u64) -> Vec<u8> {
        match self {
            Kind::Byte => context.stream(stream, number - 1, 1, false),
            Kind::Fin => context.stream(stream, number, 0, true),
            Kind::Empty => context.stream(stream, number, 0, false),
            Kind::Reset => frame(RESET_STREAM, &[stream, CODE, number]),
            Kind::Stop => frame(STOP_SENDING, &[stream, CODE]),
            Kind::MaxStreamData => frame(MAX_STREAM_DATA, &[stream, number]),
            Kind::Blocked => frame(STREAM_DATA_BLOCKED, &[stream, number]),
        }
    }
}

#[derive(Clone, Copy, PartialEq, Eq)]
enum State {
    New,
    /// Bytes 10 to 20 came.
    Open,
    /// FIN came at 40, and not all bytes before it.
    Sized,
    /// RESET_STREAM came, of 40 bytes.
    Reset,
    /// All 40 bytes came and were read, and what was answered was acknowledged.
    Over,
    /// The last within the count, the first past it, and the last that there is.
    Last,
    Past,
    Most,
}

/// What a number is counted from.
#[derive(Clone, Copy, PartialEq, Eq)]
enum From {
    Limit,
    Size,
    /// The highest offset that came.
    Highest,
    Zero,
    Most,
}

const SIZE: u64 = 40;
const HIGHEST: u64 = 20;

struct Place {
    whose: Whose,
    dir: Dir,
    state: State,
}

impl Place {
    fn name(&self) -> String {
        let whose = match self.whose {
            Whose::Own => "own",
            Whose::Peers => "peers",
        };
        let dir = match self.dir {
            Dir::Bidi => "bidi",
            Dir::Uni => "uni",
        };
        let state = match self.state {
            State::New => "new",
            State::Open => "open",
            State::Sized => "sized",
            State::Reset => "reset",
            State::Over => "over",
            State::Last => "last",
            State::Past => "past",
            State::Most => "most",
        };
        format!("{whose}-{dir}/{state}")
    }

    fn stream(&self) -> impl Fn(&Context<'_>) -> u64 + Send + Sync + Copy + 'static {
        let (whose, dir, state) = (self.whose, self.dir, self.state);
        move |context: &Context<'_>| {
            let count = context.seen.count(dir);
            let index = match (whose, state) {
                (_, State::Most) => MOST / 4,
                (_, State::Last) => count.saturating_sub(1),
                (_, State::Past) => count,
                // (more than any application opens at first)
                (Whose::Own, State::New) => 40,
                _ => 0,
            };
            context.id(whose, dir, index)
        }
    }

    fn prepared(&self) -> Vec<Step> {
        let stream = self.stream();
        match (self.whose, self.state) {
            (Whose::Own, _) => Vec::new(),
            (_, State::Open) => vec![send(move |context| {
                context.stream(stream(context), 10, HIGHEST - 10, false)
            })],
            (_, State::Sized) => vec![send(move |context| {
                context.stream(stream(context), 30, SIZE - 30, true)
            })],
            (_, State::Reset) => {
                let reset =
                    send(move |context| frame(RESET_STREAM, &[stream(context), CODE, SIZE]));
                vec![reset, Step::MayEnd(Box::new(stream))]
            }
            // (a server may put the stream away in a thread of its own, a moment later)
            (_, State::Over) => vec![Step::Over(Box::new(stream), SIZE), Step::Pause(30)],
            _ => Vec::new(),
        }
    }

    fn case(&self, kind: Kind, from: From, by: i64) -> Case {
        let stream = self.stream();
        let (base, needs_limit) = match from {
            From::Limit => ("limit", true),
            From::Size => ("size", false),
            From::Highest => ("highest", false),
            From::Zero => ("zero", false),
            From::Most => ("greatest", false),
        };
        let offset = match by {
            0 => String::new(),
            by => format!("{by:+}"),
        };
        let name = format!("{}/{}/{base}{offset}", kind.name(), self.name());
        let mut steps = self.prepared();
        steps.push(send(move |context| {
            let stream = stream(context);
            let number = match from {
                From::Limit => context.limit(stream),
                From::Size => SIZE,
                From::Highest => HIGHEST,
                From::Zero => 0,
                From::Most => MOST,
            };
            kind.frame(context, stream, number.saturating_add_signed(by))
        }));
        let mut case = Case::new(name, steps);
        if needs_limit {
            case.needs.push(Need::Limit(self.whose, self.dir));
        }
        if (self.state, self.dir, kind) == (State::Last, Dir::Bidi, Kind::Fin) {
            // (no request of HTTP/3)
            case.needs.push(Need::AnyBytes);
        }
        if self.whose == Whose::Own && self.state == State::Open {
            case.needs.push(Need::Own(self.dir));
            // HTTP/3 has no bidirectional stream of a server's, and closes if one of its own is stopped.
            if self.dir == Dir::Bidi || kind == Kind::Stop {
                case.needs.push(Need::AnyBytes);
            }
        }
        if matches!(self.state, State::Last | State::Past) {
            case.needs.push(Need::FewStreams);
        }
        case
    }
}

fn around(place: &Place, from: From, all: &mut Vec<Case>) {
    for kind in Kind::BY_OFFSET {
        for by in [-1, 0, 1] {
            all.push(place.case(kind, from, by));
        }
    }
}

fn others(place: &Place, all: &mut Vec<Case>) {
    all.push(place.case(Kind::Stop, From::Zero, 0));
    for kind in [Kind::MaxStreamData, Kind::Blocked] {
        for from in [From::Zero, From::Most] {
            all.push(place.case(kind, from, 0));
        }
    }
}

// A stream whose number alone counts.
fn each_kind(place: &Place, all: &mut Vec<Case>) {
    for kind in Kind::BY_OFFSET {
        all.push(place.case(kind, From::Zero, i64::from(kind == Kind::Byte)));
    }
    for kind in Kind::OTHERS {
        all.push(place.case(kind, From::Zero, 0));
    }
}

pub fn all() -> Vec<Case> {
    let mut all = Vec::new();
    for dir in [Dir::Bidi, Dir::Uni] {
        for state in [
            State::New,
            State::Open,
            State::Sized,
            State::Reset,
            State::Over,
        ] {
            let place = Place {
                whose: Whose::Peers,
                dir,
                state,
            };
            match state {
                State::New => around(&place, From::Limit, &mut all),
                State::Open => {
                    around(&place, From::Limit, &mut all);
                    for kind in [Kind::Fin, Kind::Reset] {
                        for by in [-1, 0, 1] {
                            all.push(place.case(kind, From::Highest, by));
                        }
                    }
                }
                _ => {
                    around(&place, From::Size, &mut all);
                    for kind in [Kind::Byte, Kind::Fin, Kind::Reset] {
                        all.push(place.case(kind, From::Limit, 1));
                    }
                }
            }
            for kind in [Kind::Fin, Kind::Empty, Kind::Reset] {
                all.push(place.case(kind, From::Most, 0));
            }
            others(&place, &mut all);
        }
        for (whose, state) in [
            (Whose::Peers, State::Last),
            (Whose::Peers, State::Past),
            (Whose::Peers, State::Most),
            (Whose::Own, State::New),
            (Whose::Own, State::Most),
        ] {
            each_kind(&Place { whose, dir, state }, &mut all);
        }
        let own = Place {
            whose: Whose::Own,
            dir,
            state: State::Open,
        };
        match dir {
            Dir::Bidi => {
                around(&own, From::Limit, &mut all);
                others(&own, &mut all);
            }
            Dir::Uni => each_kind(&own, &mut all),
        }
    }
    all
}
