// Made from crates/qs_c/src/news.rt by rust/erase; not edited by hand.
use crate::proved::qs_c::answers::{NO_MEMORY, NONE, OK};
use crate::proved::qs_calls::News;
use crate::proved::qs_ranges::NoMemory;
use crate::proved::qs_wire::{Dir, StreamId};

const OPENED: u32 = 0;

const READABLE: u32 = 1;

const WRITABLE: u32 = 2;

const STOPPED: u32 = 3;

const FINISHED: u32 = 4;

const RESET_ACKED: u32 = 5;

const ENDED: u32 = 6;

const AVAILABLE: u32 = 7;

const DATA_BLOCKED: u32 = 8;

const STREAM_DATA_BLOCKED: u32 = 9;

const STREAMS_BLOCKED: u32 = 10;

/// What its kind doesn't have is 0, as in a frame's struct.
#[repr(C)]
#[derive(Clone, Copy)]
pub struct GvNews {
    pub kind: u32,
    pub dir: u32,
    pub stream: u64,
    pub code: u64,
}

impl GvNews {
    pub(crate) fn of(news: News) -> GvNews {
        match news {
            News::Opened(stream) => of_stream(OPENED, stream, 0),
            News::Readable(stream) => of_stream(READABLE, stream, 0),
            News::Writable(stream) => of_stream(WRITABLE, stream, 0),
            News::Stopped(stream, code) => of_stream(STOPPED, stream, code),
            News::Finished(stream) => of_stream(FINISHED, stream, 0),
            News::ResetAcked(stream) => of_stream(RESET_ACKED, stream, 0),
            News::Ended(stream) => of_stream(ENDED, stream, 0),
            News::Available(dir) => of_dir(AVAILABLE, dir),
            News::DataBlocked => GvNews {
                kind: DATA_BLOCKED,
                dir: 0,
                stream: 0,
                code: 0,
            },
            News::StreamDataBlocked(stream) => of_stream(STREAM_DATA_BLOCKED, stream, 0),
            News::StreamsBlocked(dir) => of_dir(STREAMS_BLOCKED, dir),
        }
    }
}

fn of_stream(kind: u32, stream: StreamId, code: u64) -> GvNews {
    GvNews {
        kind,
        dir: 0,
        stream: stream.value(),
        code,
    }
}

fn of_dir(kind: u32, dir: Dir) -> GvNews {
    GvNews {
        kind,
        dir: dir_number(dir),
        stream: 0,
        code: 0,
    }
}

fn dir_number(dir: Dir) -> u32 {
    match dir {
        Dir::Bidi => 0,
        Dir::Uni => 1,
    }
}

pub(crate) fn of_news(answer: Result<Option<News>, NoMemory>, news: &mut GvNews) -> u32 {
    match answer {
        Ok(Some(told)) => {
            *news = GvNews::of(told);
            OK
        }
        Ok(None) => NONE,
        Err(_) => NO_MEMORY,
    }
}

pub(crate) fn of_note(answer: Result<(), NoMemory>) -> u32 {
    match answer {
        Ok(()) => OK,
        Err(_) => NO_MEMORY,
    }
}
