// Made from crates/qs_conn/src/recv_marks.rt by rust/erase; not edited by hand.
use crate::proved::qs_conn::marks::Marks;
use crate::proved::qs_ranges::NoMemory;
use crate::proved::qs_recv::{RecvHalf, RingAssembly};
use crate::shim::alloc::Global;

#[derive(Clone, Copy)]
pub(crate) enum RecvTask {
    Readable,
    Ended,
}

pub(crate) struct RecvMarks {
    readable: Marks,
    ended: Marks,
}

impl RecvMarks {
    #[inline]
    pub(crate) fn new(alloc: Global) -> Self {
        RecvMarks {
            readable: Marks::new(alloc),
            ended: Marks::new(alloc),
        }
    }

    #[inline(always)]
    pub(crate) fn make_room(&mut self, index: usize) -> Result<(), NoMemory> {
        debug_assert!(index < 1 << 60);
        self.readable.make_room(index)?;
        self.ended.make_room(index)
    }

    #[inline]
    pub(crate) fn clear_from(&mut self, count: usize) {
        self.readable.clear_from(count);
        self.ended.clear_from(count);
    }

    #[inline]
    pub(crate) fn look(&mut self, index: usize, half: &RecvHalf<RingAssembly>) {
        let standing = half.standing();
        self.readable.set(index, standing.is_readable);
        self.ended.set(index, standing.has_ended);
    }

    #[inline(always)]
    pub(crate) fn marks(&self, task: RecvTask) -> &Marks {
        match task {
            RecvTask::Readable => &self.readable,
            RecvTask::Ended => &self.ended,
        }
    }
}
