//! What was last seen of a stream: what is said of it stays, or grows.

use gotsavena::{RecvReport, RecvState, SendReport, SendState};

#[derive(Clone, Copy, Default)]
pub struct Seen {
    sending: Option<SendReport>,
    receiving: Option<RecvReport>,
    acked: u64,
    taken: u64,
    stopped: Option<u64>,
}

fn stays(was: Option<u64>, is: Option<u64>) -> bool {
    was.is_none() || is == was
}

impl Seen {
    pub fn check_receiving(&mut self, r: &RecvReport, taken: u64) {
        if let Some(was) = self.receiving {
            let is_same = was.state != RecvState::DataRead || r.state == was.state;
            let goes_on = r.state as u64 >= was.state as u64 && is_same;
            assert!(goes_on, "a receiving half goes on from state to state");
            let grows = r.highest >= was.highest && r.limit >= was.limit;
            assert!(grows, "what came and what is granted never fall");
            let is_read = r.read_count >= was.read_count && taken >= self.taken;
            assert!(is_read, "what was read never falls");
            assert!(stays(was.final_size, r.final_size), "a final size stays");
            let is_reset = stays(was.reset_code, r.reset_code);
            assert!(is_reset, "the code of the peer's reset stays");
            let is_stopped = stays(was.stop_code, r.stop_code);
            assert!(is_stopped, "the code of a stop stays");
        }
        self.receiving = Some(*r);
        self.taken = taken;
    }

    pub fn check_sending(&mut self, r: &SendReport, acked: u64, stopped: Option<u64>) {
        if let Some(was) = self.sending {
            let is_same = was.state != SendState::DataRecvd || r.state == was.state;
            let goes_on = r.state as u64 >= was.state as u64 && is_same;
            assert!(goes_on, "a sending half goes on from state to state");
            let grows = r.written >= was.written && r.limit >= was.limit && acked >= self.acked;
            assert!(grows, "what was written and acknowledged never falls");
            let is_sized = stays(was.final_size, r.final_size);
            assert!(is_sized, "a final size that was sent stays");
            let is_reset = stays(was.reset_code, r.reset_code);
            assert!(is_reset, "the code of a reset stays");
            let is_stopped = stays(self.stopped, stopped);
            assert!(is_stopped, "the code of the first STOP_SENDING stays");
        }
        self.sending = Some(*r);
        self.acked = acked;
        self.stopped = stopped;
    }
}
