//! One reader or writer from its first call to its first refusal. The crate keeps place and struct depth to itself; a
//! port is handed those that it answered last.

use turmyshge::steps::{ReadCall, WriteCall};

use super::{reports, Judge, Made};
use crate::known::{self, Known};
use crate::port::Port;
use crate::published::{self, Theirs};
use crate::state::State;
use crate::visitor::untouched;

impl Judge<'_> {
    pub(super) fn judge_reads(&mut self, calls: &[ReadCall<'_>]) {
        let theirs = published::reads(calls);
        for port in self.ports {
            self.hold_reads(calls, &theirs, *port);
        }
    }

    fn hold_reads(&mut self, calls: &[ReadCall<'_>], theirs: &[Theirs], port: &dyn Port) {
        let mut state = State::fresh(calls.first().map_or(0, |first| first.place));
        for (call, theirs) in calls.iter().zip(theirs) {
            let call = state.read(call);
            let Some(ours) = port.read(&call) else {
                return;
            };
            self.hold_read(&call, theirs, port, &ours);
            if ours.refusal.is_some() {
                return;
            }
            state.pass_read(call.step, &ours);
        }
    }

    pub(super) fn judge_writes(&mut self, calls: &[WriteCall<'_>], length: usize) {
        let mut out = untouched(length);
        let theirs = published::writes(calls, &mut out);
        for port in self.ports {
            self.hold_writes(calls, &theirs, &out, *port);
        }
    }

    /// Holds answer against answer, and in the end the port's buffer against the crate's.
    fn hold_writes(
        &mut self,
        calls: &[WriteCall<'_>],
        theirs: &[Theirs],
        made: &[u8],
        port: &dyn Port,
    ) {
        let mut out = untouched(made.len());
        let mut state = State::fresh(calls.first().map_or(0, |first| first.place));
        let mut refused = false;
        for (call, theirs) in calls.iter().zip(theirs) {
            let call = state.write(call);
            let Some(ours) = port.write(&call, &mut out) else {
                return;
            };
            self.tally.comparisons += 1;
            if !theirs.is(&ours) {
                let known = known::of_write(&call, theirs, &ours);
                let made = Made::copy(theirs, made);
                let what = "the answers differ within a series";
                let report = || reports::of_write(&call, out.len(), what, &made, port, &ours, &out);
                return self.note(known, report);
            }
            refused = ours.refusal.is_some();
            if !refused {
                state.pass_write(call.step, &ours);
            }
        }
        self.hold_buffers(state.place, refused, made, port, &out);
    }

    /// Up to the end of what was accepted the buffers are alike. From there on the port has written nothing, and the
    /// crate no more than a part of what it refused.
    fn hold_buffers(
        &mut self,
        end: usize,
        refused: bool,
        made: &[u8],
        port: &dyn Port,
        out: &[u8],
    ) {
        let before = untouched(out.len());
        let alike = out[..end] == made[..end] && out[end..] == before[end..];
        let partial = made[end..] != before[end..];
        if !alike || (partial && !refused) {
            return self.note(None, || reports::of_buffers(end, made, port, out));
        }
        if partial {
            self.note(Some(Known::PartialBytes), String::new);
        }
    }
}
