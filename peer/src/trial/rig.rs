//! Runs one call on both engines and compares all they leave behind.

use super::call::{Call, Inputs};
use super::engines::{Engine, PEER};
use super::guarded::Guarded;
use super::lists::wrong_list;
use super::progress::Progress;
use super::report::Difference;
use super::side::Side;
use super::tally::Tally;
use super::wire::Wire;
use std::ptr::null_mut;
use std::sync::atomic::{AtomicPtr, Ordering};

/// The rig whose other engine is at work, for the report if that one crashes.
pub static AT_WORK: AtomicPtr<Rig> = AtomicPtr::new(null_mut());

/// Both engines, the inputs of the next call, and what has been seen so far.
pub struct Rig {
    ours: Side,
    theirs: Side,
    pub inputs: Inputs,
    pub tally: Tally,
    /// Where the calls come from, for the report of a difference.
    pub origin: String,
    /// Tells now and then how far the calls have come, if asked to.
    pub progress: Option<Progress>,
    calling: Call,
}

impl Rig {
    pub fn new(theirs: Engine) -> Rig {
        Rig::lending(theirs, Guarded::new)
    }

    /// The other engine is lent these buffers.
    pub fn lending(theirs: Engine, buffer: fn(u8) -> Guarded) -> Rig {
        Rig {
            ours: Side::new(PEER, 0x10, Guarded::new),
            theirs: Side::new(theirs, 0x90, buffer),
            inputs: Inputs::default(),
            tally: Tally::default(),
            origin: String::new(),
            progress: None,
            calling: Call::Sheet,
        }
    }

    /// Runs both engines; on agreement state and memory are carried on.
    pub fn call(&mut self, call: Call) -> Result<u64, Box<Difference>> {
        self.call_with(call, None)
    }

    /// A replay of a trace that is too long to be copied.
    pub fn replay_long(&mut self, trace: &[u8]) -> Result<u64, Box<Difference>> {
        self.call_with(Call::Replay, Some(trace))
    }

    fn call_with(&mut self, call: Call, long: Option<&[u8]>) -> Result<u64, Box<Difference>> {
        self.calling = call;
        self.ours.run(call, &self.inputs, long);
        AT_WORK.store(self, Ordering::Relaxed);
        self.theirs.run(call, &self.inputs, long);
        AT_WORK.store(null_mut(), Ordering::Relaxed);
        if let Some(what) = self.disagreement() {
            return Err(self.difference(what));
        }
        let answer = self.ours.answer.unwrap_or(0);
        if call == Call::Difference {
            self.take_list(answer)?;
        } else {
            self.carry_on(call, answer);
        }
        if let Some(progress) = &mut self.progress {
            progress.count(&self.origin);
        }
        Ok(answer)
    }

    /// State and memory go on to the next call.
    fn carry_on(&mut self, call: Call, answer: u64) {
        let state = self.ours.state.lend().to_vec();
        let before = std::mem::replace(&mut self.inputs.state, state);
        self.inputs.memory.copy_from_slice(self.ours.memory.lend());
        let reply = self.ours.reply.lend();
        self.tally.add(call, answer, &before, &self.inputs, reply);
    }

    /// The other engine's list is asked for the rules too, whatever both engines agree on.
    fn take_list(&mut self, answer: u64) -> Result<(), Box<Difference>> {
        let list = self.theirs.list.lend();
        if let Some(what) = wrong_list(&self.inputs, answer, list) {
            return Err(self.difference(what));
        }
        self.tally.add_difference(answer, &self.inputs, list);
        Ok(())
    }

    /// As `call`, but the answer has to be this one as well.
    pub fn expect(&mut self, call: Call, answer: u64) -> Result<(), Box<Difference>> {
        let inputs = self.inputs.clone();
        if self.call(call)? == answer {
            return Ok(());
        }
        self.inputs = inputs;
        Err(self.difference("the answer expected"))
    }

    /// The reply that both engines left in the call that was made last.
    pub fn reply(&self) -> &[u8] {
        self.ours.reply.lend()
    }

    /// The list of that length which the other engine left in the call that was made last.
    pub fn list(&self, length: usize) -> &[u8] {
        &self.theirs.list.lend()[..length]
    }

    /// The type of the sheet that is lent.
    pub fn wire(&self) -> &'static Wire {
        Wire::of_sheet(&self.inputs.sheet)
    }

    /// The command's alarm in that reply.
    pub fn alarm(&self) -> u8 {
        self.wire().alarm(self.reply())
    }

    fn disagreement(&self) -> Option<&'static str> {
        let (ours, theirs) = (&self.ours, &self.theirs);
        if ours.answer != theirs.answer {
            return Some("the answer");
        }
        let names = ["the state", "the memory", "the reply", "the list"];
        let written = ours.written();
        if let Some(at) = (0..4).find(|&at| written[at] != theirs.written()[at]) {
            return Some(names[at]);
        }
        if !theirs.read_only_kept(self.calling, &self.inputs) {
            return Some("a buffer lent for reading");
        }
        if !theirs.guards_intact() {
            return Some("an octet outside a buffer");
        }
        None
    }

    /// The report of a difference in the call that was made last.
    pub fn difference(&self, what: &str) -> Box<Difference> {
        Box::new(Difference::new(
            self.calling,
            what,
            &self.origin,
            &self.inputs,
            [&self.ours, &self.theirs],
        ))
    }
}
