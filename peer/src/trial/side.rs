//! One of the two engines, with what it is lent and what it leaves behind.

use super::call::{Call, Inputs};
use super::engines::Engine;
use super::guarded::Guarded;

/// One engine with its own guarded copies of what is lent.
pub struct Side {
    engine: Engine,
    /// Nothing until the call has come back.
    pub answer: Option<u64>,
    pub sheet: Guarded,
    pub state: Guarded,
    pub old: Guarded,
    pub memory: Guarded,
    pub command: Guarded,
    pub reply: Guarded,
    pub trace: Guarded,
    pub second: Guarded,
    pub list: Guarded,
}

impl Side {
    /// The salts of two sides differ, so that a guard that is read shows up.
    pub fn new(engine: Engine, salt: u8, buffer: fn(u8) -> Guarded) -> Side {
        Side {
            engine,
            answer: None,
            sheet: buffer(salt),
            state: buffer(salt ^ 1),
            memory: buffer(salt ^ 2),
            command: buffer(salt ^ 3),
            reply: buffer(salt ^ 4),
            trace: buffer(salt ^ 5),
            old: buffer(salt ^ 6),
            second: buffer(salt ^ 7),
            list: buffer(salt ^ 8),
        }
    }

    /// Calls the engine; a long trace takes the place of the guarded one, and is not copied.
    pub fn run(&mut self, call: Call, inputs: &Inputs, long: Option<&[u8]>) {
        self.sheet.load(&inputs.sheet);
        if call == Call::Difference {
            return self.run_difference(inputs);
        }
        self.state.load(&inputs.state);
        self.memory.load(&inputs.memory);
        self.command.load(&inputs.command);
        self.reply.load(&inputs.reply);
        self.trace.load(&inputs.trace);
        self.old.load(&inputs.old);
        let sheet = self.sheet.lend();
        let (state, memory) = (self.state.lend_mut(), self.memory.lend_mut());
        let (command, reply) = (self.command.lend(), self.reply.lend_mut());
        self.answer = None;
        self.answer = Some(match call {
            Call::Sheet => (self.engine.sheet)(sheet),
            Call::Lengths => (self.engine.lengths)(sheet),
            Call::Reset => (self.engine.reset)(sheet, state),
            Call::Enable => (self.engine.enable)(sheet, state),
            Call::Turn => (self.engine.turn)(sheet, self.old.lend(), state),
            Call::Exchange => (self.engine.exchange)(sheet, state, memory, command, reply),
            Call::Replay => {
                let trace = long.unwrap_or(self.trace.lend());
                (self.engine.replay)(sheet, state, memory, trace)
            }
            // It went its own way above.
            Call::Difference => return,
        });
    }

    /// What else there is stays as the call before has left it.
    fn run_difference(&mut self, inputs: &Inputs) {
        self.second.load(&inputs.second);
        self.list.load(&inputs.list);
        let (first, second) = (self.sheet.lend(), self.second.lend());
        self.answer = None;
        self.answer = Some((self.engine.difference)(first, second, self.list.lend_mut()));
    }

    /// What may be written, in one order for both sides.
    pub fn written(&self) -> [&[u8]; 4] {
        [&self.state, &self.memory, &self.reply, &self.list].map(Guarded::lend)
    }

    /// Whether no octet outside a buffer has changed.
    pub fn guards_intact(&self) -> bool {
        let all = [
            &self.sheet,
            &self.state,
            &self.memory,
            &self.command,
            &self.reply,
            &self.trace,
            &self.old,
            &self.second,
            &self.list,
        ];
        all.iter().all(|buffer| buffer.intact())
    }

    /// Whether what was lent for reading is as it was lent.
    pub fn read_only_kept(&self, call: Call, inputs: &Inputs) -> bool {
        let kept = |buffer: &Guarded, lent: &Vec<u8>| buffer.lend() == lent.as_slice();
        if call == Call::Difference {
            return kept(&self.sheet, &inputs.sheet) && kept(&self.second, &inputs.second);
        }
        kept(&self.sheet, &inputs.sheet)
            && kept(&self.command, &inputs.command)
            && kept(&self.trace, &inputs.trace)
            && kept(&self.old, &inputs.old)
    }
}
