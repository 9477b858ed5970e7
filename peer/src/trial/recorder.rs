//! Records a trace while commands are exchanged on the engine of this crate.

use super::call::Inputs;
use super::plan::LENGTHS;
use crate::engine;

/// A trace with the state and memory it starts from.
#[derive(Clone, Debug)]
pub struct Recorder {
    pub state: Vec<u8>,
    pub memory: Vec<u8>,
    pub trace: Vec<u8>,
    pub records: u64,
    now_state: Vec<u8>,
    now_memory: Vec<u8>,
}

impl Recorder {
    pub fn new(state: &[u8], memory: &[u8]) -> Recorder {
        Recorder {
            state: state.to_vec(),
            memory: memory.to_vec(),
            trace: Vec::new(),
            records: 0,
            now_state: state.to_vec(),
            now_memory: memory.to_vec(),
        }
    }

    /// The state the next command meets.
    pub fn current_state(&self) -> &[u8] {
        &self.now_state
    }

    /// Exchanges one command and records it with its reply.
    pub fn record(&mut self, sheet: &[u8], command: &[u8]) {
        let mut reply = vec![0; command.len()];
        let (state, memory) = (&mut self.now_state, &mut self.now_memory);
        let answer = engine::exchange(sheet, state, memory, command, &mut reply);
        // A place tells of a refused command, which is recorded too.
        if answer as u32 == 0 {
            self.trace.push(kind_of(command.len()));
            self.trace.extend(command);
            self.trace.extend(reply);
            self.records += 1;
        }
    }

    /// Lends the start and the trace to the next call.
    pub fn lend_to(&self, inputs: &mut Inputs) {
        inputs.state = self.state.clone();
        inputs.memory = self.memory.clone();
        inputs.trace = self.trace.clone();
    }
}

/// The trace kind, 21 to 25 hex, of a PDU length.
pub fn kind_of(pdu_length: usize) -> u8 {
    let index = LENGTHS
        .iter()
        .position(|&length| usize::from(length) == pdu_length);
    0x21 + index.unwrap_or(0) as u8
}
