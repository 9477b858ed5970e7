//! One exchange: decided as a whole first, stored afterwards.

use super::command::{judge, Act, CommunicationMode, Transfer};
use super::frame::Frame;
use super::sheet::Sheet;
use super::state::{Link, State};

/// The longest L.
const LONGEST: usize = 64;
/// Status bit 0: a latch is nonzero.
const LATCHED: u8 = 1;
/// Status bit 1: the cycle failed, and the sheet allows it (request 9).
const TOLERATED: u8 = 2;
/// Status bit 2: ready for a new command.
const READY: u8 = 4;

/// What an exchange leaves behind, once it is stored.
pub struct Outcome {
    pub state: State,
    /// What a refused command's alarm is about; 0 of any other exchange.
    pub place: u32,
    /// The first L octets are the reply.
    pub reply: [u8; LONGEST],
    pub write: Option<Transfer>,
}

impl Outcome {
    /// Stores the state and an accepted write.
    pub fn store(&self, state: &mut [u8], memory: &mut [u8], command: &[u8]) {
        self.state.write(state);
        if let Some(write) = &self.write {
            memory[write.place..write.place + write.length]
                .copy_from_slice(&command[write.data..write.data + write.length]);
        }
    }
}

/// Decides the exchange of a command of L octets in a link that is not Disabled.
pub fn decide(sheet: &Sheet, before: State, memory: &[u8], command: &[u8]) -> Outcome {
    let frame = sheet.frame();
    let wdt = command[frame.wdt];
    let mn = wdt & 15;
    let mut outcome = Outcome {
        state: before,
        place: 0,
        reply: [0; LONGEST],
        write: None,
    };
    let (mut alarm, mut tolerated) = (0, 0);
    if !before.misses(wdt) {
        outcome.state = before.in_step();
        match judge(sheet, &before, command) {
            Ok(act) => perform(frame, act, &mut outcome, memory, command),
            Err(refused) => {
                alarm = refused.alarm;
                outcome.state = outcome.state.with_alarm(alarm);
                outcome.place = refused.place;
            }
        }
    } else if before.failures() < sheet.tolerance() {
        outcome.state = before.failure_tolerated();
        tolerated = TOLERATED;
    } else {
        outcome.state = before.cycle_lost();
    }
    if before.link == Link::SyncConnected && outcome.state.link == Link::SyncConnected {
        outcome.state = outcome.state.counted(mn);
    }
    write_head(frame, &mut outcome, command, tolerated, alarm);
    outcome
}

/// Fills the body and turns the state of an accepted command.
fn perform(frame: &Frame, act: Act, outcome: &mut Outcome, memory: &[u8], command: &[u8]) {
    let before = outcome.state;
    let reply = &mut outcome.reply;
    match act {
        Act::Nothing => (),
        Act::Read(transfer) => {
            reply[transfer.echo.clone()].copy_from_slice(&command[transfer.echo]);
            reply[transfer.data..transfer.data + transfer.length]
                .copy_from_slice(&memory[transfer.place..transfer.place + transfer.length]);
        }
        Act::Write(transfer) => {
            let data = transfer.data..transfer.data + transfer.length;
            reply[transfer.echo.clone()].copy_from_slice(&command[transfer.echo.clone()]);
            reply[data.clone()].copy_from_slice(&command[data]);
            outcome.write = Some(transfer);
        }
        Act::Identify(octets) => {
            reply[frame.echo.clone()].copy_from_slice(&command[frame.echo.clone()]);
            reply[frame.data..frame.data + octets.len()].copy_from_slice(octets);
        }
        Act::ShowLatches => {
            reply[frame.latches] = before.command_latch;
            reply[frame.latches + 1] = before.communication_latch;
        }
        Act::ClearLatches => outcome.state = before.cleared(),
        Act::Synchronize => outcome.state = before.sync_connected(before.com_time, false),
        Act::Connect => {
            reply[frame.echo.clone()].copy_from_slice(&command[frame.echo.clone()]);
            outcome.state = connect(before, command[5], command[6]);
        }
        Act::Disconnect => outcome.state = before.disconnected(),
    }
}

/// The link that an accepted CONNECT asked for.
fn connect(before: State, com_mod: u8, com_time: u8) -> State {
    match CommunicationMode::of(com_mod) {
        Some(mode) if mode.synchronous => before.sync_connected(com_time, mode.dual),
        _ => before.async_connected(com_time),
    }
}

/// Code, RWDT, status and alarm; every reply gets them here, so the identity is echoed in each.
fn write_head(frame: &Frame, outcome: &mut Outcome, command: &[u8], tolerated: u8, alarm: u8) {
    let state = &outcome.state;
    let reply = &mut outcome.reply;
    reply[0] = command[0];
    if state.link == Link::SyncConnected {
        let rsn = state.counters.map_or(0, |counters| counters.rsn);
        reply[frame.wdt] = rsn << 4 | command[frame.wdt] & 15;
    }
    let latched = if state.latched() { LATCHED } else { 0 };
    reply[2] = READY | latched | tolerated | command[2] & frame.identity;
    reply[3] = state.communication_latch << 4;
    // Octet 3's low half or an octet of its own, which is zero so far.
    reply[frame.alarm] |= alarm;
}
