//! A difference with all that is needed to repeat it.

use super::call::{Call, Inputs};
use super::side::Side;
use std::fmt;

/// The whole report of the first difference, ready to print.
#[derive(Clone, Debug)]
pub struct Difference {
    lines: Vec<String>,
}

impl Difference {
    pub fn new(call: Call, what: &str, origin: &str, inputs: &Inputs, sides: [&Side; 2]) -> Self {
        let mut lines = vec![
            format!("difference: {what} in {call:?}"),
            format!("origin         {origin}"),
        ];
        lines.extend(lent(call, inputs));
        for (name, side) in ["peer", "t24"].into_iter().zip(sides) {
            lines.push(format!("{name} answer: {}", answer_text(side.answer)));
            lines.extend(left(call, name, side));
        }
        lines.extend(changed_for_reading(call, inputs, sides[1]));
        Difference { lines }
    }
}

fn lent(call: Call, inputs: &Inputs) -> Vec<String> {
    if call == Call::Difference {
        return vec![
            line("first sheet", &inputs.sheet),
            line("second sheet", &inputs.second),
            line("list before", &inputs.list),
        ];
    }
    vec![
        line("sheet", &inputs.sheet),
        line("state before", &inputs.state),
        line("memory before", &inputs.memory),
        line("command", &inputs.command),
        line("reply before", &inputs.reply),
        line("trace", &inputs.trace),
        line("old record", &inputs.old),
    ]
}

fn left(call: Call, name: &str, side: &Side) -> Vec<String> {
    if call == Call::Difference {
        return vec![line(&format!("{name} list"), side.list.lend())];
    }
    vec![
        line(&format!("{name} state"), side.state.lend()),
        line(&format!("{name} memory"), side.memory.lend()),
        line(&format!("{name} reply"), side.reply.lend()),
    ]
}

/// Buffers lent for reading are shown again only if they have changed.
fn changed_for_reading(call: Call, inputs: &Inputs, theirs: &Side) -> Vec<String> {
    let mut pairs = vec![("t24 sheet", theirs.sheet.lend(), &inputs.sheet)];
    if call == Call::Difference {
        pairs.push(("t24 second", theirs.second.lend(), &inputs.second));
    } else {
        pairs.push(("t24 command", theirs.command.lend(), &inputs.command));
        pairs.push(("t24 trace", theirs.trace.lend(), &inputs.trace));
        pairs.push(("t24 old record", theirs.old.lend(), &inputs.old));
    }
    pairs
        .iter()
        .filter(|(_, after, before)| *after != before.as_slice())
        .map(|(name, after, _)| line(name, after))
        .collect()
}

fn answer_text(answer: Option<u64>) -> String {
    match answer {
        Some(answer) => format!("number {}, place {}", answer as u32, answer >> 32),
        None => "none".to_string(),
    }
}

fn line(name: &str, octets: &[u8]) -> String {
    format!("{name:14} {} octets: {}", octets.len(), hex(octets))
}

/// Octets in upper-case hex.
pub fn hex(octets: &[u8]) -> String {
    octets.iter().map(|octet| format!("{octet:02X}")).collect()
}

impl fmt::Display for Difference {
    fn fmt(&self, formatter: &mut fmt::Formatter) -> fmt::Result {
        formatter.write_str(&self.lines.join("\n"))
    }
}
