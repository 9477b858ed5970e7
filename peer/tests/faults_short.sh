# Sourced by faults: the faults against request 7, the short type's link record in the sheet and the short type's own octets.
# shellcheck shell=sh

# in_short FROM TO: another number in the short type's table
in_short() {
    printf '%s\n' "/^pub static SHORT/,/^};/s/$1/$2/"
}

# where_short RUST: holds in the short type, told by its WDT; of an exchange, and of a command's checks
where_short='frame.wdt == 15'
checks_short='sheet.frame().wdt == 15'

# before_place_of RUST FAULT: this fault of a record is told before its place is asked; its kind is octet
before_place_of() {
    printf '%s\n' "s/if !kind.in_place(last) {/if $1 { return Err(answer::$2); } &/"
}

# also_in_place RUST: a record is in place if this holds too
also_in_place() {
    printf '%s\n' "s/if !kind.in_place(last) {/if !kind.in_place(last) \\&\\& !($1) {/"
}

# told_there RUST NUMBER: a fault is told at another place if this holds
told_there() {
    printf '%s\n' "s/refuse_at(number, place))?;/refuse_at(number, if $1 { $2 } else { place }))?;/"
}

# into_status RUST: what is put into octet 2 of the reply in place of the words that are there
into_status() {
    printf '%s\n' "s/READY | latched | tolerated |/$1 |/"
}

# besides RUST: done when the alarm is put into the reply
besides() {
    printf '%s\n' "s/reply\\[frame.alarm\\] |= alarm;/& $1/"
}

# asked_first RUST: asked before a command's code
asked_first() {
    printf '%s\n' "s/let code = sheet.frame().code/$1 &/"
}

# differs_if RUST: an octet of a reply in a replay differs only if this holds
differs_if() {
    printf '%s\n' "s/first_difference(&outcome.reply, record.reply)/&.filter(|\\&octet| $1)/"
}

group "link record of the short type"
chosen "kind 05 behind kind 01" engine/sheet.rs "$(also_in_place '(self.octets[0], octet, last) == (1, 5, Some(Kind::Link))')"
fault "kind 01 behind kind 05" engine/sheet.rs "$(also_in_place '(self.octets[0], octet, last) == (5, 1, Some(Kind::Link))')"
fault "kind 05 twice" engine/sheet.rs "$(also_in_place '(self.octets[0], octet, last) == (5, 5, Some(Kind::Link))')"
fault "kind 05 behind regions" engine/sheet.rs "$(also_in_place 'octet == 5 \&\& last == Some(Kind::Region)')"
chosen "kind 05 before the end" engine/sheet.rs "$(also_in_place 'octet == 5 \&\& last == Some(Kind::Tolerance)')"
chosen "L 32 in kind 05" engine/frame.rs "$(in_short '\[16\]' '[16, 32]')"
fault "L 8 in kind 05" engine/frame.rs "$(in_short '\[16\]' '[8, 16]')"
fault "L 17 in kind 05" engine/frame.rs "$(in_short '\[16\]' '[16, 17]')"
fault "every L of the other type in kind 05" engine/frame.rs "$(in_short '\[16\]' '[8, 16, 32, 48, 64]')"
fault "L 16 in kind 05 refused" engine/frame.rs "$(in_short '\[16\]' '[]')"
fault "any L in kind 05" engine/sheet.rs 's/if Frame::of_link(record\[0\])/if record[0] == 5 || Frame::of_link(record[0])/'
fault "kind 05 has to name profile 0" engine/sheet.rs 's/if Frame::of_link(record\[0\])/if (record[0] != 5 || record[3] == 0) \&\& Frame::of_link(record[0])/'
fault "kind 05 has to name a version" engine/sheet.rs 's/if Frame::of_link(record\[0\])/if (record[0] != 5 || record[2] != 0) \&\& Frame::of_link(record[0])/'
fault "12 for kind 05 beside kind 01" engine/sheet.rs "$(before_place_of 'octet == 5 \&\& last.is_some()' UNKNOWN_KIND)"
fault "16 for kind 05 twice" engine/sheet.rs "$(before_place_of 'octet == 5 \&\& last == Some(Kind::Link) \&\& self.octets[0] == 5' TOO_MUCH)"
fault "13 for another L in kind 05" engine/sheet.rs \
    '/^fn check_link/,/^}/s/Err(answer::RANGE)/Err(if record[0] == 5 { answer::OUT_OF_PLACE } else { answer::RANGE })/'
fault "12 for another L in kind 05" engine/sheet.rs \
    '/^fn check_link/,/^}/s/Err(answer::RANGE)/Err(if record[0] == 5 { answer::UNKNOWN_KIND } else { answer::RANGE })/'
fault "the L of kind 05 before its place" engine/sheet.rs \
    "$(before_place_of 'octet == 5 \&\& self.octets.get(place + 1).map_or(false, |\&length| length != 16)' RANGE)"
fault "the cut of kind 05 before its place" engine/sheet.rs "$(before_place_of 'octet == 5 \&\& self.octets.len() < place + 4' CUT)"
fault "the L of kind 05 before its cut" engine/sheet.rs \
    's/let record = self$/if octet == 5 \&\& last.is_none() \&\& self.octets.get(1).map_or(false, |\&length| length != 16) { return Err(answer::RANGE); } &/'
chosen "a cut kind 05 told behind its kind" engine/sheet.rs "$(told_there 'number == 11 \&\& octets.get(place) == Some(\&5)' 'place + 1')"
fault "another L told at its octet" engine/sheet.rs "$(told_there 'number == 14 \&\& octets[place] == 5' 'place + 1')"
fault "a second link record told at the first" engine/sheet.rs "$(told_there 'number == 13 \&\& place == 4 \&\& octets[4] == 5' '0')"
fault "kind 05 unknown" engine/kind.rs 's/ENHANCED_LINK | SHORT_LINK/ENHANCED_LINK/'
fault "kind 07 a link record" engine/kind.rs 's/ENHANCED_LINK | SHORT_LINK/1 | 5 | 7/'
fault "kind 05 selects the enhanced type" engine/frame.rs 's/if kind == SHORT_LINK/if kind == 0/'
fault "every link record of L 16 selects the short type" engine/sheet.rs \
    's/Frame::of_link(self.octets\[0\])/Frame::of_link(if self.octets[1] == 16 { 5 } else { self.octets[0] })/'

group "head of the short type"
chosen "WDT out of octet 1" engine/exchange.rs 's/let wdt = command\[frame.wdt\];/let wdt = command[1];/'
fault "RWDT at octet 1" engine/exchange.rs 's/reply\[frame.wdt\] = rsn/reply[1] = rsn/'
fault "RWDT at octet 1 too" engine/exchange.rs "$(besides 'reply[1] |= reply[frame.wdt];')"
fault "the MN of RWDT out of octet 1" engine/exchange.rs 's/rsn << 4 | command\[frame.wdt\] & 15/rsn << 4 | command[1] \& 15/'
fault "WDT at octet 14" engine/frame.rs "$(in_short 'wdt: 15' 'wdt: 14')"
fault "RWDT in link 2" engine/exchange.rs "s/if state.link == Link::SyncConnected {/if state.link == Link::SyncConnected || $where_short {/"
fault "SN not asked in the short type" engine/exchange.rs \
    "s/before.misses(wdt)/before.misses(if $where_short { before.counters.map_or(0, |counters| counters.rsn << 4) | mn } else { wdt })/"
fault "halves of the short type's WDT swapped" engine/exchange.rs \
    "s/let wdt = command\[frame.wdt\];/let wdt = command[frame.wdt].rotate_left(if $where_short { 4 } else { 0 });/"
fault "no failure tolerated in the short type" engine/exchange.rs "s/before.failures() < sheet.tolerance()/frame.wdt == 1 \&\& &/"
fault "one failure more tolerated in the short type" engine/exchange.rs \
    "s/before.failures() < sheet.tolerance()/before.failures() < sheet.tolerance() + u8::from($where_short)/"
chosen "the alarm into the status too" engine/exchange.rs "$(besides 'reply[3] |= alarm;')"
fault "the alarm into the status alone" engine/exchange.rs 's/reply\[frame.alarm\] |= alarm;/reply[3] |= alarm;/'
fault "the alarm in the high half of octet 1" engine/exchange.rs "s/reply\[frame.alarm\] |= alarm;/reply[frame.alarm] |= alarm << if $where_short { 4 } else { 0 };/"
fault "the latch in octet 1" engine/exchange.rs "$(besides "if $where_short { reply[1] = state.command_latch; }")"
fault "the communication latch in octet 1" engine/exchange.rs "$(besides "if $where_short \\&\\& alarm == 0 { reply[1] = state.communication_latch; }")"
fault "the communication latch in bits 8 to 11" engine/exchange.rs \
    "s/reply\[3\] = state.communication_latch << 4/reply[3] = state.communication_latch << if $where_short { 0 } else { 4 }/"
fault "the communication latch in octet 3 whole" engine/exchange.rs \
    "s/reply\[3\] = state.communication_latch << 4/reply[3] = state.communication_latch * if $where_short { 0x11 } else { 0x10 }/"
fault "bit 0 missing" engine/exchange.rs "$(into_status "READY | (if $where_short { 0 } else { latched }) | tolerated")"
fault "bit 0 by the command's alarm" engine/exchange.rs "$(into_status "READY | (if $where_short { u8::from(alarm != 0) } else { latched }) | tolerated")"
fault "bit 1 missing" engine/exchange.rs "$(into_status "READY | latched | (if $where_short { 0 } else { tolerated })")"
fault "bit 2 missing" engine/exchange.rs "$(into_status "(if $where_short { 0 } else { READY }) | latched | tolerated")"
chosen "the identity echoed" engine/frame.rs "$(in_short 'identity: 0,' 'identity: 0xC0,')"
fault "one bit of the identity echoed" engine/frame.rs "$(in_short 'identity: 0,' 'identity: 0x40,')"
fault "all of octet 2 echoed" engine/frame.rs "$(in_short 'identity: 0,' 'identity: 0xFF,')"
fault "RWDT not compared in a replay" engine/replay.rs "$(differs_if "octet != 15 || sheet.frame().wdt == 1")"
fault "the alarm not compared in a replay" engine/replay.rs "$(differs_if "octet != 1 || sheet.frame().wdt == 1")"
fault "trace kind 22 refused for the short type" engine/replay.rs \
    "s/check_form(trace, pdu_length)?;/if $checks_short \\&\\& trace.first() == Some(\\&0x22) { return Err(refuse_at(answer::TRACE_LENGTH, 0)); } &/"

group "codes of the short type"
chosen "MEM_RD accepted" engine/frame.rs "$(in_short 'Code::MemRd, ' '')"
fault "MEM_WR accepted" engine/frame.rs "$(in_short ', Code::MemWr' '')"
fault "MEM_RD told alarm 9" engine/command.rs \
    "s/code.ok_or(refused(ALARM_CODE))/code.ok_or(if $checks_short \\&\\& command[0] == 0x1D { wrong(0) } else { refused(ALARM_CODE) })/"
fault "MEM_WR told alarm 12 in Disconnected" engine/command.rs \
    "s/code.ok_or(refused(ALARM_CODE))/code.ok_or(refused(if $checks_short \\&\\& command[0] == 0x1E \\&\\& state.link == Link::Disconnected { ALARM_LINK } else { ALARM_CODE }))/"
fault "ID_RD unknown" engine/frame.rs "$(in_short 'Code::MemWr' 'Code::MemWr, Code::IdRd')"
fault "SYNC_SET unknown" engine/frame.rs "$(in_short 'Code::MemWr' 'Code::MemWr, Code::SyncSet')"
fault "ALM_CLR unknown" engine/frame.rs "$(in_short 'Code::MemWr' 'Code::MemWr, Code::AlmClr')"
fault "no MEM_RD in the enhanced type" engine/frame.rs 's/without: &\[\]/without: \&[Code::MemRd]/'

group "fields of the short type"
chosen "the profile checked" engine/frame.rs "$(in_short 'profile: None' 'profile: Some(Field { at: 7, octets: 1 })')"
fault "the profile checked behind the reserve" engine/frame.rs "$(in_short 'profile: None' 'profile: Some(Field { at: 8, octets: 1 })')"
fault "the version not checked" engine/command.rs "s/require(command\[4\] == sheet.version(), /require($checks_short || command[4] == sheet.version(), /"
fault "com_time 0 taken" engine/command.rs "s/require(command\[6\] >= least_com_time, /require(command[6] >= least_com_time || $checks_short, /"
fault "com_time told at 7" engine/command.rs "s/least_com_time, COM_TIME_AT/least_com_time, if $checks_short { 7 } else { COM_TIME_AT }/"
fault "CONNECT without reserves" engine/command.rs "/^fn connection/,/^}/s/command\[4\] ==/command[if $checks_short { 1 } else { 4 }] ==/"
fault "a parameter's number without reserves" engine/command.rs "s/number_16(command, 4);/number_16(command, if $checks_short { 1 } else { 4 });/"
fault "a short parameter's size told at 7" engine/command.rs "/^fn parameter/,/^}/s/SIZE_AT/if $checks_short { 7 } else { SIZE_AT }/"
fault "an ID size of two octets" engine/frame.rs "$(in_short 'id_size: Field { at: 6, octets: 1 }' 'id_size: Field { at: 6, octets: 2 }')"
fault "an ID size at octet 7" engine/frame.rs "$(in_short 'id_size: Field { at: 6, octets: 1 }' 'id_size: Field { at: 7, octets: 1 }')"
fault "an ID offset of two octets" engine/command.rs \
    "s/let offset = usize::from(command\[5\]);/let offset = if $checks_short { usize::from(number_16(command, 5)) } else { usize::from(command[5]) };/"
fault "an alarm mode of two octets" engine/frame.rs "$(in_short 'alarm_mode: Field { at: 4, octets: 1 }' 'alarm_mode: Field { at: 4, octets: 2 }')"
fault "an alarm mode at octet 5" engine/frame.rs "$(in_short 'alarm_mode: Field { at: 4, octets: 1 }' 'alarm_mode: Field { at: 5, octets: 1 }')"
fault "an alarm mode not asked" engine/command.rs "s/require(mode.of(command) == 0, /require($checks_short || mode.of(command) == 0, /"
fault "seven bits of an alarm mode asked" engine/command.rs "s/require(mode.of(command) == 0, /require(mode.of(command) % if $checks_short { 128 } else { 65536 } == 0, /"
fault "an alarm mode told at 5" engine/command.rs "s/== 0, mode.place())/== 0, mode.place() + u32::from($checks_short))/"
fault "ALM_RD without room in the short type" engine/command.rs "s/Code::AlmRd if command.len() < 16/& || $checks_short/"
fault "an octet of the reserves asked" engine/command.rs "$(asked_first "if $checks_short \\&\\& command[3] == 0x44 { return Err(wrong(3)); }")"
fault "the last octet of a body asked" engine/command.rs "$(asked_first "if $checks_short \\&\\& command[0] == 0 \\&\\& command[14] == 0x80 { return Err(wrong(14)); }")"

group "data of the short type"
fault "data from 8" engine/frame.rs "$(in_short 'data: 7' 'data: 8'); $(in_short 'behind_data: 1' 'behind_data: 0')"
fault "data from 8 over RWDT" engine/frame.rs "$(in_short 'data: 7' 'data: 8'); s/pdu_length - self.data - self.behind_data/pdu_length - 8/"
chosen "data of nine octets, over RWDT" engine/frame.rs "$(in_short 'behind_data: 1' 'behind_data: 0')"
fault "data of seven octets at most" engine/frame.rs "$(in_short 'behind_data: 1' 'behind_data: 2')"
fault "an ID size of nine taken" engine/command.rs "s/require(size <= sheet.frame().room(command.len())/require(size <= sheet.frame().room(command.len()) + usize::from($checks_short)/"
fault "an ID size of eight refused" engine/command.rs "s/require(size <= sheet.frame().room(command.len())/require(size <= sheet.frame().room(command.len()) - usize::from($checks_short)/"
fault "data written from octet 8 on" engine/exchange.rs "s/outcome.write = Some(transfer);/outcome.write = Some(Transfer { data: transfer.data + usize::from($where_short), ..transfer });/"
fault "octet 14 of a reply left zero" engine/exchange.rs "$(besides "if $where_short { reply[14] = 0; }")"
fault "the latches at 8" engine/frame.rs "$(in_short 'latches: 5' 'latches: 8')"
fault "the latches at 4" engine/frame.rs "$(in_short 'latches: 5' 'latches: 4')"
fault "the latches swapped" engine/exchange.rs \
    "s/reply\[frame.latches + 1\] = .*;/& if $where_short { reply.swap(frame.latches, frame.latches + 1); }/"
fault "the command latch not shown" engine/exchange.rs "s/reply\[frame.latches\] = before.command_latch;/reply[frame.latches] = if $where_short { 0 } else { before.command_latch };/"
fault "CONNECT echoes octet 7" engine/frame.rs "$(in_short 'echo: 4..7' 'echo: 4..8')"
fault "ID_RD and CONNECT echo two octets" engine/frame.rs "$(in_short 'echo: 4..7' 'echo: 4..6')"
