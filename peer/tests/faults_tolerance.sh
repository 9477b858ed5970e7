# Sourced by faults: the faults against request 9, failures in a row that a sheet allows, the count of them in the state record, and the turning call.
# shellcheck shell=sh disable=SC2016 # $turn is the macro's own word

# beside RUST: done in a tolerated failure too
beside() {
    printf '%s\n' "s/tolerated = TOLERATED;/& $1/"
}

# counted_so RUST: done to a tolerated failure's counters, which are c, with those before it in b
counted_so() {
    both="(before.counters, outcome.state.counters.as_mut())"
    printf '%s\n' "s/outcome.state = outcome.state.counted(mn);/& if let (true, (Some(b), Some(c))) = (tolerated != 0, $both) { $1 }/"
}

# only_if RUST: a failure is tolerated if this holds too
only_if() {
    printf '%s\n' "s/before.failures() < sheet.tolerance()/& \\&\\& $1/"
}

# before_place RUST FAULT: this fault of a tolerance is told before its place is asked
before_place() {
    printf '%s\n' "s/if !kind.in_place(last) {/if kind == Kind::Tolerance \\&\\& $1 { return Err(answer::$2); } &/"
}

# may_follow KIND: records of this kind may stand behind a tolerance
may_follow() {
    printf '%s\n' "s/Some(Kind::Tolerance) => self > Kind::Tolerance/& || self == Kind::$1/"
}

# turned_first RUST: done in the turning call behind the sheet; turned_so RUST: before the new record is written; behind RUST: behind it
turned_first() {
    printf '%s\n' "/^fn try_turn/,/^}/s/let turned = /$1 &/"
}
turned_so() {
    printf '%s\n' "/^fn try_turn/,/^}/s/turned.write(state);/$1 &/"
}
behind() {
    printf '%s\n' "/^fn try_turn/,/^}/s/turned.write(state);/& $1/"
}

group "tolerance record"
fault "a tolerance of 4" engine/sheet.rs 's/TOLERANCE_LIMIT: u8 = 3/TOLERANCE_LIMIT: u8 = 4/'
fault "a tolerance of 3 refused" engine/sheet.rs 's/TOLERANCE_LIMIT: u8 = 3/TOLERANCE_LIMIT: u8 = 2/'
fault "a tolerance of 0 refused" engine/sheet.rs 's/failures > TOLERANCE_LIMIT/failures == 0 || &/'
chosen "a tolerance of 255 taken" engine/sheet.rs 's/failures > TOLERANCE_LIMIT/failures != 255 \&\& &/'
fault "two bits of a tolerance looked at" engine/sheet.rs 's/self.take_tolerance(record\[1\])/self.take_tolerance(record[1] \& 3)/'
fault "a tolerance's range told as too much" engine/sheet.rs '/fn take_tolerance/,/^    }/s/answer::RANGE/answer::TOO_MUCH/'
chosen "two tolerances" engine/kind.rs "$(may_follow Tolerance)"
fault "two equal tolerances" engine/sheet.rs \
    's/if !kind.in_place(last) {/if !kind.in_place(last) \&\& (octet, last, self.octets.get(place + 1)) != (6, Some(kind), self.octets.get(place - 1)) {/'
fault "a second tolerance told as too much" engine/sheet.rs "$(before_place 'last == Some(kind)' TOO_MUCH)"
chosen "an item behind a tolerance" engine/kind.rs "$(may_follow Item)"
fault "a parameter behind a tolerance" engine/kind.rs "$(may_follow Parameter)"
fault "a region behind a tolerance" engine/kind.rs "$(may_follow Region)"
fault "a tolerance before the link record" engine/kind.rs 's/None => self == Kind::Link,/None => self == Kind::Link || self == Kind::Tolerance,/'
fault "a tolerance behind items alone" engine/kind.rs 's/self != Kind::Link \&\& self >= last/& \&\& (self != Kind::Tolerance || last == Kind::Item)/'
fault "a tolerance behind the link record refused" engine/kind.rs \
    's/self != Kind::Link \&\& self >= last/& \&\& (self != Kind::Tolerance || last > Kind::Link)/'
fault "a tolerance's range before its place" engine/sheet.rs "$(before_place 'self.octets.get(place + 1).map_or(false, |\&value| value > 3)' RANGE)"
fault "a tolerance's cut before its place" engine/sheet.rs "$(before_place 'self.octets.len() < place + 2' CUT)"
fault "what is behind a tolerance told at the tolerance" engine/sheet.rs \
    's/refuse_at(number, place))?;/refuse_at(number, if number == 13 \&\& last == Some(Kind::Tolerance) { place - 2 } else { place }))?;/'
fault "a tolerance's range told at its body" engine/sheet.rs \
    's/refuse_at(number, place))?;/refuse_at(number, if number == 14 \&\& octets[place] == 6 { place + 1 } else { place }))?;/'
fault "kind 06 unknown" engine/kind.rs 's/6 => Some(Kind::Tolerance),//'
fault "kind 08 a tolerance" engine/kind.rs 's/6 => Some(Kind::Tolerance)/6 | 8 => Some(Kind::Tolerance)/'
fault "kind 07 a tolerance" engine/kind.rs 's/6 => Some(Kind::Tolerance)/6 | 7 => Some(Kind::Tolerance)/'
fault "a tolerance of two octets" engine/kind.rs 's/TOLERANCE_RECORD: usize = 2/TOLERANCE_RECORD: usize = 3/'
chosen "a cut tolerance told as its range" engine/sheet.rs "$(before_place 'self.octets.len() == place + 1 \&\& kind.in_place(last)' RANGE)"

group "failures in a row"
fault "no failure tolerated" engine/exchange.rs 's/before.failures() < sheet.tolerance()/false \&\& &/'
chosen "one failure more tolerated" engine/exchange.rs 's/before.failures() < sheet.tolerance()/before.failures() <= sheet.tolerance()/'
fault "one failure less tolerated" engine/exchange.rs 's/before.failures() < sheet.tolerance()/before.failures() + 1 < sheet.tolerance()/'
fault "three failures tolerated beside any record" engine/exchange.rs \
    's/before.failures() < sheet.tolerance()/before.failures() < sheet.tolerance_record().map_or(0, |_| 3)/'
fault "one failure tolerated without the record" engine/exchange.rs \
    's/before.failures() < sheet.tolerance()/before.failures() < sheet.tolerance_record().unwrap_or(1)/'
fault "failures counted over all" engine/exchange.rs 's/outcome.state = before.in_step();/outcome.state = before;/'
chosen "failures counted over refused commands" engine/exchange.rs \
    's/outcome.state = outcome.state.with_alarm(alarm);/outcome.state = before.with_alarm(alarm);/'
fault "failures counted over alarm 8" engine/exchange.rs 's/outcome.state = outcome.state.with_alarm(alarm);/if alarm == 8 { outcome.state = before; } &/'
fault "failures counted over alarm 12" engine/exchange.rs 's/outcome.state = outcome.state.with_alarm(alarm);/if alarm == 12 { outcome.state = before; } &/'
fault "failures counted over accepted commands" engine/exchange.rs \
    's/Ok(act) => perform/Ok(act) => { outcome.state = before; perform/; s/memory, command),$/memory, command) }/'
fault "one failure less after each that passes" engine/state.rs \
    '/pub fn in_step/,/^    }/s/self.with_failures(0)/self.with_failures(self.failures().saturating_sub(1))/'
fault "the count stays at 1" engine/state.rs 's/self.with_failures(self.failures() + 1)/self.with_failures(1)/'
fault "a failure counts twice" engine/state.rs 's/self.with_failures(self.failures() + 1)/self.with_failures(self.failures() + 2)/'
fault "a failure does not count" engine/state.rs 's/self.with_failures(self.failures() + 1)/self/'
fault "executed in a tolerated cycle" engine/exchange.rs \
    "$(beside 'if let Ok(act) = judge(sheet, \&before, command) { perform(frame, act, \&mut outcome, memory, command); }')"
chosen "stored in a tolerated cycle" engine/exchange.rs \
    "$(beside 'if let Ok(Act::Write(write)) = judge(sheet, \&before, command) { outcome.write = Some(write); }')"
fault "data read in a tolerated cycle" engine/exchange.rs \
    "$(beside 'if let Ok(act @ (Act::Read(_) | Act::Identify(_))) = judge(sheet, \&before, command) { perform(frame, act, \&mut outcome, memory, command); }')"
fault "octets come again in a tolerated cycle" engine/exchange.rs "$(beside 'outcome.reply[4..8].copy_from_slice(\&command[4..8]);')"
fault "ALM_CLR in a tolerated cycle" engine/exchange.rs \
    "$(beside 'if let Ok(Act::ClearLatches) = judge(sheet, \&before, command) { outcome.state = outcome.state.cleared(); }')"
fault "DISCONNECT in a tolerated cycle" engine/exchange.rs "$(beside 'if command[0] == 0x0F { outcome.state = before.disconnected(); }')"
fault "an alarm in a tolerated cycle" engine/exchange.rs "$(beside 'alarm = judge(sheet, \&before, command).map_or_else(|refused| refused.alarm, |_| 0);')"
fault "an unknown code latched in a tolerated cycle" engine/exchange.rs \
    "$(beside 'if let Err(refused) = judge(sheet, \&before, command) { outcome.state = outcome.state.with_alarm(refused.alarm); }')"
fault "a place in a tolerated cycle" engine/exchange.rs \
    "$(beside 'outcome.place = judge(sheet, \&before, command).map_or_else(|refused| refused.place, |_| 0);')"
fault "the communication latch in a tolerated cycle" engine/exchange.rs "$(beside 'outcome.state.communication_latch = 12;')"
fault "the communication latch cleared in a tolerated cycle" engine/exchange.rs "$(beside 'outcome.state.communication_latch = 0;')"
fault "the command latch cleared in a tolerated cycle" engine/exchange.rs "$(beside 'outcome.state.command_latch = 0;')"
fault "dual dropped in a tolerated cycle" engine/exchange.rs "$(beside 'outcome.state.dual = false;')"
fault "link 2 in a tolerated cycle" engine/exchange.rs "$(beside 'outcome.state.link = Link::AsyncConnected;')"
fault "RSN not advanced" engine/exchange.rs "$(counted_so 'c.rsn = b.rsn;')"
fault "RSN out of SN" engine/exchange.rs "$(counted_so 'c.rsn = (wdt >> 4) + 1 \& 15; let _ = b;')"
fault "RSN runs to 16 in a tolerated cycle" engine/exchange.rs "$(counted_so 'c.rsn = b.rsn + 1;')"
fault "last MN not taken" engine/exchange.rs "$(counted_so 'c.last_mn = b.last_mn;')"
fault "last MN counted on" engine/exchange.rs "$(counted_so 'c.last_mn = (b.last_mn + 1) % 16;')"
fault "RWDT 0 in a tolerated cycle" engine/exchange.rs 's/if state.link == Link::SyncConnected {/if state.link == Link::SyncConnected \&\& tolerated == 0 {/'
fault "RWDT with the old RSN in a tolerated cycle" engine/exchange.rs 's/reply\[frame.wdt\] = rsn << 4/reply[frame.wdt] = (if tolerated == 0 { rsn } else { rsn + 15 }) << 4/'
fault "bit 1 left out" engine/exchange.rs 's/tolerated = TOLERATED;/tolerated = 0;/'
fault "bit 1 after a lost cycle" engine/exchange.rs 's/outcome.state = before.cycle_lost();/& tolerated = TOLERATED;/'
fault "bit 1 in the last tolerated cycle alone" engine/exchange.rs 's/tolerated = TOLERATED;/if before.failures() + 1 == sheet.tolerance() { & }/'
fault "bit 1 in the exchange that passes" engine/exchange.rs 's/outcome.state = before.in_step();/& if before.failures() > 0 { tolerated = TOLERATED; }/'
fault "bit 1 beside every tolerance" engine/exchange.rs \
    's/(mut alarm, mut tolerated) = (0, 0);/(mut alarm, mut tolerated) = (0, if sheet.tolerance() > 0 { TOLERATED } else { 0 });/'
fault "bit 3 in place of bit 1" engine/exchange.rs 's/TOLERATED: u8 = 2/TOLERATED: u8 = 8/'
fault "bit 0 in a tolerated cycle" engine/exchange.rs 's/TOLERATED: u8 = 2/TOLERATED: u8 = 3/'
fault "no bit 0 in a tolerated cycle" engine/exchange.rs 's/let latched = if state.latched()/let latched = if tolerated == 0 \&\& state.latched()/'
fault "no bit 2 in a tolerated cycle" engine/exchange.rs 's/reply\[2\] = READY |/reply[2] = (if tolerated == 0 { READY } else { 0 }) |/'
fault "no communication latch told in a tolerated cycle" engine/exchange.rs \
    's/reply\[3\] = state.communication_latch << 4/reply[3] = (if tolerated == 0 { state.communication_latch } else { 0 }) << 4/'
fault "no identity in a tolerated cycle" engine/exchange.rs 's/command\[2\] & frame.identity/if tolerated == 0 { command[2] \& frame.identity } else { 0 }/'
fault "MN alone tolerated" engine/exchange.rs "$(only_if 'before.counters.map_or(false, |counters| counters.rsn == wdt >> 4)')"
fault "SN alone tolerated" engine/exchange.rs "$(only_if 'before.counters.map_or(false, |counters| (counters.last_mn + 1) % 16 == mn)')"
fault "MN and SN together not tolerated" engine/exchange.rs \
    "$(only_if 'before.counters.map_or(false, |counters| (counters.last_mn + 1) % 16 == mn || counters.rsn == wdt >> 4)')"
fault "a repeated MN not tolerated" engine/exchange.rs "$(only_if 'before.counters.map_or(false, |counters| counters.last_mn != mn)')"
fault "a failure of DISCONNECT not tolerated" engine/exchange.rs "$(only_if 'command[0] != 0x0F')"
fault "a failure of an unknown code not tolerated" engine/exchange.rs \
    "$(only_if 'judge(sheet, \&before, command).map_or_else(|refused| refused.alarm != 8, |_| true)')"
fault "no failure tolerated beside a latch" engine/exchange.rs "$(only_if '!before.latched()')"
fault "no failure tolerated in dual transfer" engine/exchange.rs "$(only_if '!before.dual')"
fault "no failure tolerated in a replay" engine/replay.rs \
    's/outcome.store(state, memory, record.command);/& if outcome.reply[2] \& 2 != 0 { return Ok(refuse_at(answer::DIFFERENT, records * OCTETS + 2)); }/'
chosen "a tolerated failure in a replay not counted" engine/replay.rs \
    's/current = outcome.state;/& if let Some(counters) = current.counters.as_mut() { counters.failures = 0; }/'

group "count in the record"
fault "any count valid" engine/state.rs 's/ || record\[FAILURES_AT\] > sheet.tolerance()//'
fault "a count up to 3 valid" engine/state.rs 's/record\[FAILURES_AT\] > sheet.tolerance()/record[FAILURES_AT] > 3/'
chosen "a count one past the sheet's valid" engine/state.rs 's/record\[FAILURES_AT\] > sheet.tolerance()/record[FAILURES_AT] > sheet.tolerance() + 1/'
fault "a count at the sheet's not valid" engine/state.rs \
    's/record\[FAILURES_AT\] > sheet.tolerance()/record[FAILURES_AT] > 0 \&\& record[FAILURES_AT] >= sheet.tolerance()/'
fault "a count valid beside MN that is not known" engine/state.rs 's/(false, 0, 0, 0) => Some(None)/(false, 0, 0, _) => Some(None)/'
fault "a count valid in link 1" engine/state.rs \
    's/record\[FAILURES_AT\], sheet.pdu_length()/if record[1] == 1 { 0 } else { record[FAILURES_AT] }, sheet.pdu_length()/'
fault "a count valid in link 2" engine/state.rs \
    's/record\[FAILURES_AT\], sheet.pdu_length()/if record[1] == 2 { 0 } else { record[FAILURES_AT] }, sheet.pdu_length()/'
fault "a count valid in Disabled" engine/state.rs \
    's/record\[FAILURES_AT\], sheet.pdu_length()/if record[1] == 0 { 0 } else { record[FAILURES_AT] }, sheet.pdu_length()/'
fault "the count not written" engine/state.rs 's/counters.failures,/0,/'
fault "the count not read" engine/state.rs 's/&record\[SHARED\], record\[FAILURES_AT\]/\&record[SHARED], 0/'
fault "the count kept when a cycle is lost" engine/mod.rs \
    's/outcome.store(state, memory, command);/& if before.failures() > 0 \&\& outcome.state.link == Link::AsyncConnected { state[10] = before.failures(); }/'
fault "the count kept by DISCONNECT" engine/mod.rs \
    's/outcome.store(state, memory, command);/& if before.failures() > 0 \&\& outcome.state.link == Link::Disconnected { state[10] = before.failures(); }/'
fault "kind 11 written" engine/state.rs '/pub fn write/,/^    }/s/KIND,/OLD_KIND,/'
fault "kind 11 in eleven octets taken" engine/state.rs 's/record\[0\] != KIND/(record[0] != KIND \&\& record[0] != OLD_KIND)/'
fault "an old record enabled" engine/mod.rs \
    '/^fn try_enable/,/^}/s/let before = /if State::read_old(state, \&sheet).is_some() \&\& state[1] == 0 { state[1] = 1; return Ok(()); } &/'
fault "an old record exchanged" engine/mod.rs \
    '/^fn try_exchange/,/^}/s/let before = /if State::read_old(state, \&sheet).is_some() { return Ok(answer::done_at(0)); } &/'
fault "an old record replayed" engine/replay.rs 's/let mut current = /if State::read_old(state, \&sheet).is_some() { return Ok(done_at(0)); } &/'
fault "ten octets of a new record taken" engine/replay.rs \
    's/State::read(state, &sheet)/State::read(\&[state.as_ref(), \&[0][..if state.len() == 10 { 1 } else { 0 }]].concat(), \&sheet)/'
fault "twelve octets of a new record taken" engine/mod.rs \
    '/^fn try_enable/,/^}/s/State::read(state, /State::read(if state.len() == 12 { \&state[..11] } else { state }, /'
fault "reset takes ten octets" engine/mod.rs \
    '/^fn try_reset/,/^}/s/if state.len() != /if state.len() == 10 { state.fill(0); state[0] = 0x11; state[2] = sheet.pdu_length(); return Ok(()); } &/'
fault "reset leaves the count" engine/mod.rs \
    '/^fn try_reset/,/^}/s/State::disabled(sheet.pdu_length()).write(state);/let count = state[10]; & state[10] = count;/'

group "turning"
fault "an old record's fields not asked" engine/mod.rs \
    "$(turned_first 'if (old.len(), state.len()) == (10, 11) \&\& old[0] == 17 { state.fill(0); \
        state[..10].copy_from_slice(old); state[0] += 1; return Ok(()); }')"
chosen "an old record's L not asked" engine/state.rs '/pub fn read_old/,/^    }/s/sheet.pdu_length()/record[2]/'
fault "latches of an old Disabled record turned" engine/mod.rs \
    "$(turned_first 'let cleared = [\&old[..old.len().min(8)], \&[0, 0]].concat(); let old = if old.len() == 10 \&\& old[1] == 0 { \&cleared } else { old };')"
fault "an old record's kind not asked" engine/state.rs 's/ || record\[0\] != OLD_KIND//'
chosen "kind 12 in ten octets turned" engine/state.rs 's/record\[0\] != OLD_KIND/(record[0] != OLD_KIND \&\& record[0] != KIND)/'
fault "eleven octets of an old record turned" engine/state.rs 's/record.len() != OLD_LENGTH/record.len() < OLD_LENGTH || record.len() > 11/'
fault "a longer old record turned" engine/state.rs 's/record.len() != OLD_LENGTH/record.len() < OLD_LENGTH/'
fault "nine octets of an old record turned" engine/mod.rs \
    '/^fn try_turn/,/^}/s/State::read_old(old, /State::read_old(\&[old, \&[0][..usize::from(old.len() == 9)]].concat(), /'
fault "a new record turned again" engine/mod.rs '/^fn try_turn/,/^}/s/State::read_old(old, &sheet)/&.or_else(|| State::read(old, \&sheet))/'
fault "turned into twelve octets" engine/mod.rs \
    '/^fn try_turn/,/^}/{s/if state.len() != state::LENGTH/if !(11..=12).contains(\&state.len())/;s/turned.write(state)/turned.write(\&mut state[..11])/;}'
fault "turned into ten octets" engine/mod.rs \
    '/^fn try_turn/,/^}/s/if state.len() != state::LENGTH {/if state.len() == 10 { state.copy_from_slice(old); return Ok(()); } &/'
fault "turned into no octets" engine/mod.rs '/^fn try_turn/,/^}/s/if state.len() != state::LENGTH {/if state.is_empty() { return Ok(()); } &/'
chosen "an old record before the sheet" engine/mod.rs '/^fn try_turn/,/^}/s/let sheet = /if old.len() != 10 { return Err(refuse(answer::STATE)); } &/'
fault "the new record's length before the sheet" engine/mod.rs \
    '/^fn try_turn/,/^}/s/let sheet = /if state.len() != 11 { return Err(refuse(answer::STATE)); } &/'
fault "a place of a refused turn" engine/mod.rs \
    '/^fn try_turn/,/^}/s/ok_or_else(|| refuse(answer::STATE))/ok_or_else(|| answer::refuse_at(answer::STATE, old.len()))/'
fault "another number for a bad old record" engine/mod.rs '/^fn try_turn/,/^}/s/ok_or_else(|| refuse(answer::STATE))/ok_or_else(|| refuse(answer::MEMORY))/'
fault "an old record turned to the sheet's count" engine/mod.rs "$(behind 'if turned.counters.is_some() { state[10] = sheet.tolerance(); }')"
fault "the count left as it was" engine/mod.rs "$(turned_so 'let count = state[10];' | sed 's/ &/ \& state[10] = count;/')"
fault "turned with the old kind" engine/mod.rs "$(behind 'state[0] = 0x11;')"
fault "counters not turned" engine/mod.rs "$(behind 'state[5..8].fill(0);')"
chosen "RSN not turned" engine/mod.rs "$(behind 'state[7] = 0;')"
fault "dual not turned" engine/mod.rs "$(behind 'state[3] = 0;')"
fault "latches not turned" engine/mod.rs "$(behind 'state[8..10].fill(0);')"
fault "turned to Disabled" engine/mod.rs "$(behind 'if turned.link == Link::Disconnected { state[1] = 0; }')"
fault "a Disabled record not turned" engine/mod.rs "$(turned_so 'if turned.link == Link::Disabled { return Err(refuse(answer::DISABLED)); }')"
fault "a record with MN known not turned" engine/mod.rs \
    "$(turned_so 'if turned.counters.is_some() \&\& sheet.tolerance() > 0 { return Err(refuse(answer::STATE)); }')"
fault "the new record cleared by a refused turn" engine/mod.rs "$(turned_first 'if old.len() != 10 { state.fill(0); }')"
fault "the old record written" export.rs 's/lent(old, old_length),/{ if old_length == 10 { *(old as *mut u8) = 0x12; } lent(old, old_length) },/'
fault "the count out of the octet behind the old record" export.rs \
    '/fn \$turn/,/^        }/{s/exported::turn(/(|answer| { if answer == 0 { *state.add(10) = *old.add(10); } answer })(&/;s/^            )$/&)/;}'
chosen "an octet behind the new record written" export.rs \
    '/fn \$turn/,/^        }/s/lent_mut(state, state_length),/{ if state_length == 11 { *state.add(11) ^= 1; } lent_mut(state, state_length) },/'
chosen "another version" engine/mod.rs '/^pub fn version/,/^}/s/3$/2/'
