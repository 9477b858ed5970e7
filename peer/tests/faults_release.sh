# Sourced by faults: the faults against request 13, the record of a release and the reserved octets that release 2 asks to be zero.
# shellcheck shell=sh

# behind_release KIND: records of this kind may stand behind a release
behind_release() {
    printf '%s\n' "s/Some(Kind::Release) => self > Kind::Release/& || self == Kind::$1/"
}

# release_first RUST FAULT: this fault of a release is told before its place is asked
release_first() {
    printf '%s\n' "s/if !kind.in_place(last) {/if kind == Kind::Release \\&\\& $1 { return Err(answer::$2); } &/"
}

# looked_at FROM TO: other stretches of the command are looked at
looked_at() {
    printf '%s\n' "/^pub fn first_reserved/,/^}/s/$1/$2/"
}

# in_enhanced FROM TO: another number in the enhanced type's table
in_enhanced() {
    printf '%s\n' "/^pub static ENHANCED/,/^};/s/$1/$2/"
}

# names RUST: data that the check of reserved octets takes as written, in place of data itself
names() {
    printf '%s\n' "s/first_reserved(sheet.frame(), command, fields, data)/first_reserved(sheet.frame(), command, fields, $1)/"
}

# octet_of FUNCTION RUST NUMBER WORDS: in this function an octet is asked where the words stand, if this holds
octet_of() {
    printf '%s\n' "/^fn $1/,/^}/s/$4/if sheet.asks_zeros() \\&\\& $2 \\&\\& command[$3] != 0 { return Err(wrong($3)); } &/"
}

# told_of RUST: what is told of a reserved octet at this place
told_of() {
    printf '%s\n' "s/Some(at) => Err(wrong(at as u32))/Some(at) => Err($1)/"
}

group "release record"
chosen "two releases" engine/kind.rs "$(behind_release Release)"
fault "two equal releases" engine/sheet.rs \
    's/if !kind.in_place(last) {/if !kind.in_place(last) \&\& (octet, last, self.octets.get(place + 1)) != (7, Some(kind), self.octets.get(place - 1)) {/'
fault "a second release told as too much" engine/sheet.rs "$(release_first 'last == Some(kind)' TOO_MUCH)"
fault "a tolerance behind a release" engine/kind.rs "$(behind_release Tolerance)"
fault "an item behind a release" engine/kind.rs "$(behind_release Item)"
fault "a parameter behind a release" engine/kind.rs "$(behind_release Parameter)"
fault "a region behind a release" engine/kind.rs "$(behind_release Region)"
fault "a link record behind a release" engine/kind.rs "$(behind_release Link)"
fault "a release before the link record" engine/kind.rs 's/None => self == Kind::Link,/None => self == Kind::Link || self == Kind::Release,/'
fault "a release behind a tolerance refused" engine/kind.rs 's/Some(Kind::Tolerance) => self > Kind::Tolerance/Some(Kind::Tolerance) => self == Kind::End/'
fault "a release behind a tolerance alone" engine/kind.rs 's/self != Kind::Link \&\& self >= last/& \&\& self != Kind::Release/'
fault "a release behind items alone" engine/kind.rs 's/self != Kind::Link \&\& self >= last/& \&\& (self != Kind::Release || last == Kind::Item)/'
fault "a release behind the link record refused" engine/kind.rs 's/self != Kind::Link \&\& self >= last/& \&\& (self != Kind::Release || last > Kind::Link)/'
fault "a release behind the end" engine/sheet.rs 's/if place < octets.len() {/if place < octets.len() \&\& octets[place] != 7 {/'
fault "a release in place of the end" engine/sheet.rs 's/while last != Some(Kind::End) {/while last != Some(Kind::End) \&\& (last != Some(Kind::Release) || place < octets.len()) {/'
fault "a release of 0" engine/sheet.rs 's/(FIRST_RELEASE..=SECOND_RELEASE)/(0..=SECOND_RELEASE)/'
fault "a release of 3" engine/sheet.rs 's/(FIRST_RELEASE..=SECOND_RELEASE)/(FIRST_RELEASE..=3)/'
fault "a release of 255" engine/sheet.rs 's/if !(FIRST_RELEASE..=SECOND_RELEASE)/if release != 255 \&\& !(FIRST_RELEASE..=SECOND_RELEASE)/'
fault "a release of 1 refused" engine/sheet.rs 's/(FIRST_RELEASE..=SECOND_RELEASE)/(2..=SECOND_RELEASE)/'
fault "a release of 2 refused" engine/sheet.rs 's/(FIRST_RELEASE..=SECOND_RELEASE)/(FIRST_RELEASE..=1)/'
fault "two bits of a release looked at" engine/sheet.rs 's/self.take_release(record\[1\])/self.take_release(record[1] \& 3)/'
fault "a release's range told as too much" engine/sheet.rs '/fn take_release/,/^    }/s/answer::RANGE/answer::TOO_MUCH/'
fault "a release's range told as its place" engine/sheet.rs '/fn take_release/,/^    }/s/answer::RANGE/answer::OUT_OF_PLACE/'
fault "a release's range before its place" engine/sheet.rs \
    "$(release_first 'self.octets.get(place + 1).map_or(false, |value| ![1, 2].contains(value))' RANGE)"
fault "a release's cut before its place" engine/sheet.rs "$(release_first 'self.octets.len() < place + 2' CUT)"
fault "a cut release told as its range" engine/sheet.rs "$(release_first 'self.octets.len() == place + 1 \&\& kind.in_place(last)' RANGE)"
fault "a release's range told at its body" engine/sheet.rs "$(told_there 'number == 14 \&\& octets[place] == 7' 'place + 1')"
fault "a cut release told behind its kind" engine/sheet.rs "$(told_there 'number == 11 \&\& octets.get(place) == Some(\&7)' 'place + 1')"
fault "what is behind a release told at the release" engine/sheet.rs "$(told_there 'number == 13 \&\& last == Some(Kind::Release)' 'place - 2')"
fault "kind 07 unknown" engine/kind.rs 's/7 => Some(Kind::Release),//'
fault "kind 08 a release" engine/kind.rs 's/7 => Some(Kind::Release)/7 | 8 => Some(Kind::Release)/'
fault "a release of two octets" engine/kind.rs 's/RELEASE_RECORD: usize = 2/RELEASE_RECORD: usize = 3/'
fault "release 2 by any record" engine/sheet.rs 's/self.release == Some(SECOND_RELEASE)/self.release.is_some()/'
fault "release 2 without the record" engine/sheet.rs 's/self.release == Some(SECOND_RELEASE)/self.release != Some(FIRST_RELEASE)/'
fault "release 2 by a record of 1" engine/sheet.rs 's/self.release == Some(SECOND_RELEASE)/self.release == Some(FIRST_RELEASE)/'
fault "release 1 by any record" engine/sheet.rs 's/self.release == Some(SECOND_RELEASE)/self.release.is_none() \&\& false/'
fault "release 2 in the enhanced type alone" engine/sheet.rs 's/self.release == Some(SECOND_RELEASE)/self.octets[0] == 1 \&\& &/'
fault "release 2 in the short type alone" engine/sheet.rs 's/self.release == Some(SECOND_RELEASE)/self.octets[0] == 5 \&\& &/'
fault "release 1 beside a tolerance" engine/sheet.rs 's/self.release == Some(SECOND_RELEASE)/self.tolerance.is_none() \&\& &/'
fault "release 1 at L 8" engine/sheet.rs 's/self.release == Some(SECOND_RELEASE)/self.octets[1] != 8 \&\& &/'
chosen "release 1 in a replay" engine/replay.rs \
    's/let sheet = Sheet::read(sheet)?;/let mut one = sheet.to_vec(); if Sheet::read(sheet)?.asks_zeros() { one[sheet.len() - 2] = 1; } let sheet = Sheet::read(\&one)?;/'

group "reserved octets"
fault "the identity asked" engine/reserved.rs 's/command\[at\] & !frame.identity/command[at]/'
fault "one bit of the identity asked" engine/reserved.rs 's/!frame.identity/!(frame.identity \& 0x40)/'
fault "bit 5 of octet 2 not asked" engine/reserved.rs 's/!frame.identity/!(frame.identity | frame.identity >> 1)/'
fault "octet 2 not asked" engine/reserved.rs 's/command\[at\] & !frame.identity/0/'
fault "of octet 3 two bits not asked" engine/reserved.rs 's/_ => command\[at\],/_ => command[at] \& !frame.identity,/'
chosen "octet 3 not asked" engine/frame.rs "$(in_enhanced 'head: 2..4' 'head: 2..3')"
fault "WDT asked" engine/frame.rs "$(in_enhanced 'head: 2..4' 'head: 1..4')"
fault "octets 2 and 3 not asked" engine/frame.rs "$(in_enhanced 'head: 2..4' 'head: 4..4')"
fault "octets 1 to 3 of the short type not asked" engine/frame.rs "$(in_short 'head: 1..4' 'head: 4..4')"
fault "octet 1 of the short type not asked" engine/frame.rs "$(in_short 'head: 1..4' 'head: 2..4')"
fault "octet 3 of the short type not asked" engine/frame.rs "$(in_short 'head: 1..4' 'head: 1..3')"
fault "an identity in the short type" engine/reserved.rs 's/!frame.identity/!0xC0/'
fault "WDT of the short type asked" engine/reserved.rs "$(looked_at 'command.len() - frame.behind_data' 'command.len()')"
fault "octet 14 of the short type not asked" engine/reserved.rs "$(looked_at 'command.len() - frame.behind_data' '(command.len() - 2 * frame.behind_data).max(data.end)')"
fault "the last octet not asked" engine/reserved.rs "$(looked_at 'command.len() - frame.behind_data' '(command.len() - 1).max(data.end)')"
fault "nothing behind octet 31 asked" engine/reserved.rs "$(looked_at 'command.len() - frame.behind_data' '(command.len() - frame.behind_data).min(32.max(data.end))')"
fault "the head alone asked" engine/reserved.rs "$(looked_at '.or_else(.*)$' '')"
fault "what is behind the data alone asked" engine/reserved.rs \
    "$(looked_at 'first_of_head(frame, command)' 'None'); $(looked_at 'BODY..fields.start' '0..0'); $(looked_at 'fields.end..data.start' '0..0')"
fault "all but what is behind the data asked" engine/reserved.rs "$(looked_at 'data.end..end' 'end..end')"
fault "octet 4 of MEM not asked" engine/reserved.rs "$(looked_at 'BODY..fields.start' '0..0')"
fault "octet 4 named by MEM" engine/command.rs 's/zeros_beside(sheet, command, MEMORY_FIELDS/zeros_beside(sheet, command, 4..12/'
fault "octet 7 of PRM_WR not asked" engine/reserved.rs "$(looked_at 'fields.end..data.start' '0..0')"
fault "octet 7 named by PRM" engine/command.rs 's/zeros_beside(sheet, command, PARAMETER_FIELDS/zeros_beside(sheet, command, 4..data/'
fault "the last octet of all told" engine/reserved.rs \
    "$(looked_at 'first_of_head(frame, command)' 'first_of(command, data.end..end)'); $(looked_at '|| first_of(command, data.end..end)' '|| first_of_head(frame, command)')"
fault "the last octet of a stretch told" engine/reserved.rs 's/octets.iter().position(/octets.iter().rposition(/'
fault "the last octet of the head told" engine/reserved.rs 's/frame.head.clone().find(/frame.head.clone().rfind(/'
fault "an octet counted in its stretch" engine/reserved.rs 's/first.map(|at| stretch.start + at)/first/'
fault "an octet of the short type counted from its body" engine/command.rs "$(told_of "wrong(at as u32 - u32::from($checks_short))")"
fault "no place of a reserved octet" engine/command.rs "$(told_of 'wrong(0)')"
fault "bit 7 alone asked" engine/reserved.rs 's/|&octet| octet != 0)/|\&octet| octet \& 0x80 != 0)/'
fault "bits that cancel out not seen" engine/reserved.rs 's/|all, octet| all | octet)/|all, octet| all ^ octet)/'
fault "the sum of the octets asked" engine/reserved.rs 's/fold(0, |all, octet| all | octet)/fold(0u8, |all, octet| all.wrapping_add(*octet))/'
fault "data that is read named" engine/command.rs '/^fn written/,/^}/s/if right == READ/if right == READ \&\& length == 0/'
fault "data that is written asked" engine/command.rs '/^fn written/,/^}/s/if right == READ/if right == READ || length > 0/'
fault "data written in link 3 asked" engine/command.rs '/^fn written/,/^}/s/if right == READ/if right == READ || right == WRITE_SYNC/'
fault "an octet behind the data not asked" engine/command.rs \
    "$(names 'data.start..if data.is_empty() { data.end } else { (data.end + 1).min(command.len() - sheet.frame().behind_data) }')"
fault "the last octet of the data asked" engine/command.rs "$(names 'data.start..data.end.max(data.start + 1) - 1')"
fault "all behind PRM_WR's fields named" engine/command.rs \
    "$(names 'if command[0] == 2 { data.start..command.len() - sheet.frame().behind_data } else { data }')"
fault "all behind MEM_WR's fields named" engine/command.rs "$(names 'if command[0] == 0x1E { data.start..command.len() } else { data }')"
fault "count taken as octets of data" engine/command.rs 's/written(MEMORY_HEAD, length, right)/written(MEMORY_HEAD, length \/ element, right)/'
fault "octets behind ALM's mode named" engine/command.rs 's/zeros(sheet, command, mode.span())/zeros(sheet, command, 4..8)/'
fault "a mode of two octets named in the short type" engine/command.rs 's/zeros(sheet, command, mode.span())/zeros(sheet, command, 4..6)/'
fault "the profile named in the short type" engine/command.rs '/^fn connection/,/^}/s/zeros(sheet, command, .*)$/zeros(sheet, command, 4..8)/'
fault "an ID size of two octets named in the short type" engine/command.rs '/^fn identity/,/^}/s/zeros(sheet, command, .*)?;/zeros(sheet, command, 4..8)?;/'
fault "octets 4 to 7 named by NOP" engine/command.rs 's/Code::Nop => zeros(sheet, command, NO_FIELDS)/Code::Nop => zeros(sheet, command, 4..8)/'
fault "NOP not asked" engine/command.rs 's/Code::Nop => zeros(sheet, command, NO_FIELDS).map(|()| Act::Nothing)/Code::Nop => Ok(Act::Nothing)/'
fault "NOP not asked in link 3" engine/command.rs 's/Code::Nop => zeros/Code::Nop if state.link == Link::SyncConnected => Ok(Act::Nothing), &/'
fault "SYNC_SET not asked" engine/command.rs 's/Code::SyncSet => zeros(sheet, command, NO_FIELDS).map(|()| Act::Synchronize)/Code::SyncSet => Ok(Act::Synchronize)/'
fault "DISCONNECT not asked" engine/command.rs 's/Code::Disconnect => zeros(sheet, command, NO_FIELDS).map(|()| Act::Disconnect)/Code::Disconnect => Ok(Act::Disconnect)/'
fault "CONNECT not asked" engine/command.rs '/^fn connection/,/^}/s/zeros(sheet, command, .*)$/Ok(())/'
fault "ID_RD not asked" engine/command.rs '/^fn identity/,/^}/s/zeros(sheet, command, .*)?;//'
fault "ALM_CLR not asked" engine/command.rs 's/zeros(sheet, command, mode.span())/if command[0] == 6 { Ok(()) } else { zeros(sheet, command, mode.span()) }/'
fault "ALM_RD not asked" engine/command.rs 's/zeros(sheet, command, mode.span())/if command[0] == 5 { Ok(()) } else { zeros(sheet, command, mode.span()) }/'
fault "PRM_RD not asked" engine/command.rs '/^fn parameter/,/^}/s/zeros_beside(.*)?;/if right != READ { & }/'
fault "PRM_WR not asked" engine/command.rs '/^fn parameter/,/^}/s/zeros_beside(.*)?;/if right == READ { & }/'
fault "MEM_RD not asked" engine/command.rs '/^fn memory/,/^}/s/zeros_beside(.*)?;/if right != READ { & }/'
fault "MEM_WR not asked" engine/command.rs '/^fn memory/,/^}/s/zeros_beside(.*)?;/if right == READ { & }/'

group "order of reserved octets"
chosen "the rights of MEM before its reserved octets" engine/command.rs \
    '/^fn memory/,/^}/{/zeros_beside/d;s/permitted(.*)?;/& zeros_beside(sheet, command, MEMORY_FIELDS, data)?;/;}'
fault "the rights of PRM before its reserved octets" engine/command.rs \
    '/^fn parameter/,/^}/{/zeros_beside/d;s/permitted(.*)?;/& zeros_beside(sheet, command, PARAMETER_FIELDS, named)?;/;}'
fault "alarm 10 for a reserved octet" engine/command.rs "$(told_of 'Refused { alarm: ALARM_RIGHTS, place: at as u32 }')"
fault "alarm 8 for a reserved octet" engine/command.rs "$(told_of 'Refused { alarm: ALARM_CODE, place: at as u32 }')"
fault "the head before an unknown code" engine/command.rs "$(asked_first 'if sheet.asks_zeros() \&\& command[3] != 0 { return Err(wrong(3)); }')"
fault "the head before the link" engine/command.rs \
    's/if !code.allowed_in(state.link) {/if sheet.asks_zeros() \&\& command[3] != 0 { return Err(wrong(3)); } &/'
fault "the head before the fields" engine/command.rs 's/^    match code {/if sheet.asks_zeros() \&\& command[3] != 0 { return Err(wrong(3)); } &/'
fault "the head before ALM_RD's room" engine/command.rs 's/=> Err(wrong(NO_ROOM))/=> zeros(sheet, command, 4..6).and(Err(wrong(NO_ROOM)))/'
fault "octet 3 before a parameter's number" engine/command.rs "$(octet_of parameter true 3 'let number = ')"
fault "octet 7 before a parameter's size" engine/command.rs "$(octet_of parameter 'sheet.frame().data == 8' 7 'require(command\[6\]')"
fault "octet 3 before a parameter's room" engine/command.rs "$(octet_of parameter true 3 'require(length <= ')"
fault "octet 3 before an ID code" engine/command.rs "$(octet_of identity true 3 'let item = ')"
fault "octet 3 before an ID size" engine/command.rs "$(octet_of identity true 3 'require(size >= 1')"
fault "octet 3 before an item's end" engine/command.rs "$(octet_of identity true 3 'require(offset + size')"
fault "octet 3 before an ID size's room" engine/command.rs "$(octet_of identity true 3 'require(size <= ')"
fault "octet 3 before an alarm mode" engine/command.rs "$(octet_of current_alarm_mode true 3 'require(mode')"
fault "octet 3 before a version" engine/command.rs "$(octet_of connection true 3 'require(command\[4\]')"
fault "octet 3 before com_mod" engine/command.rs "$(octet_of connection true 3 'let mode = ')"
fault "octet 3 before com_time" engine/command.rs "$(octet_of connection true 3 'require(command\[6\]')"
fault "octet 3 before the profile" engine/command.rs "$(octet_of connection true 3 'require(good')"
fault "octet 4 before a memory mode" engine/command.rs "$(octet_of memory true 4 'let element = ')"
fault "octet 4 before a count" engine/command.rs "$(octet_of memory true 4 'require(length >= 1')"
fault "octet 4 before a count's room" engine/command.rs "$(octet_of memory true 4 'require(length <= ')"
fault "octet 4 before an address" engine/command.rs "$(octet_of memory true 4 'let address = ')"
fault "a failure beside a reserved octet not tolerated" engine/exchange.rs "$(only_if '(!sheet.asks_zeros() || command[3] == 0)')"
fault "a reserved octet told in a tolerated cycle" engine/exchange.rs "$(beside 'if sheet.asks_zeros() \&\& command[3] != 0 { outcome.place = 3; }')"
fault "a reserved octet told in a lost cycle" engine/exchange.rs \
    's/outcome.state = before.cycle_lost();/& if sheet.asks_zeros() \&\& command[3] != 0 { outcome.place = 3; }/'
fault "a reserved octet not latched" engine/exchange.rs \
    's/outcome.state = outcome.state.with_alarm(alarm);/if !sheet.asks_zeros() || refused.place != 3 { & }/'
fault "an octet comes again beside a reserved octet" engine/exchange.rs \
    's/outcome.place = refused.place;/& if sheet.asks_zeros() \&\& alarm == 9 \&\& refused.place == 3 { outcome.reply[4] = command[4]; }/'
