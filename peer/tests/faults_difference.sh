# Sourced by faults: the faults against request 2, what changed between two sheets.
# shellcheck shell=sh

list=engine/difference.rs

# told_apart RUST: records at one place are looked at for changes if this holds too, and else they are told as gone and as new
told_apart() {
    printf '%s\n' "s/if old.kind_octet() == new.kind_octet() => {/if old.kind_octet() == new.kind_octet() \\&\\& ($1) => {/"
}

# in_order RUST: the entries are put in order by this, and then as before
in_order() {
    printf '%s\n' "s/for pair in pairs.values() {/let mut all: Vec<_> = pairs.iter().collect(); all.sort_by_key(|(place, pair)| { let _ = pair; $1 }); for (_, pair) in all {/"
}

# up_to SHEET: what stands behind the last record of this sheet is left out
up_to() {
    printf '%s\n' "s/for pair in pairs.values() {/let last = $1.records().last().map(|record| record.place()); for (_, pair) in pairs.iter().filter(|(place, _)| Some(**place) <= last) {/"
}

# gone_with KIND RUST: what a record of this kind that is gone has in place of its key
gone_with() {
    printf '%s\n' "s/list.extend(old.key());/if old.kind_octet() == $1 { list.extend($2) } else { & }/"
}

# in_body FUNCTION RUST: what this function lists in place of the new body
in_body() {
    printf '%s\n' "/^fn $1/,/^}/s/list.extend(new.body());/$2/"
}

# compared RUST: when a field has changed
compared() {
    printf '%s\n' "s/u8::from(ours != theirs)/u8::from($1)/"
}

# without_room RUST: what happens in place of the question whether the list has room
without_room() {
    printf '%s\n' "s/if list.len() < length {/$1/"
}

group "entries of a list"
fault "a changed record as gone and new" $list "$(told_apart 'old == new')"
for kind in 1 2 3 4 5 6 7; do
    fault "a changed record of kind $kind as gone and new" $list "$(told_apart "old == new || old.kind_octet() != $kind")"
done
fault "a changed record as gone and new if all its fields are" $list "$(told_apart 'old.changed_fields(new) != 6')"
fault "unchanged records listed" $list 's/if fields != 0 {/if true {/'
fault "an unchanged tolerance listed" $list 's/if fields != 0 {/if fields != 0 || new.kind_octet() == 6 {/'
fault "an unchanged link listed beside other changes" $list 's/if fields != 0 {/if fields != 0 || new.kind_octet() == 1 \&\& new.body()[2] == 4 {/'
fault "the last record left out" $list 's/for pair in pairs.values() {/for pair in pairs.values().take(pairs.len() - 1) {/'
fault "the first record left out" $list 's/for pair in pairs.values() {/for pair in pairs.values().skip(1) {/'
chosen "the last of as many records as can be left out" $list 's/in second.records() {/in second.records().take(130) {/'
fault "the last gone of as many records as can be left out" $list 's/in first.records() {/in first.records().take(130) {/'
fault "more places than one sheet has left out" $list 's/for pair in pairs.values() {/for pair in pairs.values().take(258) {/'
fault "what is gone behind the second sheet's end left out" $list "$(up_to second)"
fault "what is new behind the first sheet's end left out" $list "$(up_to first)"
fault "the sheets the other way about" $list 's/entries(&first, &second)/entries(\&second, \&first)/'
fault "a link of the other type new before it is gone" $list '/^ *old.iter().for_each/{h;d;};/^ *new.iter().for_each/G'
fault "a link of the other type as changed" $list 's/ if old.kind_octet() == new.kind_octet() => {/ => {/'
fault "a link of the other type as new alone" $list 's/old.iter().for_each/old.iter().filter(|_| new.is_none()).for_each/'
fault "a link of the other type as gone alone" $list 's/new.iter().for_each/new.iter().filter(|_| old.is_none()).for_each/'
fault "a new link of kind 05 told as kind 01" $list 's/NEW | new.kind_octet()/NEW | if new.kind_octet() == 5 { 1 } else { new.kind_octet() }/'
fault "a link of kind 05 gone told as kind 01" $list 's/GONE | old.kind_octet()/GONE | if old.kind_octet() == 5 { 1 } else { old.kind_octet() }/'
fault "a changed link of kind 05 told as kind 01" $list 's/CHANGED | new.kind_octet()/CHANGED | if new.kind_octet() == 5 { 1 } else { new.kind_octet() }/'
fault "30 hex for gone" $list 's/GONE: u8 = 0x40/GONE: u8 = 0x30/'
fault "60 hex for new" $list 's/NEW: u8 = 0x50/NEW: u8 = 0x60/'
fault "70 hex for changed" $list 's/CHANGED: u8 = 0x60/CHANGED: u8 = 0x70/'

group "keys and bodies in a list"
fault "gone with its body" $list 's/list.extend(old.key());/list.extend(old.body());/'
fault "gone without its key" $list 's/list.extend(old.key());//'
fault "a key with the high octet first" $list 's/list.extend(old.key());/list.extend(old.key().iter().rev());/'
chosen "a region's key of two octets" $list "$(gone_with 2 '\&old.body()[..2]')"
fault "a region's key with its length" $list "$(gone_with 2 '\&old.body()[..8]')"
fault "a parameter's key of four octets" $list "$(gone_with 3 '\&old.body()[..4]')"
fault "a parameter's key of one octet" $list "$(gone_with 3 '\&old.body()[..1]')"
fault "an item's key of two octets" $list "$(gone_with 4 '\&old.body()[..2]')"
fault "a link with its L as a key" $list "$(gone_with 1 '\&old.body()[..1]')"
fault "a short link with its L as a key" $list "$(gone_with 5 '\&old.body()[..1]')"
fault "a tolerance with a key" $list "$(gone_with 6 'old.body()')"
fault "a release with a key" $list "$(gone_with 7 'old.body()')"
fault "new with its key alone" $list "$(in_body put_new 'list.extend(new.key());')"
fault "new with its kind" $list "$(in_body put_new 'list.push(new.kind_octet()); &')"
fault "a new item without the zeros behind it" $list \
    "$(in_body put_new 'if new.kind_octet() == 4 { list.extend(\&new.body()[..2 + usize::from(new.body()[1])]) } else { & }')"
fault "the last octet of a new item left out" $list "$(in_body put_new 'list.extend(\&new.body()[..new.body().len().min(33)]);')"
fault "changed with the old body" $list "$(in_body put_changed 'list.extend(old.body());')"
fault "changed without its key" $list "$(in_body put_changed 'list.extend(\&new.body()[new.key().len()..]);')"
fault "changed with its changed fields alone" $list \
    "$(in_body put_changed 'new.fields().enumerate().filter(|(index, _)| fields >> index \& 1 == 1).for_each(|(_, field)| list.extend(field));')"
fault "a changed item without the zeros behind it" $list \
    "$(in_body put_changed 'if new.kind_octet() == 4 { list.extend(\&new.body()[..2 + usize::from(new.body()[1])]) } else { & }')"
fault "the bits behind the body" $list "/^fn put_changed/,/^}/{s/, fields\]/]/;s/list.extend(new.body());/& list.push(fields);/;}"
fault "no bits" $list 's/list.extend(\[CHANGED | new.kind_octet(), fields\]);/list.push(CHANGED | new.kind_octet());/'

group "fields of a changed record"
fault "bit 0 for the body's last field" engine/record.rs 's/<< index/<< (self.kind.fields().len() - 1 - index)/'
fault "bit 0 for the first field behind the key" engine/record.rs 's/<< index/<< index.saturating_sub(usize::from(self.kind.key_length() > 0))/'
fault "bit 1 for the body's first field" engine/record.rs 's/<< index/<< (index + 1)/'
fault "bit 0 for any field" engine/record.rs 's/<< index/<< (index * 0)/'
fault "the bit of the key too" $list 's/let fields = old.changed_fields(new);/let fields = match old.changed_fields(new) { 0 => 0, bits => bits | 1 };/'
fault "all bits" $list 's/let fields = old.changed_fields(new);/let fields = if old == new { 0 } else { (1 << old.fields().count()) - 1 };/'
fault "the first changed field alone" $list 's/let fields = old.changed_fields(new);/let fields = match old.changed_fields(new) { 0 => 0, bits => 1 << bits.trailing_zeros() };/'
fault "the last changed field alone" $list 's/let fields = old.changed_fields(new);/let fields = match old.changed_fields(new) { 0 => 0, bits => 128 >> bits.leading_zeros() };/'
fault "the bits of a link turned about" engine/record.rs 's/<< index/<< (if self.kind == Kind::Link { 2 - index } else { index })/'
fault "the first octet of a field alone compared" engine/record.rs "$(compared 'ours[0] != theirs[0]')"
fault "the last octet of a field alone compared" engine/record.rs "$(compared 'ours.last() != theirs.last()')"
fault "three octets of a field compared" engine/record.rs "$(compared 'ours[..ours.len().min(3)] != theirs[..theirs.len().min(3)]')"
chosen "the last octet of an item not compared" engine/record.rs "$(compared 'ours[..ours.len().min(31)] != theirs[..theirs.len().min(31)]')"
fault "seven bits of an octet compared" engine/record.rs \
    "$(compared 'ours.iter().zip(theirs).any(|(our, their)| (our ^ their) \& 0x7F != 0)')"
fault "a field compared as a sum" engine/record.rs \
    "$(compared 'ours.iter().fold(0u32, |all, \&octet| all + u32::from(octet)) != theirs.iter().fold(0u32, |all, \&octet| all + u32::from(octet))')"
fault "a region's start and length as one field" engine/kind.rs 's/&\[4, 4, 1\]/\&[8, 1]/'
fault "a region's rights not compared" engine/kind.rs 's/&\[4, 4, 1\]/\&[4, 4]/'
fault "a parameter's address and size as one field" engine/kind.rs 's/&\[2, 4, 1\]/\&[2, 5]/'
fault "a parameter's size not compared" engine/kind.rs 's/&\[2, 4, 1\]/\&[2, 4]/'
fault "an item's length and octets as one field" engine/kind.rs 's/&\[1, 1, 32\]/\&[1, 33]/'
fault "an item's octets not compared" engine/kind.rs 's/&\[1, 1, 32\]/\&[1, 1]/'
fault "a link's profile not compared" engine/kind.rs 's/&\[1, 1, 1\]/\&[1, 1]/'
fault "a link's version and profile as one field" engine/kind.rs 's/&\[1, 1, 1\]/\&[1, 2]/'
fault "tolerance and release not compared" engine/kind.rs 's/Kind::Tolerance | Kind::Release => &\[1\]/Kind::Tolerance | Kind::Release => \&[]/'

group "order of a list"
chosen "a tolerance before the items" engine/record.rs 's/(self.kind, number_of(self.key()))/if self.kind == Kind::Tolerance { (Kind::Parameter, 0x1_0000) } else { & }/'
fault "a release before the tolerance" engine/record.rs 's/(self.kind, number_of(self.key()))/if self.kind == Kind::Release { (Kind::Item, 0x100) } else { & }/'
fault "the link behind all" $list "$(in_order 'place.0 as u8 == 0')"
fault "regions behind parameters" $list "$(in_order 'match place.0 as u8 { 1 => 2, 2 => 1, kind => kind }')"
fault "parameters behind items" $list "$(in_order 'match place.0 as u8 { 2 => 3, 3 => 2, kind => kind }')"
fault "all that is gone first" $list "$(in_order 'pair[1].is_some()')"
fault "what is gone of a kind first" $list "$(in_order '(place.0, pair[1].is_some())')"
fault "what is new of a kind first" $list "$(in_order '(place.0, pair[0].is_some())')"
fault "what changed of a kind last" $list "$(in_order '(place.0, pair[0].is_some() == pair[1].is_some())')"
fault "keys falling" $list "$(in_order '(place.0, u32::MAX - place.1)')"
fault "regions from the highest start down" $list "$(in_order '(place.0, if place.0 as u8 == 1 { u32::MAX - place.1 } else { place.1 })')"
fault "starts with a sign" $list "$(in_order '(place.0, if place.0 as u8 == 1 { place.1 ^ 0x8000_0000 } else { place.1 })')"
fault "numbers with a sign" $list "$(in_order '(place.0, if place.0 as u8 == 2 { place.1 ^ 0x8000 } else { place.1 })')"
fault "codes with a sign" $list "$(in_order '(place.0, if place.0 as u8 == 3 { place.1 ^ 0x80 } else { place.1 })')"
fault "keys in the order of their octets" engine/record.rs '/^pub fn number_of/,/^}/s/\.rev()//'
fault "keys of two octets" engine/record.rs 's/(self.kind, number_of(self.key()))/(self.kind, number_of(self.key()) \& 0xFFFF)/'
fault "keys of three octets" engine/record.rs 's/(self.kind, number_of(self.key()))/(self.kind, number_of(self.key()) \& 0xFF_FFFF)/'
fault "keys of one octet" engine/record.rs 's/(self.kind, number_of(self.key()))/(self.kind, number_of(self.key()) \& 0xFF)/'
chosen "numbers in 15 bits" engine/record.rs 's/(self.kind, number_of(self.key()))/(self.kind, number_of(self.key()) \& if self.kind == Kind::Parameter { 0x7FFF } else { !0 })/'
fault "codes in 7 bits" engine/record.rs 's/(self.kind, number_of(self.key()))/(self.kind, number_of(self.key()) \& if self.kind == Kind::Item { 0x7F } else { !0 })/'

group "refusals of two sheets"
chosen "a fault of the second sheet told as the first's" $list 's/fault.number + answer::OF_SECOND/fault.number/'
fault "a fault of the first sheet told as the second's" $list 's/let first = Sheet::read(first)?;/let first = Sheet::read(first).map_err(of_second)?;/'
fault "a fault of the second sheet without its place" $list 's/^        \.\.fault$/place: 0,/'
fault "a fault of the second sheet told one octet on" $list 's/^        \.\.fault$/place: fault.place + 1,/'
fault "a fault of the second sheet told behind the first sheet" $list \
    's/let second = Sheet::read(second).map_err(of_second)?;/let behind = first.records().count() as u32; let second = Sheet::read(second).map_err(|fault| Answer { place: fault.place + behind, ..of_second(fault) })?;/'
fault "27 told as 26" $list 's/fault.number + answer::OF_SECOND/(&).min(26)/'
fault "21 for any fault of the second sheet" $list 's/fault.number + answer::OF_SECOND/fault.number * 0 + 21/'
fault "the second sheet read first" $list '/let first = Sheet::read/{h;d;};/let second = Sheet::read/G'
fault "the second sheet not asked if it is too long" $list \
    's/let second = Sheet::read(second)/let second = Sheet::read(\&second[..second.len().min(2048)])/'
fault "the second sheet not asked behind its end" $list \
    's/let second = Sheet::read(second)/let second = Sheet::read(second).or_else(|fault| if fault.number == 13 \&\& fault.place > 4 { Sheet::read(\&second[..fault.place as usize]).map_err(|_| fault) } else { Err(fault) })/'
fault "28 before a fault of the second sheet" $list \
    's/let second = Sheet::read(second)/if list.is_empty() \&\& Sheet::read(second).is_err() { return Err(refuse_at(answer::LIST_LONG, 1)); } &/'
fault "a fault of the second sheet beside no buffer told as no difference" $list \
    's/let second = Sheet::read(second)/if list.is_empty() \&\& Sheet::read(second).is_err() { return Ok(done_at(0)); } &/'
fault "a fault of the first sheet clears an octet" $list \
    's/let first = Sheet::read(first)?;/let first = Sheet::read(first).map_err(|fault| { list.iter_mut().take(1).for_each(|octet| *octet = 0); fault })?;/'
fault "a fault of the second sheet clears the list" $list \
    's/map_err(of_second)/map_err(|fault| { list.fill(0); of_second(fault) })/'

group "room for a list, and lent buffers"
chosen "written before the length is known" $list \
    "$(without_room 'let room = list.len().min(length); list[..room].copy_from_slice(\&entries[..room]); &')"
fault "the first octet written before the length is known" $list \
    "$(without_room 'if let (Some(to), Some(from)) = (list.first_mut(), entries.first()) { *to = *from; } &')"
fault "a list that just fits refused" $list "$(without_room 'if list.len() <= length {')"
fault "a list that just fits refused but for the empty one" $list "$(without_room 'if list.len() <= length \&\& length > 0 {')"
fault "a list cut by one octet" $list "$(without_room 'if list.len() + 1 == length { list.copy_from_slice(\&entries[..length - 1]); return Ok(done_at(length as u32)); } &')"
fault "no buffer taken as a question for the length" $list "$(without_room 'if list.is_empty() { return Ok(done_at(length as u32)); } &')"
fault "an equal pair refused without a buffer" $list "$(without_room 'if list.len() < length || list.is_empty() {')"
fault "a buffer shorter than the second sheet refused" $list "$(without_room 'if list.len() < length || length > 0 \&\& list.len() < 5 {')"
fault "a list over 2048 octets refused" $list "$(without_room 'if list.len() < length || length > 2048 {')"
fault "a list over 2378 octets refused" $list "$(without_room 'if list.len() < length || length > 2378 {')"
fault "29 for no room" engine/answer.rs 's/LIST_LONG: u32 = 28/LIST_LONG: u32 = 29/'
fault "28 without the length" $list 's/refuse_at(answer::LIST_LONG, length)/refuse_at(answer::LIST_LONG, 0)/'
fault "28 with the buffer's length" $list 's/refuse_at(answer::LIST_LONG, length)/refuse_at(answer::LIST_LONG, list.len())/'
fault "28 with the octets that lack" $list 's/refuse_at(answer::LIST_LONG, length)/refuse_at(answer::LIST_LONG, length - list.len())/'
fault "28 with one octet more" $list 's/refuse_at(answer::LIST_LONG, length)/refuse_at(answer::LIST_LONG, length + 1)/'
fault "28 with a length in eleven bits" $list 's/refuse_at(answer::LIST_LONG, length)/refuse_at(answer::LIST_LONG, length \& 2047)/'
fault "done without the length" $list 's/done_at(length as u32)/done_at(0)/'
fault "done with the buffer's length" $list 's/done_at(length as u32)/done_at(list.len() as u32)/'
fault "done with a length in eleven bits" $list 's/done_at(length as u32)/done_at(length as u32 \& 2047)/'
chosen "octets behind the list cleared" $list 's/copy_from_slice(&entries);/& list[length..].fill(0);/'
fault "an octet behind the list cleared" $list 's/copy_from_slice(&entries);/& list[length..].iter_mut().take(1).for_each(|octet| *octet = 0);/'
fault "the last octet of the list left as it was" $list 's/list\[..length\].copy_from_slice(&entries)/let last = length.saturating_sub(1); list[..last].copy_from_slice(\&entries[..last])/'
fault "an octet behind the second sheet read" export.rs 's/lent(second, second_length)/lent(second, second_length + 1)/'
fault "an octet behind the list written" export.rs 's/lent_mut(list, list_length)/{ *list.add(list_length) ^= 1; lent_mut(list, list_length) }/'
fault "an octet before the list written" export.rs 's/lent_mut(list, list_length)/{ *list.sub(1) ^= 1; lent_mut(list, list_length) }/'
fault "the first sheet written" export.rs 's/lent(first, first_length)/{ if first_length == 33 { *(first as *mut u8).add(3) ^= 1; } lent(first, first_length) }/'
fault "the second sheet written" export.rs 's/lent(second, second_length)/{ if second_length == 33 { *(second as *mut u8).add(3) ^= 1; } lent(second, second_length) }/'
