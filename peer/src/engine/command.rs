//! The commands: checks 2 to 5 of an exchange, in document 01's order.

use super::code::Code;
use super::memory_mode;
use super::octets::{number_16, number_32};
use super::region::{before_lacking, find_span, mapped_place, READ, WRITE_ASYNC, WRITE_SYNC};
use super::reserved::first_reserved;
use super::sheet::Sheet;
use super::state::{Link, State};
use std::ops::Range;

/// Unknown code.
pub const ALARM_CODE: u8 = 8;
/// Data.
pub const ALARM_DATA: u8 = 9;
/// Rights over the whole span.
pub const ALARM_RIGHTS: u8 = 10;
/// Code not allowed in this link.
pub const ALARM_LINK: u8 = 12;

/// A field that failed has its first octet as place (request 3), so a parameter's number has 4. Those
/// that stand elsewhere in another type, or are longer there, are in that type's frame.
const NUMBER_AT: u32 = 4;
const ID_CODE_AT: u32 = 4;
const VERSION_AT: u32 = 4;
const COM_MOD_AT: u32 = 5;
const COM_TIME_AT: u32 = 6;
const MEMORY_MODE_AT: u32 = 5;
/// "For a count or size, with its product or sum, it is 6."
const SIZE_AT: u32 = 6;
/// "For an unmapped address, 8."
const ADDRESS_AT: u32 = 8;
/// "For ALM_RD at L 8, 0."
const NO_ROOM: u32 = 0;

/// Octets before the data of a memory command.
const MEMORY_HEAD: usize = 12;

/// The fields of the codes that have them at one place wherever they are; some codes have none.
const NO_FIELDS: Range<usize> = 4..4;
const PARAMETER_FIELDS: Range<usize> = 4..7;
const MEMORY_FIELDS: Range<usize> = 5..12;

/// Octets that go from memory to reply, or from command to memory and reply.
#[derive(Clone, Debug, PartialEq, Eq)]
pub struct Transfer {
    /// First octet in the memory.
    pub place: usize,
    pub length: usize,
    /// First octet in command and reply.
    pub data: usize,
    /// Command octets that come again in the reply.
    pub echo: Range<usize>,
}

/// What an accepted command does.
pub enum Act<'a> {
    Nothing,
    Read(Transfer),
    Write(Transfer),
    Identify(&'a [u8]),
    ShowLatches,
    ClearLatches,
    Synchronize,
    Connect,
    Disconnect,
}

/// A refused command: its alarm, and the place that the exchange answers (request 3).
#[derive(Clone, Copy, Debug, PartialEq, Eq)]
pub struct Refused {
    pub alarm: u8,
    pub place: u32,
}

/// "Alarms 8 and 12 and a failed watchdog have place 0."
fn refused(alarm: u8) -> Refused {
    Refused { alarm, place: 0 }
}

/// Alarm 9 at "the first octet of the field that failed, in document 01's order".
fn wrong(place: u32) -> Refused {
    Refused {
        alarm: ALARM_DATA,
        place,
    }
}

/// What the command does, or its alarm with the place.
pub fn judge<'a>(sheet: &Sheet<'a>, state: &State, command: &[u8]) -> Result<Act<'a>, Refused> {
    let code = sheet.frame().code(command[0]);
    let code = code.ok_or(refused(ALARM_CODE))?;
    if !code.allowed_in(state.link) {
        return Err(refused(ALARM_LINK));
    }
    match code {
        Code::Nop => zeros(sheet, command, NO_FIELDS).map(|()| Act::Nothing),
        Code::PrmRd => parameter(sheet, command, READ).map(Act::Read),
        Code::PrmWr => parameter(sheet, command, write_right(state.link)).map(Act::Write),
        Code::IdRd => identity(sheet, command).map(Act::Identify),
        Code::AlmRd if command.len() < 16 => Err(wrong(NO_ROOM)),
        Code::AlmRd => current_alarm_mode(sheet, command).map(|()| Act::ShowLatches),
        Code::AlmClr => current_alarm_mode(sheet, command).map(|()| Act::ClearLatches),
        Code::SyncSet => zeros(sheet, command, NO_FIELDS).map(|()| Act::Synchronize),
        Code::Connect => connection(sheet, command).map(|()| Act::Connect),
        Code::Disconnect => zeros(sheet, command, NO_FIELDS).map(|()| Act::Disconnect),
        Code::MemRd => memory(sheet, command, READ).map(Act::Read),
        Code::MemWr => memory(sheet, command, write_right(state.link)).map(Act::Write),
    }
}

/// The right a write needs, by the link before the exchange.
fn write_right(link: Link) -> u8 {
    if link == Link::SyncConnected {
        WRITE_SYNC
    } else {
        WRITE_ASYNC
    }
}

fn require(good: bool, place: u32) -> Result<(), Refused> {
    if good {
        Ok(())
    } else {
        Err(wrong(place))
    }
}

/// "Alarm 9 at the first such octet, after a command's other data checks and before rights" (request 13).
fn zeros_beside(
    sheet: &Sheet,
    command: &[u8],
    fields: Range<usize>,
    data: Range<usize>,
) -> Result<(), Refused> {
    if !sheet.asks_zeros() {
        return Ok(());
    }
    match first_reserved(sheet.frame(), command, fields, data) {
        Some(at) => Err(wrong(at as u32)),
        None => Ok(()),
    }
}

/// The same for a command that writes no data.
fn zeros(sheet: &Sheet, command: &[u8], fields: Range<usize>) -> Result<(), Refused> {
    let behind = fields.end;
    zeros_beside(sheet, command, fields, behind..behind)
}

/// The command's data of this length from `start` on, which a read does not name.
fn written(start: usize, length: usize, right: u8) -> Range<usize> {
    if right == READ {
        start..start
    } else {
        start..start + length
    }
}

/// "For alarm 10 it is how many octets of the span come before the first that lacks the right."
fn permitted(sheet: &Sheet, address: u32, length: usize, right: u8) -> Result<(), Refused> {
    match before_lacking(sheet.regions(), address, length, right) {
        Some(place) => Err(Refused {
            alarm: ALARM_RIGHTS,
            place,
        }),
        None => Ok(()),
    }
}

/// Its span is not asked for: a sheet with an unmapped one is refused, fault 17 (request 8).
fn parameter(sheet: &Sheet, command: &[u8], right: u8) -> Result<Transfer, Refused> {
    let number = number_16(command, 4);
    let parameter = sheet.find_parameter(number).ok_or(wrong(NUMBER_AT))?;
    let length = usize::from(parameter.size);
    require(command[6] == parameter.size, SIZE_AT)?;
    require(length <= sheet.frame().room(command.len()), SIZE_AT)?;
    let data = sheet.frame().data;
    let named = written(data, length, right);
    zeros_beside(sheet, command, PARAMETER_FIELDS, named)?;
    permitted(sheet, parameter.address, length, right)?;
    Ok(Transfer {
        place: mapped_place(sheet.regions(), parameter.address),
        length,
        data,
        echo: PARAMETER_FIELDS,
    })
}

/// The offset alone is no check; it is the size that goes past the item with it.
fn identity<'a>(sheet: &Sheet<'a>, command: &[u8]) -> Result<&'a [u8], Refused> {
    let item = sheet.find_item(command[4]).ok_or(wrong(ID_CODE_AT))?;
    let offset = usize::from(command[5]);
    let size = sheet.frame().id_size.of(command);
    require(size >= 1, SIZE_AT)?;
    require(offset + size <= item.len(), SIZE_AT)?;
    require(size <= sheet.frame().room(command.len()), SIZE_AT)?;
    zeros(sheet, command, sheet.frame().echo.clone())?;
    Ok(&item[offset..offset + size])
}

/// A field of two octets has its first as place where the second alone is not zero too.
fn current_alarm_mode(sheet: &Sheet, command: &[u8]) -> Result<(), Refused> {
    let mode = sheet.frame().alarm_mode;
    require(mode.of(command) == 0, mode.place())?;
    zeros(sheet, command, mode.span())
}

fn connection(sheet: &Sheet, command: &[u8]) -> Result<(), Refused> {
    require(command[4] == sheet.version(), VERSION_AT)?;
    let mode = CommunicationMode::of(command[5]).ok_or(wrong(COM_MOD_AT))?;
    let least_com_time = if mode.dual { 2 } else { 1 };
    require(command[6] >= least_com_time, COM_TIME_AT)?;
    // "One not there isn't checked" (request 7).
    if let Some(profile) = sheet.frame().profile {
        let good = profile.of(command) == usize::from(sheet.profile());
        require(good, profile.place())?;
    }
    zeros(sheet, command, sheet.frame().echo.clone())
}

fn memory(sheet: &Sheet, command: &[u8], right: u8) -> Result<Transfer, Refused> {
    let element = memory_mode::element_octets(command[5]).ok_or(wrong(MEMORY_MODE_AT))?;
    let length = usize::from(number_16(command, 6)) * element;
    require(length >= 1, SIZE_AT)?;
    // At L 8 no length passes, so the address behind octet 7 is not looked at.
    require(length <= command.len().saturating_sub(MEMORY_HEAD), SIZE_AT)?;
    let address = number_32(command, 8);
    let place = find_span(sheet.regions(), address, length).ok_or(wrong(ADDRESS_AT))?;
    let data = written(MEMORY_HEAD, length, right);
    zeros_beside(sheet, command, MEMORY_FIELDS, data)?;
    permitted(sheet, address, length, right)?;
    Ok(Transfer {
        place,
        length,
        data: MEMORY_HEAD,
        echo: MEMORY_FIELDS,
    })
}

/// com_mod of CONNECT.
#[derive(Clone, Copy, Debug, PartialEq, Eq)]
pub struct CommunicationMode {
    pub synchronous: bool,
    pub dual: bool,
}

impl CommunicationMode {
    /// Only bits 1 and 2 may be set, and bit 2 (dual transfer) needs bit 1.
    pub fn of(octet: u8) -> Option<CommunicationMode> {
        let (synchronous, dual) = match octet {
            0x00 => (false, false),
            0x02 => (true, false),
            0x06 => (true, true),
            _ => return None,
        };
        Some(CommunicationMode { synchronous, dual })
    }
}
