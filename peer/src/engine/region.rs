//! Regions of a sheet, and spans of virtual addresses found in them.

/// The right to read.
pub const READ: u8 = 1;
/// The right to write in AsyncConnected.
pub const WRITE_ASYNC: u8 = 2;
/// The right to write in SyncConnected.
pub const WRITE_SYNC: u8 = 4;
/// All bits a rights octet may have.
pub const RIGHTS: u8 = READ | WRITE_ASYNC | WRITE_SYNC;

/// A region; 64 bits hold start + length = 2^32 without wrapping.
#[derive(Clone, Copy, Debug, PartialEq, Eq)]
pub struct Region {
    pub start: u64,
    pub length: u64,
    pub rights: u8,
}

impl Region {
    /// The first address behind the region.
    pub fn end(&self) -> u64 {
        self.start + self.length
    }
}

/// The place in the memory of a span of `size` octets (at least 1), if each of them is in a region.
///
/// A sheet's regions rise, so one pass suffices, and a span that goes on in the
/// next region goes on at the next place of the memory too.
pub fn find_span(
    regions: impl Iterator<Item = Region>,
    address: u32,
    size: usize,
) -> Option<usize> {
    let mut wanted = u64::from(address);
    let end = wanted + size as u64;
    let mut place = None;
    let mut storage = 0;
    for region in regions {
        if wanted < region.start {
            return None;
        }
        if wanted < region.end() {
            let first = *place.get_or_insert(storage + (wanted - region.start));
            wanted = region.end();
            if end <= wanted {
                return Some(first as usize);
            }
        }
        storage += region.length;
    }
    None
}

/// The place in the memory of an address that is in a region, as that of a good sheet's parameter is.
///
/// It is behind all octets of memory whose addresses are lower.
pub fn mapped_place(regions: impl Iterator<Item = Region>, address: u32) -> usize {
    let start = u64::from(address);
    let mut place = 0;
    for region in regions {
        place += start.saturating_sub(region.start).min(region.length);
    }
    place as usize
}

/// How many octets of a span that is in regions come before the first that lacks the right, if one does.
///
/// A sheet's regions rise, so the first that lacks it holds that octet, which is
/// the region's first or, where the region begins before the span, the span's.
pub fn before_lacking(
    mut regions: impl Iterator<Item = Region>,
    address: u32,
    size: usize,
    right: u8,
) -> Option<u32> {
    let start = u64::from(address);
    let end = start + size as u64;
    let touched = |region: &Region| region.start < end && start < region.end();
    let lacking = regions.find(|region| touched(region) && region.rights & right == 0)?;
    Some(lacking.start.saturating_sub(start) as u32)
}
