//! Sheets at every limit, one past it, and with a second fault there.

use crate::trial::plan::Plan;
use crate::trial::plan::{item, item_record, parameter, parameter_record, region, region_record};
use crate::trial::probe::{judge_sheet, judge_sheet_briefly, Outcome};
use crate::trial::rig::Rig;

pub fn run(rig: &mut Rig) -> Outcome {
    rig.origin = "directed: number of records".to_string();
    record_counts(rig)?;
    one_record_more(rig)?;
    rig.origin = "directed: size of the memory".to_string();
    memory_sizes(rig)?;
    rig.origin = "directed: ends of regions".to_string();
    region_ends(rig)?;
    region_pairs(rig)?;
    rig.origin = "directed: order of parameters and ID items".to_string();
    orders(rig)?;
    rig.origin = "directed: octets behind an ID item".to_string();
    item_tails(rig)?;
    rig.origin = "directed: spans of parameters".to_string();
    parameter_spans(rig)
}

fn full_plan(regions: u64, parameters: u16, items: u8) -> Plan {
    let mut plan = Plan::bare(32);
    plan.regions = (0..regions).map(|at| region(at * 3, 3, 7)).collect();
    plan.parameters = (0..parameters)
        .map(|number| parameter(number, 0, 3))
        .collect();
    plan.items = (0..items).map(|code| item(code, &[code])).collect();
    plan
}

fn record_counts(rig: &mut Rig) -> Outcome {
    for regions in [1, 31, 32, 33, 40] {
        for parameters in [0, 63, 64, 65] {
            for items in [0, 31, 32, 33] {
                judge_sheet(rig, &full_plan(regions, parameters, items).octets())?;
            }
        }
    }
    judge_sheet(rig, &full_plan(205, 0, 0).octets())?;
    judge_sheet(rig, &full_plan(1, 250, 0).octets())?;
    judge_sheet(rig, &full_plan(1, 0, 57).octets())
}

/// A record past the limit of its kind, with each octet in turn at a value that
/// is also a range, order or span fault, and cut at every length.
fn one_record_more(rig: &mut Rig) -> Outcome {
    let more = [
        (full_plan(32, 0, 0), region_record(&region(96, 3, 7))),
        (full_plan(32, 64, 0), parameter_record(&parameter(64, 0, 3))),
        (full_plan(32, 64, 32), item_record(&item(32, &[9, 9]))),
    ];
    for (plan, record) in more {
        let mut sheet = plan.octets();
        sheet.pop();
        for at in 0..record.len() {
            for octet in [0, 1, 2, 3, 4, 5, 0x20, 0x21, 0x39, 0x80, 0xFF] {
                let mut changed = record.clone();
                changed[at] = octet;
                let whole = [sheet.clone(), changed.clone(), vec![0]].concat();
                judge_sheet_briefly(rig, &whole)?;
                changed.truncate(at + 1);
                judge_sheet_briefly(rig, &[sheet.clone(), changed].concat())?;
            }
        }
    }
    Ok(())
}

fn memory_sizes(rig: &mut Rig) -> Outcome {
    for last in [
        1,
        2046,
        2047,
        2048,
        2049,
        65_535,
        65_536,
        65_537,
        0xFFFF_FFFF,
    ] {
        for (count, length) in [(0, 0), (1, 1), (1, 65_535), (1, 65_536), (31, 2048)] {
            for overlap in [0, 1] {
                let mut plan = Plan::bare(16);
                plan.regions = (0..count)
                    .map(|at| region(at * length, length, 7))
                    .collect();
                let start = count * length;
                plan.regions
                    .push(region(start.max(overlap) - overlap, last, 7));
                judge_sheet(rig, &plan.octets())?;
            }
        }
    }
    Ok(())
}

fn region_ends(rig: &mut Rig) -> Outcome {
    let starts = [
        0,
        1,
        0x7FFF_FFFF,
        0x8000_0000,
        0xFFFE_FFFF,
        0xFFFF_0000,
        0xFFFF_FFFE,
        0xFFFF_FFFF,
    ];
    let lengths = [
        0,
        1,
        2,
        3,
        0xFFFF,
        0x1_0000,
        0x1_0001,
        0x7FFF_FFFF,
        0x8000_0000,
        0xFFFF_FFFF,
    ];
    for start in starts {
        for length in lengths {
            let mut plan = Plan::bare(16);
            plan.regions = vec![region(start, length, 7)];
            judge_sheet(rig, &plan.octets())?;
            // What follows a region that ends at the last address is overlap.
            for next in [0, 1, start, 0xFFFF_FFFF] {
                plan.regions.truncate(1);
                plan.regions.push(region(next, 1, 7));
                judge_sheet(rig, &plan.octets())?;
            }
        }
    }
    Ok(())
}

fn region_pairs(rig: &mut Rig) -> Outcome {
    for base in [0, 250, 0x7FFF_FFF8, 0xFFFF_FFE0] {
        for start in 0..20 {
            for length in [1, 4, 10] {
                let mut plan = Plan::bare(16);
                plan.regions = vec![region(base + 8, 4, 7), region(base + start, length, 5)];
                plan.parameters = vec![parameter(3, base as u32 + 10, 3)];
                judge_sheet(rig, &plan.octets())?;
            }
        }
    }
    Ok(())
}

fn orders(rig: &mut Rig) -> Outcome {
    let numbers = [
        0, 1, 2, 0xFE, 0xFF, 0x100, 0x101, 0x1FF, 0x200, 0x7FFF, 0x8000, 0xFF00, 0xFFFF,
    ];
    for first in numbers {
        for second in numbers {
            for address in [0, 99] {
                let mut plan = full_plan(1, 0, 0);
                plan.parameters = vec![parameter(first, 0, 1), parameter(second, address, 1)];
                judge_sheet(rig, &plan.octets())?;
            }
        }
    }
    let codes = [0, 1, 2, 0x7E, 0x7F, 0x80, 0x81, 0xFE, 0xFF];
    for first in codes {
        for second in codes {
            let mut plan = full_plan(0, 0, 0);
            plan.items = vec![item(first, &[1]), item(second, &[2, 3])];
            judge_sheet(rig, &plan.octets())?;
        }
    }
    Ok(())
}

/// Each octet of an item of each length, set and alone.
fn item_tails(rig: &mut Rig) -> Outcome {
    for length in 1..=32 {
        for at in 0..32 {
            let mut record = vec![0; 35];
            record[..3].copy_from_slice(&[4, 9, length]);
            record[3 + at] = 0x80;
            let sheet = [vec![1, 48, 3, 4], record, vec![0]].concat();
            judge_sheet(rig, &sheet)?;
        }
    }
    Ok(())
}

/// Spans around adjacent regions, gaps, and both ends of the addresses.
fn parameter_spans(rig: &mut Rig) -> Outcome {
    let layouts = [
        (
            0x1000u32,
            vec![
                region(0x1000, 4, 7),
                region(0x1004, 1, 7),
                region(0x1005, 4, 7),
                region(0x100A, 9, 7),
            ],
        ),
        (
            0xFFFF_FFF0,
            vec![
                region(0, 8, 7),
                region(0xFFFF_FFF2, 6, 7),
                region(0xFFFF_FFF8, 8, 7),
            ],
        ),
        (0xFFF0, vec![region(0, 0xFFF8, 7), region(0xFFF8, 8, 7)]),
        (0, vec![]),
    ];
    for (base, regions) in layouts {
        for offset in 0..24 {
            for size in [1, 2, 3, 4, 5, 7, 8, 9, 10, 14, 15, 56] {
                let mut plan = Plan::bare(64);
                plan.regions = regions.clone();
                let address = base.wrapping_add(offset).wrapping_sub(2);
                plan.parameters = vec![parameter(1, address, size)];
                judge_sheet(rig, &plan.octets())?;
            }
        }
    }
    Ok(())
}
