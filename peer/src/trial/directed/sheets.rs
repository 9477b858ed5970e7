//! Sheets changed octet by octet, cut, and put together from records at will.

use crate::trial::plan::{each_type, release_record, tolerance_record, Plan};
use crate::trial::plan::{item, item_record, parameter, parameter_record, region, region_record};
use crate::trial::probe::{judge_sheet, judge_sheet_briefly, Outcome};
use crate::trial::rig::Rig;
use crate::trial::samples::{both_ends, largest, released, sheet_p, tolerant, Spans};

/// Kinds of the records in a sequence, 0 to 7.
const KINDS: usize = 8;
/// Octets at which a check may turn.
const TURNS: [u8; 12] = [0, 1, 2, 7, 8, 0x20, 0x21, 0x38, 0x39, 0x7F, 0x80, 0xFF];

pub fn run(rig: &mut Rig) -> Outcome {
    rig.origin = "directed: smallest sheets".to_string();
    smallest(rig)?;
    rig.origin = "directed: every octet of a sheet with every value".to_string();
    every_octet(rig, &sheet_p().octets())?;
    every_octet(rig, &tolerant(32, Some(2)).octets())?;
    every_octet(rig, &sheet_p().in_release_2().octets())?;
    rig.origin = "directed: the largest sheet".to_string();
    largest_sheets(rig)?;
    some_octets_of_the_largest(rig)?;
    rig.origin = "directed: sheets cut at every length".to_string();
    cuts(rig)?;
    rig.origin = "directed: sequences of kinds".to_string();
    kind_sequences(rig)?;
    rig.origin = "directed: two octets of one record changed".to_string();
    pairs_in_records(rig)
}

/// Nothing, each single octet, each L, and the link record with its end.
fn smallest(rig: &mut Rig) -> Outcome {
    judge_sheet(rig, &[])?;
    for octet in 0..=255 {
        judge_sheet(rig, &[octet])?;
        judge_sheet(rig, &[1, octet, 3, 4])?;
        judge_sheet(rig, &[1, octet, 3, 4, 0])?;
        judge_sheet(rig, &[5, octet, 3, 4])?;
        judge_sheet(rig, &[5, octet, 3, 4, 0])?;
        judge_sheet(rig, &[5, 16, 3, 4, octet])?;
        judge_sheet(rig, &[1, 16, 3, 4, octet])?;
        judge_sheet(rig, &[1, 16, 3, 4, 0, octet])?;
    }
    for plan in each_type(both_ends) {
        judge_sheet(rig, &plan.octets())?;
    }
    for plan in each_type(|length| tolerant(length, Some(1))) {
        judge_sheet(rig, &plan.octets())?;
        judge_sheet(rig, &plan.in_release_2().octets())?;
    }
    Ok(())
}

fn every_octet(rig: &mut Rig, sheet: &[u8]) -> Outcome {
    for at in 0..sheet.len() {
        for octet in 0..=255 {
            let mut changed = sheet.to_vec();
            changed[at] = octet;
            judge_sheet(rig, &changed)?;
        }
    }
    Ok(())
}

fn largest_sheets(rig: &mut Rig) -> Outcome {
    for spans in [Spans::First, Spans::Last, Spans::Crossing] {
        judge_sheet(rig, &largest(16, spans).in_short().octets())?;
        judge_sheet(rig, &largest(64, spans).in_release_2().octets())?;
        let sheet = largest(64, spans).octets();
        judge_sheet(rig, &sheet)?;
        for at in 0..sheet.len() {
            for flip in [0x01, 0x80] {
                let mut changed = sheet.clone();
                changed[at] ^= flip;
                judge_sheet_briefly(rig, &changed)?;
            }
        }
    }
    Ok(())
}

/// Every value at each 61st octet: at all of them it would take minutes.
fn some_octets_of_the_largest(rig: &mut Rig) -> Outcome {
    let sheet = largest(64, Spans::Last).octets();
    for at in (3..sheet.len()).step_by(61) {
        for octet in 0..=255 {
            let mut changed = sheet.clone();
            changed[at] = octet;
            judge_sheet_briefly(rig, &changed)?;
        }
    }
    Ok(())
}

fn cuts(rig: &mut Rig) -> Outcome {
    let sheets = [
        sheet_p().octets(),
        tolerant(8, Some(1)).octets(),
        tolerant(16, Some(1)).in_short().octets(),
        released(16, None, Some(2)).octets(),
        released(16, Some(1), Some(1)).in_short().octets(),
        largest(48, Spans::Last).octets(),
    ];
    for sheet in sheets {
        for length in 0..sheet.len() {
            judge_sheet_briefly(rig, &sheet[..length])?;
            // A cut of an otherwise good sheet that ends in an end record.
            let mut ended = sheet[..length].to_vec();
            ended.push(0);
            judge_sheet_briefly(rig, &ended)?;
        }
        for length in [1, 2, 9, 2047, 2048, 2049, 2050, 4096, 70_000] {
            for filling in [0, 1, 4, 0xFF] {
                let mut longer = sheet.clone();
                longer.resize(length.max(sheet.len() + 1), filling);
                judge_sheet_briefly(rig, &longer)?;
            }
        }
    }
    Ok(())
}

/// All sequences of up to five records of good body and any kind.
fn kind_sequences(rig: &mut Rig) -> Outcome {
    for length in 1..=5 {
        for number in 0..KINDS.pow(length) {
            let kinds: Vec<usize> = (0..length)
                .map(|digit| number / KINDS.pow(digit) % KINDS)
                .collect();
            judge_sheet_briefly(rig, &records_of(&kinds))?;
        }
    }
    Ok(())
}

/// Records that are good in themselves.
fn records_of(kinds: &[usize]) -> Vec<u8> {
    let mut octets = Vec::new();
    for (index, kind) in kinds.iter().enumerate() {
        let number = index as u8;
        octets.extend(match kind {
            0 => vec![0],
            1 => vec![1, 16, 3, 4],
            2 => region_record(&region(u64::from(number) * 8, 8, 7)),
            3 => parameter_record(&parameter(u16::from(number), 8, 2)),
            4 => item_record(&item(number, &[7])),
            5 => vec![5, 16, 3, 4],
            6 => tolerance_record(number % 4),
            _ => release_record(1 + number % 2),
        });
    }
    octets
}

/// Every pair of octets of one record takes telling values, so that of two
/// faults of a record the right one has to be told.
fn pairs_in_records(rig: &mut Rig) -> Outcome {
    for plan in [sheet_p(), released(16, Some(3), Some(2))] {
        let mut start = 0;
        for record in plan.records() {
            change_pairs(rig, &plan, start, record.len())?;
            start += record.len();
        }
    }
    Ok(())
}

fn change_pairs(rig: &mut Rig, plan: &Plan, start: usize, length: usize) -> Outcome {
    let sheet = plan.octets();
    // Behind the first octets an item holds only data.
    let width = length.min(10);
    for first in start..start + width {
        for second in first + 1..start + width {
            for one in TURNS {
                for two in TURNS {
                    let mut changed = sheet.clone();
                    changed[first] = one;
                    changed[second] = two;
                    judge_sheet_briefly(rig, &changed)?;
                }
            }
        }
    }
    Ok(())
}
