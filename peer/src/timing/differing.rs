//! What is timed of two sheets: the list of what changed between them (request 2).

use super::scene::{Scene, PDU_LENGTH};
use crate::trial::plan::Plan;
use crate::trial::samples::{changed_all, largest, moved_all, typical, Spans};

/// Two sheets, which have so many octets each.
fn differing(what: &str, first: &Plan, second: &Plan) -> Scene {
    let (sheet, second) = (first.octets(), second.octets());
    Scene {
        name: format!("difference of {what} ({} octets each)", sheet.len()),
        sheet,
        memory: Vec::new(),
        exchange: None,
        second: Some(second),
    }
}

/// Sheets with as many records as they can have: equal, all changed, and all gone and new; and a typical one.
pub fn difference_scenes() -> Vec<Scene> {
    let full = largest(PDU_LENGTH, Spans::Last).in_release_2();
    let usual = typical(PDU_LENGTH);
    let mut changed = usual.clone();
    changed.regions[5].rights = 1;
    vec![
        differing("typical sheets, equal", &usual, &usual),
        differing("typical sheets, one field changed", &usual, &changed),
        differing("largest sheets, equal", &full, &full),
        differing(
            "largest sheets, every record changed",
            &full,
            &changed_all(&full),
        ),
        differing(
            "largest sheets, every record gone or new",
            &full,
            &moved_all(&full),
        ),
    ]
}

#[cfg(test)]
mod tests {
    use super::*;
    use crate::engine::difference;
    use crate::timing::stopwatch::{agree, measure};
    use crate::trial::engines::{Engine, PEER};

    #[test]
    fn every_pair_is_listed_and_can_be_timed() {
        let mut lengths = Vec::new();
        for scene in difference_scenes() {
            let second = scene.second.clone().unwrap_or_default();
            let answer = difference(&scene.sheet, &second, &mut [0; 4096]);
            assert_eq!(answer as u32, 0);
            lengths.push(answer >> 32);
            assert!(agree(&[PEER, PEER], &scene));
            assert!(measure(&[PEER, PEER], &scene, 1)[0] > 0.0);
            assert_eq!(scene.sheet.len(), second.len());
        }
        assert_eq!(lengths, [0, 11, 0, 2091, 2379]);
    }

    /// Leaves the last octet of the list out.
    fn short(first: &[u8], second: &[u8], list: &mut [u8]) -> u64 {
        let answer = difference(first, second, list);
        if answer >> 32 > 0 {
            list[(answer >> 32) as usize - 1] ^= 1;
        }
        answer
    }

    #[test]
    fn engines_with_other_lists_do_not_agree() {
        let wrong = Engine {
            difference: short,
            ..PEER
        };
        let agreed = difference_scenes()
            .iter()
            .filter(|scene| agree(&[PEER, wrong], scene))
            .count();
        assert_eq!(agreed, 2);
    }
}
