//! What the rules ask of a list of differences, whatever two engines agree on (request 2).

use super::call::Inputs;
use crate::engine::apply::applied;

/// What is wrong with what a call left in the list that it was lent.
pub fn wrong_list(inputs: &Inputs, answer: u64, list: &[u8]) -> Option<&'static str> {
    let (number, place) = (answer as u32, (answer >> 32) as usize);
    if number != 0 {
        return (list != inputs.list).then(|| "a list that a refused call wrote");
    }
    if place > list.len() {
        return Some("the list's length");
    }
    if list[place..] != inputs.list[place..] {
        return Some("an octet behind the list");
    }
    let second = applied(&inputs.sheet, &list[..place]);
    (second.as_ref() != Some(&inputs.second)).then(|| "the list applied to the first sheet")
}

#[cfg(test)]
mod tests {
    use super::*;

    fn lent(list: &[u8]) -> Inputs {
        Inputs {
            sheet: vec![1, 16, 3, 4, 0],
            second: vec![1, 16, 3, 4, 6, 1, 0],
            list: list.to_vec(),
            ..Inputs::default()
        }
    }

    fn packed(number: u64, place: u64) -> u64 {
        number | place << 32
    }

    #[test]
    fn a_list_that_gives_the_second_sheet_is_right() {
        let inputs = lent(&[9; 4]);
        assert_eq!(wrong_list(&inputs, packed(0, 2), &[0x56, 1, 9, 9]), None);
        assert_eq!(wrong_list(&inputs, packed(28, 2), &[9; 4]), None);
    }

    #[test]
    fn each_wrong_list_is_told() {
        let inputs = lent(&[9; 3]);
        let told = |answer, list: &[u8]| wrong_list(&inputs, answer, list);
        let giving = Some("the list applied to the first sheet");
        assert_eq!(told(packed(0, 2), &[0x56, 2, 9]), giving);
        assert_eq!(told(packed(0, 0), &[9; 3]), giving);
        assert_eq!(told(packed(0, 1), &[0x56, 9, 9]), giving);
        let behind = Some("an octet behind the list");
        assert_eq!(told(packed(0, 2), &[0x56, 1, 8]), behind);
        assert_eq!(told(packed(0, 4), &[0x56, 1, 9]), Some("the list's length"));
        let refused = Some("a list that a refused call wrote");
        assert_eq!(told(packed(28, 4), &[0x56, 9, 9]), refused);
        assert_eq!(told(packed(21, 0), &[9, 9, 8]), refused);
    }
}
