//! Lent buffers with guard octets on both sides, or in blocks of their own.

const GUARD: usize = 40;
/// Guards are parts of this pattern.
const PATTERN: [u8; 512] = pattern();

const fn pattern() -> [u8; 512] {
    let mut octets = [0; 512];
    let mut state = 0x2545_F491u32;
    let mut at = 0;
    while at < octets.len() {
        state = state.wrapping_mul(1_664_525).wrapping_add(1_013_904_223);
        octets[at] = (state >> 24) as u8;
        at += 1;
    }
    octets
}

/// A buffer between two guards whose content changes with every load, so that
/// reading them shows up as a difference and writing them as a broken guard.
#[derive(Clone, Debug)]
pub struct Guarded {
    octets: Vec<u8>,
    /// Guard octets before the content; they vary, and so does its alignment.
    front: usize,
    length: usize,
    salt: u8,
    /// Whether there are guards; else the octets are the content and no more.
    guards: bool,
}

impl Guarded {
    pub fn new(salt: u8) -> Guarded {
        Guarded {
            octets: Vec::new(),
            front: 0,
            length: 0,
            salt,
            guards: true,
        }
    }

    /// Without guards, in a new block of the heap with every load: what is
    /// outside is for a checker of memory to see.
    pub fn block(salt: u8) -> Guarded {
        Guarded {
            guards: false,
            ..Guarded::new(salt)
        }
    }

    /// Takes a copy of the content and renews the guards.
    pub fn load(&mut self, content: &[u8]) {
        if !self.guards {
            self.length = content.len();
            self.octets = content.to_vec();
            return;
        }
        self.salt = self.salt.wrapping_mul(5).wrapping_add(77);
        self.front = GUARD + usize::from(self.salt % 8);
        self.length = content.len();
        self.octets.clear();
        self.octets.extend_from_slice(self.front_guard());
        self.octets.extend_from_slice(content);
        self.octets.extend_from_slice(self.back_guard());
    }

    fn front_guard(&self) -> &'static [u8] {
        let start = usize::from(self.salt);
        &PATTERN[start..start + self.front]
    }

    fn back_guard(&self) -> &'static [u8] {
        let start = 256 + usize::from(self.salt / 2);
        &PATTERN[start..start + GUARD]
    }

    pub fn lend(&self) -> &[u8] {
        &self.octets[self.front..self.front + self.length]
    }

    pub fn lend_mut(&mut self) -> &mut [u8] {
        &mut self.octets[self.front..self.front + self.length]
    }

    /// Whether no octet around the content has changed; before the first load there is none.
    pub fn intact(&self) -> bool {
        if !self.guards || self.octets.is_empty() {
            return true;
        }
        self.octets[..self.front] == *self.front_guard()
            && self.octets[self.front + self.length..] == *self.back_guard()
    }
}

#[cfg(test)]
mod tests {
    use super::*;

    #[test]
    fn a_touched_guard_is_seen() {
        let mut buffer = Guarded::new(9);
        buffer.load(&[1, 2, 3]);
        buffer.lend_mut().fill(0);
        assert!(buffer.intact());
        let content = buffer.front..buffer.front + 3;
        for at in (0..buffer.octets.len()).filter(|at| !content.contains(at)) {
            buffer.octets[at] ^= 1;
            assert!(!buffer.intact());
            buffer.octets[at] ^= 1;
        }
    }

    #[test]
    fn a_block_holds_its_content_and_no_more() {
        let mut buffer = Guarded::block(9);
        for length in [16, 3, 0, 300] {
            buffer.load(&vec![7; length]);
            assert_eq!(buffer.lend(), vec![7; length]);
            assert_eq!(buffer.octets.capacity(), length);
        }
    }

    #[test]
    fn every_alignment_is_lent() {
        let mut buffer = Guarded::new(3);
        let mut seen = [false; 8];
        for _ in 0..256 {
            buffer.load(&[7]);
            assert_eq!(buffer.lend(), [7]);
            seen[buffer.front % 8] = true;
        }
        assert_eq!(seen, [true; 8]);
    }
}
