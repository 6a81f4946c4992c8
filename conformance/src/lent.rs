//! Buffers lent to the archive, with guard octets on both sides.

/// Guard octets on each side; up to seven more in front vary the alignment.
const GUARD: usize = 32;

#[derive(Default)]
pub struct Lent {
    memory: Vec<u8>,
    /// What the memory must hold after the call.
    expected: Vec<u8>,
    start: usize,
    size: usize,
    dangling: bool,
}

impl Lent {
    /// Lends `octets`, with `after` standing right behind them and a pattern around both. `after` shows a reader that
    /// looks past the length it was given.
    pub fn place(&mut self, octets: &[u8], after: &[u8], pattern: u8) {
        self.start = GUARD + usize::from(pattern % 8);
        self.size = octets.len();
        // Where the length is 0 the pointer may be any address that is not null.
        self.dangling = octets.is_empty() && pattern % 2 == 1;
        self.memory.clear();
        self.memory.extend(guard(pattern).take(self.start));
        self.memory.extend_from_slice(octets);
        self.memory.extend_from_slice(after);
        self.memory.extend(guard(!pattern).take(GUARD));
        self.expected.clone_from(&self.memory);
    }

    /// Lends an output of `size` octets that hold a pattern.
    pub fn place_output(&mut self, size: usize, pattern: u8) {
        let octets: Vec<u8> = guard(pattern ^ 0x55).take(size).collect();
        self.place(&octets, &[], pattern);
    }

    /// States that the call writes these octets at the front.
    pub fn expect_front(&mut self, octets: &[u8]) {
        self.expected[self.start..][..octets.len()].copy_from_slice(octets);
    }

    /// States that the call may leave any octets in what was lent.
    pub fn expect_any(&mut self) {
        let lent = self.start..self.start + self.size;
        self.expected[lent.clone()].copy_from_slice(&self.memory[lent]);
    }

    /// The pointer handed to C. It is good for the whole memory, so that a stray write is seen and not undefined.
    pub fn pointer(&mut self) -> *mut u8 {
        match self.dangling {
            true => std::ptr::dangling_mut(),
            false => self.memory.as_mut_ptr().wrapping_add(self.start),
        }
    }

    pub fn len(&self) -> usize {
        self.size
    }

    pub fn is_empty(&self) -> bool {
        self.size == 0
    }

    pub fn octets(&self) -> &[u8] {
        &self.memory[self.start..][..self.size]
    }

    /// The octets that the call must leave behind.
    pub fn expected(&self) -> &[u8] {
        &self.expected[self.start..][..self.size]
    }

    /// The first octet that is not as expected, counted from the front of what was lent.
    pub fn disturbed(&self) -> Option<isize> {
        if self.memory == self.expected {
            return None;
        }
        let place = self.memory.iter().zip(&self.expected).position(|(is, should)| is != should)?;
        Some(place as isize - self.start as isize)
    }
}

fn guard(pattern: u8) -> impl Iterator<Item = u8> {
    std::iter::successors(Some(pattern), |octet| Some(octet.wrapping_add(37)))
}

#[cfg(test)]
mod tests {
    use super::*;

    #[test]
    fn a_stray_write_is_seen() {
        for place in [-1, 0, 2, 3, 10] {
            let mut lent = Lent::default();
            lent.place(&[1, 2, 3], &[], 4);
            assert_eq!(lent.disturbed(), None);
            let octet = lent.pointer().wrapping_offset(place);
            unsafe { *octet = !*octet };
            assert_eq!(lent.disturbed(), Some(place));
        }
    }

    #[test]
    fn an_octet_that_should_be_written_is_missed() {
        let mut lent = Lent::default();
        lent.place_output(3, 4);
        let written = [!lent.octets()[0]];
        lent.expect_front(&written);
        assert_eq!(lent.disturbed(), Some(0));
    }
}
