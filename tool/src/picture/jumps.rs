//! Jumps between neighbouring samples that stand out: from the recording, or else from what is around them.

use super::seen::Peak;

/// How many jumps before and after one count as around it.
const REACH: usize = 64;

/// A smaller jump is not heard.
const LEAST: u32 = 256;

/// How many times as large as all around it a jump is that stands out.
const TIMES: u32 = 3;

/// Jumps that are kept, in a ring.
const KEPT: usize = 4 * REACH;

/// Finds the largest jump that is more than three times as large as all around it, but for its two neighbours, which may be the way back
/// and are not larger.
pub struct Around {
    sizes: [u32; KEPT],
    /// Jumps so far, and how many of them were looked at.
    count: usize,
    looked: usize,
    pub largest: Option<Peak>,
}

impl Default for Around {
    fn default() -> Self {
        Self { sizes: [0; KEPT], count: 0, looked: 0, largest: None }
    }
}

impl Around {
    /// The next jump, between two samples; the first is that to sample 1.
    pub fn push(&mut self, size: u32) {
        self.sizes[self.count % KEPT] = size;
        self.count += 1;
        if self.looked + REACH < self.count {
            self.look();
        }
    }

    /// After the last jump.
    pub fn finish(&mut self) {
        while self.looked < self.count {
            self.look();
        }
    }

    /// Looks at the next jump.
    fn look(&mut self) {
        let (i, size) = (self.looked, self.sizes[self.looked % KEPT]);
        self.looked += 1;
        let larger = size >= LEAST && self.largest.is_none_or(|largest| size > largest.size);
        if larger && self.stands_out(i, size) {
            self.largest = Some(Peak { size, at: i as u32 + 1 });
        }
    }

    fn stands_out(&self, i: usize, size: u32) -> bool {
        for away in 1..=REACH {
            let before = if away > i { 0 } else { self.sizes[(i - away) % KEPT] };
            let after = if i + away < self.count { self.sizes[(i + away) % KEPT] } else { 0 };
            let other = before.max(after);
            if other > size || (away > 1 && TIMES * other >= size) {
                return false;
            }
        }
        true
    }
}

/// Finds the jump that exceeds the recording's at its place by most, beyond what the bounds of its two samples explain.
#[derive(Default)]
pub struct Beside {
    /// The sample of the recording before, and its bound.
    last: Option<(i16, u32)>,
    excess: u32,
    pub largest: Option<Peak>,
}

impl Beside {
    /// The next sample of the recording, its bound, and the jump that is played to it.
    pub fn push(&mut self, original: i16, bound: Option<u32>, size: Option<u32>, at: u32) {
        let bound = bound.unwrap_or(u32::from(u16::MAX));
        if let (Some((last, before)), Some(size)) = (self.last, size) {
            let explained = u32::from(original.abs_diff(last)) + before + bound;
            let excess = size.saturating_sub(explained);
            if excess > self.excess {
                (self.excess, self.largest) = (excess, Some(Peak { size, at }));
            }
        }
        self.last = Some((original, bound));
    }
}

#[cfg(test)]
mod tests {
    use super::*;

    fn around(sizes: &[u32]) -> Option<Peak> {
        let mut around = Around::default();
        sizes.iter().for_each(|size| around.push(*size));
        around.finish();
        around.largest
    }

    #[test]
    fn what_stands_out_from_what_is_around_it() {
        for at in [0, 1, 63, 64, 65, 150, 199] {
            let mut sizes = vec![300; 200];
            sizes[at] = 901;
            assert_eq!(around(&sizes), Some(Peak { size: 901, at: at as u32 + 1 }), "{at}");
            sizes[at] = 900;
            assert_eq!(around(&sizes), None);
        }
        let mut sizes = vec![10; 200];
        (sizes[100], sizes[101]) = (5000, 4000);
        assert_eq!(around(&sizes), Some(Peak { size: 5000, at: 101 }));
        sizes[101] = 5001;
        assert_eq!(around(&sizes), Some(Peak { size: 5001, at: 102 }));
        sizes[110] = 1700;
        assert_eq!(around(&sizes), None);
        assert_eq!(around(&[255]), None);
        assert_eq!(around(&[256]), Some(Peak { size: 256, at: 1 }));
    }

    #[test]
    fn what_stands_out_from_the_recording() {
        let mut beside = Beside::default();
        beside.push(0, Some(2), None, 0);
        beside.push(5000, Some(2), Some(5004), 1);
        assert_eq!(beside.largest, None);
        beside.push(5000, Some(2), Some(5), 2);
        beside.push(5000, None, Some(60_000), 3);
        assert_eq!(beside.largest, Some(Peak { size: 5, at: 2 }));
    }
}
