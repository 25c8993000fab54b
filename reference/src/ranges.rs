//! Ranges of sequence numbers, and those held above RCV.NXT.

use crate::serial::Seq;

/// The sequence numbers from `left` up to but not including `right`.
#[derive(Clone, Copy, Debug, Default, PartialEq, Eq)]
pub struct Range {
    pub left: Seq,
    pub right: Seq,
}

/// The most ranges that are held.
const MAX_HELD: usize = 8;

/// The ranges held out of order, newest first, apart from each other and above RCV.NXT. Unused places
/// hold the default range, so whole lists compare.
#[derive(Clone, Copy, Debug, Default, PartialEq, Eq)]
pub struct HeldRanges {
    items: [Range; MAX_HELD],
    count: usize,
}

impl HeldRanges {
    pub fn as_slice(&self) -> &[Range] {
        &self.items[..self.count]
    }

    pub fn is_empty(&self) -> bool {
        self.count == 0
    }

    pub fn is_full(&self) -> bool {
        self.count == MAX_HELD
    }

    fn push_front(&mut self, range: Range) {
        self.items.copy_within(..self.count, 1);
        self.items[0] = range;
        self.count += 1;
    }

    fn retain(&mut self, mut keep: impl FnMut(Range) -> bool) {
        let mut kept = 0;
        for at in 0..self.count {
            if keep(self.items[at]) {
                self.items[kept] = self.items[at];
                kept += 1;
            }
        }
        self.items[kept..self.count].fill(Range::default());
        self.count = kept;
    }
}

/// A range as offsets from RCV.NXT, where plain numbers order it.
#[derive(Clone, Copy)]
struct Offsets {
    start: u32,
    end: u32,
}

impl Offsets {
    fn new(base: Seq, range: Range) -> Offsets {
        Offsets {
            start: base.offset_of(range.left),
            end: base.offset_of(range.right),
        }
    }

    fn touches(self, other: Offsets) -> bool {
        self.start <= other.end && other.start <= self.end
    }

    fn joined(self, other: Offsets) -> Offsets {
        Offsets {
            start: self.start.min(other.start),
            end: self.end.max(other.end),
        }
    }
}

impl HeldRanges {
    /// Whether the part from offset `start` to `end` above `base` can be held.
    pub fn has_room(&self, base: Seq, start: u32, end: u32) -> bool {
        let part = Offsets { start, end };
        !self.is_full()
            || self
                .as_slice()
                .iter()
                .any(|&range| Offsets::new(base, range).touches(part))
    }

    /// Joins the part with every range that it overlaps or touches and puts the result first.
    pub fn hold(&mut self, base: Seq, start: u32, end: u32) {
        let joined = self.remove_touching(base, Offsets { start, end });
        self.push_front(Range {
            left: base.plus(joined.start),
            right: base.plus(joined.end),
        });
    }

    /// Removes every range that the octets from `base` to offset `end` meet or touch,
    /// and gives the offset reached through them.
    pub fn advance(&mut self, base: Seq, end: u32) -> u32 {
        self.remove_touching(base, Offsets { start: 0, end }).end
    }

    // Held ranges are apart, so one that touches the joined result touches the part itself.
    fn remove_touching(&mut self, base: Seq, part: Offsets) -> Offsets {
        let mut joined = part;
        self.retain(|range| {
            let held = Offsets::new(base, range);
            let touching = held.touches(part);
            if touching {
                joined = joined.joined(held);
            }
            !touching
        });
        joined
    }
}

#[cfg(test)]
mod tests {
    use super::*;

    const BASE: Seq = Seq(u32::MAX - 10);

    fn held(list: &HeldRanges) -> Vec<(u32, u32)> {
        let offsets = |range: &Range| (BASE.offset_of(range.left), BASE.offset_of(range.right));
        list.as_slice().iter().map(offsets).collect()
    }

    fn list(parts: &[(u32, u32)]) -> HeldRanges {
        let mut list = HeldRanges::default();
        for &(start, end) in parts {
            list.hold(BASE, start, end);
        }
        list
    }

    #[test]
    fn a_part_joins_all_it_touches_and_comes_first() {
        let mut ranges = list(&[(4, 6), (8, 10), (20, 22), (12, 14)]);
        ranges.hold(BASE, 6, 12);
        assert_eq!(held(&ranges), [(4, 14), (20, 22)]);
    }

    #[test]
    fn a_part_inside_a_range_brings_it_first() {
        let mut ranges = list(&[(4, 10), (20, 22)]);
        ranges.hold(BASE, 5, 6);
        assert_eq!(held(&ranges), [(4, 10), (20, 22)]);
        assert_eq!(held(&list(&[(4, 10), (20, 22)])), [(20, 22), (4, 10)]);
    }

    #[test]
    fn advancing_goes_on_through_ranges() {
        let mut ranges = list(&[(4, 6), (8, 10), (12, 14)]);
        assert_eq!(ranges.advance(BASE, 8), 10);
        assert_eq!(held(&ranges), [(12, 14)]);
        assert_eq!(ranges.advance(BASE, 11), 11);
        assert_eq!(ranges, list(&[(12, 14)]));
    }

    #[test]
    fn a_full_list_has_room_only_for_what_touches() {
        let ranges = list(&[1, 2, 3, 4, 5, 6, 7, 8].map(|k| (k * 10, k * 10 + 2)));
        assert!(ranges.is_full());
        assert!(!ranges.has_room(BASE, 13, 19));
        assert!(ranges.has_room(BASE, 13, 20));
        assert!(ranges.has_room(BASE, 12, 13));
        assert!(!ranges.has_room(BASE, 83, 84));
    }
}
