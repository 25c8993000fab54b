//! Serial numbers: 32-bit counts that wrap. Sequence numbers and timestamps are distinct types.

/// Half of the 2^32 serial numbers: at this distance neither of two is before the other.
pub const HALF: u32 = 1 << 31;

/// The distance from `a` to `b`: the number from -2^31 to 2^31 - 1 that equals b - a modulo 2^32.
pub fn distance(a: u32, b: u32) -> i32 {
    b.wrapping_sub(a) as i32
}

/// A sequence number.
#[derive(Clone, Copy, Debug, Default, PartialEq, Eq)]
pub struct Seq(pub u32);

/// A timestamp, as in TSval and TSecr.
#[derive(Clone, Copy, Debug, Default, PartialEq, Eq)]
pub struct Stamp(pub u32);

impl Seq {
    pub fn before(self, other: Seq) -> bool {
        distance(self.0, other.0) > 0
    }

    pub fn at_or_before(self, other: Seq) -> bool {
        distance(self.0, other.0) >= 0
    }

    pub fn plus(self, count: u32) -> Seq {
        Seq(self.0.wrapping_add(count))
    }

    pub fn minus(self, count: u32) -> Seq {
        Seq(self.0.wrapping_sub(count))
    }

    /// How far `other` lies above this number, modulo 2^32.
    pub fn offset_of(self, other: Seq) -> u32 {
        other.0.wrapping_sub(self.0)
    }
}

impl Stamp {
    /// The timestamp of a millisecond clock under a connection's offset.
    pub fn of_clock(clock: u64, offset: u32) -> Stamp {
        Stamp((clock as u32).wrapping_add(offset))
    }

    pub fn before(self, other: Stamp) -> bool {
        distance(self.0, other.0) > 0
    }

    pub fn plus(self, count: u32) -> Stamp {
        Stamp(self.0.wrapping_add(count))
    }

    pub fn minus(self, count: u32) -> Stamp {
        Stamp(self.0.wrapping_sub(count))
    }

    /// The time from `earlier` to this timestamp, modulo 2^32.
    pub fn since(self, earlier: Stamp) -> u32 {
        self.0.wrapping_sub(earlier.0)
    }
}

#[cfg(test)]
mod tests {
    use super::*;

    #[test]
    fn m1_to_m3() {
        assert_eq!(distance(4_294_967_295, 0), 1);
        assert_eq!(distance(0, HALF), -2_147_483_648);
        assert_eq!(distance(0, HALF - 1), 2_147_483_647);
    }

    #[test]
    fn numbers_2_31_apart_are_not_ordered() {
        for start in [0, 1, HALF - 1, HALF, u32::MAX] {
            let (a, b) = (Seq(start), Seq(start).plus(HALF));
            assert!(!a.before(b) && !b.before(a));
            assert!(!a.at_or_before(b) && !b.at_or_before(a));
            let (a, b) = (Stamp(start), Stamp(start).plus(HALF));
            assert!(!a.before(b) && !b.before(a));
        }
    }

    #[test]
    fn numbers_one_less_than_2_31_apart_are_ordered() {
        let (a, b) = (Seq(u32::MAX), Seq(u32::MAX).plus(HALF - 1));
        assert!(a.before(b) && a.at_or_before(b));
        assert!(!b.before(a) && !b.at_or_before(a));
    }

    #[test]
    fn equal_numbers_are_at_but_not_before() {
        assert!(Seq(7).at_or_before(Seq(7)));
        assert!(!Seq(7).before(Seq(7)));
        assert!(!Stamp(7).before(Stamp(7)));
    }

    #[test]
    fn offsets_and_stamps_wrap() {
        assert_eq!(Seq(u32::MAX).offset_of(Seq(1)), 2);
        assert_eq!(Seq(1).minus(2), Seq(u32::MAX));
        assert_eq!(Stamp(3).since(Stamp(u32::MAX)), 4);
        assert_eq!(Stamp::of_clock(u64::MAX, 2), Stamp(1));
    }
}
