//! Kinds of item: what the values are, and what an operation code does to one.

/// A kind of item.
pub trait Kind {
    /// The values of the items.
    type Value: Copy;

    /// The number of operation codes.
    const CODES: u8;

    /// The new value and the new register. A code at or above [`Kind::CODES`]
    /// changes neither.
    fn act(value: Self::Value, code: u8, operand: i32, register: i32) -> (Self::Value, i32);

    /// The number that a value shows.
    fn show(value: Self::Value) -> i64;
}

/// A signed 32-bit number whose sums and differences stop at the ends of the
/// range.
#[derive(Clone, Copy, PartialEq, Eq, Debug)]
pub struct Tally;

impl Kind for Tally {
    type Value = i32;
    const CODES: u8 = 4;

    #[inline]
    fn act(tally: i32, code: u8, operand: i32, register: i32) -> (i32, i32) {
        match code {
            0 => (tally, tally),
            1 => {
                let sum = tally.saturating_add(operand);
                (sum, sum)
            }
            2 => (tally.saturating_add(register), 0),
            3 if tally >= operand => (tally.saturating_sub(operand), operand),
            3 => (tally, -1),
            _ => (tally, register),
        }
    }

    #[inline]
    fn show(tally: i32) -> i64 {
        tally.into()
    }
}

/// A place for one container.
#[derive(Clone, Copy, PartialEq, Eq, Debug)]
pub struct Slot;

/// The value of a [`Slot`].
#[derive(Clone, Copy, PartialEq, Eq, Debug)]
pub enum SlotValue {
    /// There is no container.
    Free,
    /// The container of this number is there.
    Held(i32),
}

impl Kind for Slot {
    type Value = SlotValue;
    const CODES: u8 = 3;

    #[inline]
    fn act(slot: SlotValue, code: u8, _operand: i32, register: i32) -> (SlotValue, i32) {
        use SlotValue::{Free, Held};
        match (code, slot) {
            (0, Free) => (Free, 0),
            (0, Held(_)) => (slot, 1),
            (1, Free) if register >= 1 => (Held(register), -1),
            (2, Free) => (Free, -1),
            (2, Held(number)) => (Free, number),
            _ => (slot, register),
        }
    }

    #[inline]
    fn show(slot: SlotValue) -> i64 {
        match slot {
            SlotValue::Free => 1 << 32,
            SlotValue::Held(number) => number.into(),
        }
    }
}

#[cfg(test)]
mod tests {
    use super::*;
    use SlotValue::{Free, Held};

    #[test]
    fn tallies() {
        assert_eq!(Tally::act(5, 0, 9, 7), (5, 5));
        assert_eq!(Tally::act(5, 1, 9, 7), (14, 14));
        assert_eq!(Tally::act(i32::MAX, 1, 9, 7), (i32::MAX, i32::MAX));
        assert_eq!(Tally::act(5, 2, 9, 7), (12, 0));
        assert_eq!(Tally::act(i32::MIN, 2, 9, -7), (i32::MIN, 0));
        assert_eq!(Tally::act(9, 3, 9, 7), (0, 9));
        assert_eq!(Tally::act(8, 3, 9, 7), (8, -1));
        assert_eq!(Tally::act(i32::MAX, 3, i32::MIN, 7), (i32::MAX, i32::MIN));
        assert_eq!(Tally::act(8, 4, 9, 7), (8, 7));
        assert_eq!(Tally::act(8, 255, 9, 7), (8, 7));
        assert_eq!(Tally::show(-3), -3);
    }

    #[test]
    fn slots() {
        assert_eq!(Slot::act(Free, 0, 9, 7), (Free, 0));
        assert_eq!(Slot::act(Held(-4), 0, 9, 7), (Held(-4), 1));
        assert_eq!(Slot::act(Free, 1, 9, 7), (Held(7), -1));
        assert_eq!(Slot::act(Free, 1, 9, 0), (Free, 0));
        assert_eq!(Slot::act(Held(3), 1, 9, 7), (Held(3), 7));
        assert_eq!(Slot::act(Free, 2, 9, 7), (Free, -1));
        assert_eq!(Slot::act(Held(0), 2, 9, 7), (Free, 0));
        assert_eq!(Slot::act(Held(0), 3, 9, 7), (Held(0), 7));
        assert_eq!(Slot::show(Free), 4_294_967_296);
        assert_eq!(Slot::show(Held(i32::MIN)), i64::from(i32::MIN));
    }
}
