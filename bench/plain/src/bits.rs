//! Sets of items as the bits of a `u64`: bit d stands for item d.

/// The set of one item.
#[inline]
pub(crate) fn bit(item: u8) -> u64 {
    1 << (item & 63)
}

/// The lowest item of a set that is not empty.
#[inline]
pub(crate) fn lowest(set: u64) -> u8 {
    debug_assert_ne!(set, 0);
    (set.trailing_zeros() & 63) as u8
}

/// The items of a set, lowest first.
#[inline]
pub(crate) fn items(mut set: u64) -> impl Iterator<Item = u8> {
    std::iter::from_fn(move || {
        (set != 0).then(|| {
            let item = lowest(set);
            set &= set - 1;
            item
        })
    })
}

#[cfg(test)]
mod tests {
    use super::*;

    #[test]
    fn items_come_lowest_first() {
        assert_eq!(items(0).count(), 0);
        assert_eq!(
            items(bit(63) | bit(0) | bit(7)).collect::<Vec<_>>(),
            [0, 7, 63]
        );
    }
}
