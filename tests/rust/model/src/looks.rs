//! How many last rows the search for a row's entry looks at.
//!
//! This counts by the rule alone. The place does not come from it: a row's
//! entry is found by the sentence of RULES.md 5.8.

/// Where the rule's search ends, and how many last rows it looked at.
#[derive(Clone, Copy, Debug, PartialEq, Eq)]
pub struct Search {
    pub entry: usize,
    pub looks: u64,
}

/// "While more than one entry is possible, look at the middle one (first and
/// last numbers added, halved, rounded down); if its last row is not below the
/// row, keep up to it, else keep what follows."
///
/// There is at least one entry, as in every set of a table with rows.
pub fn search(entries: usize, mut last_row: impl FnMut(usize) -> u64, row: u64) -> Search {
    let (mut first, mut last) = (0, entries - 1);
    let mut looks = 0;
    while first < last {
        let middle = (first + last) / 2;
        let middle_row = last_row(middle);
        looks += 1;
        if middle_row >= row {
            last = middle;
        } else {
            first = middle + 1;
        }
    }
    Search { entry: first, looks }
}

#[cfg(test)]
mod tests {
    use super::*;

    /// The entries that are looked at, in order, and where the search ends.
    fn looked_at(last_rows: &[u64], row: u64) -> (Vec<usize>, usize) {
        let mut looked = Vec::new();
        let last_row = |entry: usize| {
            looked.push(entry);
            last_rows[entry]
        };
        let Search { entry, looks } = search(last_rows.len(), last_row, row);
        assert_eq!(looks, looked.len() as u64);
        (looked, entry)
    }

    /// The looks for a row of each entry, the same for its first and its last.
    fn looks(last_rows: &[u64]) -> Vec<u64> {
        let mut first_row = 0;
        let mut counts = Vec::new();
        for (entry, last) in last_rows.iter().enumerate() {
            let [first, last] = [first_row, *last].map(|row| {
                let found = search(last_rows.len(), |entry| last_rows[entry], row);
                // RULES.md 5.8: the first entry whose last row is not below it.
                assert_eq!(found.entry, last_rows.iter().position(|last| *last >= row).unwrap());
                assert_eq!(found.entry, entry);
                found.looks
            });
            assert_eq!(first, last);
            counts.push(first);
            first_row = last_rows[entry] + 1;
        }
        counts
    }

    /// Last rows of entries that hold one row to six.
    fn uneven(entries: usize) -> Vec<u64> {
        let mut rows = 0;
        let last_row = |entry: usize| {
            rows += 1 + (entry * entry + 3 * entry) as u64 % 7 % 6;
            rows - 1
        };
        (0..entries).map(last_row).collect()
    }

    #[test]
    fn few_entries() {
        assert_eq!(looks(&[0]), [0]);
        assert_eq!(looks(&[2_147_483_646]), [0]);
        assert_eq!(looks(&[3, 6]), [1, 1]);
        assert_eq!(looks(&[0, 4, 5]), [2, 2, 1]);
        assert_eq!(looks(&[0, 1, 2, 3]), [2, 2, 2, 2]);
        assert_eq!(looks(&[2, 3, 9, 10, 12]), [3, 3, 2, 2, 2]);
        assert_eq!(looks(&[0, 1, 2, 3, 4, 5]), [3, 3, 2, 3, 3, 2]);
        assert_eq!(looks(&[0, 8, 9, 10, 18, 20, 21]), [3, 3, 3, 3, 3, 3, 2]);
        assert_eq!(looks(&[0, 1, 2, 3, 4, 5, 6, 7, 8]), [4, 4, 3, 3, 3, 3, 3, 3, 3]);
    }

    #[test]
    fn five_entries() {
        let last_rows = [2, 3, 9, 10, 12];
        for row in 0..=2 {
            assert_eq!(looked_at(&last_rows, row), (vec![2, 1, 0], 0));
        }
        assert_eq!(looked_at(&last_rows, 3), (vec![2, 1, 0], 1));
        for row in 4..=9 {
            assert_eq!(looked_at(&last_rows, row), (vec![2, 1], 2));
        }
        assert_eq!(looked_at(&last_rows, 10), (vec![2, 3], 3));
        for row in 11..=12 {
            assert_eq!(looked_at(&last_rows, row), (vec![2, 3], 4));
        }
    }

    #[test]
    fn seven_entries() {
        let last_rows = [0, 8, 9, 10, 18, 20, 21];
        assert_eq!(looked_at(&last_rows, 0), (vec![3, 1, 0], 0));
        for row in 1..=8 {
            assert_eq!(looked_at(&last_rows, row), (vec![3, 1, 0], 1));
        }
        assert_eq!(looked_at(&last_rows, 9), (vec![3, 1, 2], 2));
        assert_eq!(looked_at(&last_rows, 10), (vec![3, 1, 2], 3));
        for row in 11..=18 {
            assert_eq!(looked_at(&last_rows, row), (vec![3, 5, 4], 4));
        }
        for row in 19..=20 {
            assert_eq!(looked_at(&last_rows, row), (vec![3, 5, 4], 5));
        }
        assert_eq!(looked_at(&last_rows, 21), (vec![3, 5], 6));
    }

    /// "At most the bit length of the entry count less 1", which the first
    /// entry's rows reach.
    fn assert_bound(entries: usize) {
        let bound = u64::from(usize::BITS - (entries - 1).leading_zeros());
        let counts = looks(&uneven(entries));
        assert_eq!(counts[0], bound, "{entries}");
        assert!(counts.iter().all(|looks| *looks <= bound), "{entries}");
        // No half is more than one entry larger than the other.
        assert!(counts.iter().all(|looks| looks + 1 >= bound), "{entries}");
    }

    #[test]
    fn at_most_the_bit_length() {
        (1..=130).for_each(assert_bound);
        for power in 7..12 {
            ((1 << power) - 1..=(1 << power) + 1).for_each(assert_bound);
        }
        assert_bound(4094);
        assert_bound(4095);
    }

    #[test]
    fn powers_of_two() {
        for power in 0..12 {
            let counts = looks(&uneven(1 << power));
            assert!(counts.iter().all(|looks| *looks == power), "2^{power}");
        }
        // One entry more: one look more, for the first two entries alone.
        for power in 1..12 {
            let counts = looks(&uneven((1 << power) + 1));
            assert_eq!(counts[..2], [power + 1; 2], "2^{power} + 1");
            assert!(counts[2..].iter().all(|looks| *looks == power), "2^{power} + 1");
        }
        // One entry less: one look less, for the last entry alone.
        for power in 1..=12 {
            let counts = looks(&uneven((1 << power) - 1));
            let (last, others) = counts.split_last().unwrap();
            assert_eq!(*last, power - 1, "2^{power} - 1");
            assert!(others.iter().all(|looks| *looks == power), "2^{power} - 1");
        }
    }

    #[test]
    fn the_most_entries() {
        let counts = looks(&uneven(4095));
        assert_eq!((counts[0], counts[2047], counts[4094]), (12, 12, 11));
    }
}
