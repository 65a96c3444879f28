//! The two small searches over whole numbers: the root rounded up, and the register width.

/// The least whole number q with q² ≥ s, by halving an interval that always holds it.
pub fn root_up(s: u128) -> u64 {
    let (mut below, mut enough) = (0u64, 1u64 << 40);
    if s == 0 || u128::from(enough) * u128::from(enough) < s {
        // 2^80 is far beyond every sum of squares that the questions let through.
        return if s == 0 { 0 } else { u64::MAX };
    }
    while enough - below > 1 {
        let middle = below + (enough - below) / 2;
        if u128::from(middle) * u128::from(middle) >= s {
            enough = middle;
        } else {
            below = middle;
        }
    }
    enough
}

/// "the fewest bits that hold" a number: the least n with number < 2^n.
pub fn bits_that_hold(number: u64) -> u32 {
    (0..64).find(|&n| number < (1u64 << n)).unwrap_or(64)
}

#[cfg(test)]
mod tests {
    use super::*;

    #[test]
    fn root_up_meets_its_definition() {
        let edges = (0..3_000u128).chain((1..2_000u128).flat_map(|q| [q * q * 1_000_000 - 1, q * q * 1_000_000, q * q * 1_000_000 + 1]));
        for s in edges.chain([8_000_000_000_000, 2_000_000_000_000, 1 << 80]) {
            let q = u128::from(root_up(s));
            assert!(q * q >= s, "{s}");
            assert!(q == 0 || (q - 1) * (q - 1) < s, "{s}");
        }
    }

    #[test]
    fn widths_of_the_paper() {
        assert_eq!(bits_that_hold(60_000), 16);
        assert_eq!(bits_that_hold(2_400), 12);
        assert_eq!(bits_that_hold(1), 1);
        assert_eq!(bits_that_hold(2), 2);
        assert_eq!(bits_that_hold(3), 2);
        assert_eq!(bits_that_hold(u64::MAX), 64);
    }
}
