//! "Lines (source 000; half filling from source 003)"

use crate::point::Point;
use crate::root::{bits_that_hold, root_up};

/// "q is the least whole number with q² ≥ a² + b²; the line takes q cycles"
pub fn cycles(start: Point, end: Point) -> u64 {
    let a = u128::from(start.x.abs_diff(end.x));
    let b = u128::from(start.y.abs_diff(end.y));
    root_up(a * a + b * b)
}

/// "h is q/2 rounded down. After c cycles X has moved ⌊(h + |a| × c) / q⌋ in the sign of a".
/// Asked with q ≥ 1 and c ≤ q, so what was moved is at most |a|.
fn moved(from: i64, to: i64, q: u64, c: u64) -> i64 {
    let h = u128::from(q / 2);
    let magnitude = (h + u128::from(from.abs_diff(to)) * u128::from(c)) / u128::from(q.max(1));
    let magnitude = i64::try_from(magnitude).unwrap_or(i64::MAX);
    if to < from {
        -magnitude
    } else {
        magnitude
    }
}

/// The point of a line of q cycles after c of them; "Y likewise".
pub fn point_after(start: Point, end: Point, q: u64, c: u64) -> Point {
    start.moved_by(Point::new(moved(start.x, end.x, q, c), moved(start.y, end.y, q, c)))
}

/// "the fewest bits that hold the larger of |a|, |b|"
pub fn width(start: Point, end: Point) -> u32 {
    bits_that_hold(start.x.abs_diff(end.x).max(start.y.abs_diff(end.y)))
}

#[cfg(test)]
mod tests {
    use super::*;
    use crate::point::ORIGIN;

    fn points(a: i64, b: i64) -> Vec<(i64, i64)> {
        let end = Point::new(a, b);
        let q = cycles(ORIGIN, end);
        (1..=q).map(|c| point_after(ORIGIN, end, q, c)).map(|p| (p.x, p.y)).collect()
    }

    #[test]
    fn pulses_worked_by_hand() {
        assert_eq!(points(1, 0), [(1, 0)]);
        assert_eq!(points(1, 1), [(1, 1), (1, 1)]);
        assert_eq!(points(3, 4), [(1, 1), (1, 2), (2, 2), (2, 3), (3, 4)]);
        assert_eq!(points(-3, 4), [(-1, 1), (-1, 2), (-2, 2), (-2, 3), (-3, 4)]);
        assert_eq!(points(0, -1), [(0, -1)]);
        assert_eq!(cycles(ORIGIN, Point::new(1000, 2000)), 2237);
        assert_eq!(width(ORIGIN, Point::new(2000, 2000)), 11);
    }

    /// Demand 3: "at most half a pulse per axis from the exact point for the cycles done, and
    /// its squared distance from the line is at most one half"; here for all small lines.
    #[test]
    fn small_lines_keep_demand_3() {
        let mut largest = (0i64, 1i64);
        for a in -110i64..=110 {
            for b in -100i64..=100 {
                if (a, b) == (0, 0) {
                    continue;
                }
                let q = cycles(ORIGIN, Point::new(a, b)) as i64;
                let mut last = (0, 0);
                for (i, (x, y)) in points(a, b).into_iter().enumerate() {
                    let c = i as i64 + 1;
                    assert!((x - last.0).abs() <= 1 && (y - last.1).abs() <= 1);
                    last = (x, y);
                    assert!(2 * (x * q - a * c).abs() <= q && 2 * (y * q - b * c).abs() <= q);
                    let cross = a * y - b * x;
                    let sum = a * a + b * b;
                    assert!(2 * cross * cross <= sum);
                    if cross * cross * largest.1 > largest.0 * sum {
                        largest = (cross * cross, sum);
                    }
                }
                assert_eq!(last, (a, b));
            }
        }
        // One half is nearly sharp: 10000/20689 = 0.4833 at (108, 95), c 122.
        assert!(largest.0 * 20689 >= 10000 * largest.1);
        let (x, y) = points(108, 95)[121];
        assert_eq!((108 * y - 95 * x).pow(2), 10000);
        assert_eq!(108 * 108 + 95 * 95, 20689);
    }
}
