//! "Arcs (source 003, improved least error)": circle points by trying the definition, their
//! order by the paper's "follows" and "next", the cycles by walking. No closed formula.

use std::collections::HashMap;

use crate::charge;
use crate::point::Point;
use crate::root::{bits_that_hold, root_up};

/// "An arc is of kind 2, clockwise, or 3, the other way, X right and Y up"
#[derive(Clone, Copy, PartialEq, Eq, Hash, Debug)]
pub enum Kind {
    Clockwise,
    OtherWay,
}

impl Kind {
    /// "a block of another kind can't be given"
    pub fn of_number(number: u64) -> Option<Kind> {
        match number {
            2 => Some(Kind::Clockwise),
            3 => Some(Kind::OtherWay),
            _ => None,
        }
    }

    pub fn number(self) -> u64 {
        match self {
            Kind::Clockwise => 2,
            Kind::OtherWay => 3,
        }
    }
}

/// "N in 1..2,000,000,000,000"
pub const LARGEST_N: i64 = 2_000_000_000_000;

/// Beyond this m no point is a circle point of an N up to LARGEST_N: there
/// F ≥ m² - N ≥ 16 × 10¹² - 2 × 10¹² > m. It keeps the squares small.
const FAR: i64 = 4_000_000;

/// "Seen from the centre, (x, y) has F = x² + y² - N, and m is the larger of |x|, |y|. It is a
/// circle point if -m ≤ F < m."
pub fn is_circle_point(n: i64, at: Point) -> bool {
    if at.x.unsigned_abs().max(at.y.unsigned_abs()) > FAR as u64 {
        return false;
    }
    let f = at.x * at.x + at.y * at.y - n;
    let m = at.x.abs().max(at.y.abs());
    -m <= f && f < m
}

/// "(u, v) follows (x, y) if x × v - y × u is positive, for kind 2 negative".
/// Asked of circle points only, so the products are small.
pub fn follows(kind: Kind, later: Point, earlier: Point) -> bool {
    let cross = earlier.x * later.y - earlier.y * later.x;
    match kind {
        Kind::OtherWay => cross > 0,
        Kind::Clockwise => cross < 0,
    }
}

/// Every circle point of N. F < m gives m² - m < N, so m is at most the root of N plus 1.
pub fn all_circle_points(n: i64) -> Vec<Point> {
    let reach = root_up(n as u128) as i64 + 1;
    let square = (-reach..=reach).flat_map(|x| (-reach..=reach).map(move |y| Point::new(x, y)));
    square.filter(|&at| is_circle_point(n, at)).collect()
}

/// The 8 points at most one pulse per axis away.
fn neighbours(at: Point) -> [Point; 8] {
    const STEPS: [(i64, i64); 8] = [(1, 0), (1, 1), (0, 1), (-1, 1), (-1, 0), (-1, -1), (0, -1), (1, -1)];
    STEPS.map(|(dx, dy)| Point::new(at.x + dx, at.y + dy))
}

/// "the next point is the circle point that follows this one while no circle point both follows
/// this one and is followed by it": among all candidates that follow this one, the first such.
fn next_of(following: &[Point], kind: Kind) -> Option<Point> {
    let is_next = |next: Point| !following.iter().any(|&between| follows(kind, next, between));
    following.iter().copied().find(|&next| is_next(next))
}

/// The next point with all circle points of N as candidates.
fn next_among_all(all: &[Point], kind: Kind, this: Point) -> Option<Point> {
    let following: Vec<Point> = all.iter().copied().filter(|&at| follows(kind, at, this)).collect();
    next_of(&following, kind)
}

/// The next point with the circle points among the 8 neighbours as candidates.
fn next_among_neighbours(n: i64, kind: Kind, this: Point) -> Option<Point> {
    let mut following = [this; 8];
    let mut count = 0;
    for at in neighbours(this) {
        if is_circle_point(n, at) && follows(kind, at, this) {
            following[count] = at;
            count += 1;
        }
    }
    next_of(&following[..count], kind)
}

/// Up to this N the candidates are all circle points, above it the 8 neighbours. The tests try
/// by the definition that for small N both give the same one point.
const SMALL_N: i64 = 50;

/// A circle by its N, seen from its centre.
pub struct Circle {
    n: i64,
    all: Vec<Point>,
}

impl Circle {
    pub fn of(n: i64) -> Circle {
        let all = if n <= SMALL_N { all_circle_points(n) } else { Vec::new() };
        Circle { n, all }
    }

    pub fn next(&self, kind: Kind, this: Point) -> Option<Point> {
        if self.n <= SMALL_N {
            next_among_all(&self.all, kind, this)
        } else {
            next_among_neighbours(self.n, kind, this)
        }
    }
}

/// What a walk over the visited points tells: their number, the sum of the steps' charges and the least box that holds them.
#[derive(Clone, Copy, PartialEq, Eq, Debug)]
pub struct Walk {
    pub cycles: u64,
    pub charges: u64,
    pub lowest: Point,
    pub highest: Point,
}

/// "The arc visits the circle points after the start in order of angle, one a cycle, to the end."
/// "Start equal to end is a full turn." `visit` is shown every visited point in its order.
/// Start and end must be circle points. None would mean that the paper's order has a gap or
/// passes the end by; the tests never see it.
pub fn walk(n: i64, kind: Kind, start: Point, end: Point, mut visit: impl FnMut(Point)) -> Option<Walk> {
    let circle = Circle::of(n);
    let mut here = circle.next(kind, start)?;
    let mut told = Walk { cycles: 1, charges: charge::of_arc_step(start, here), lowest: here, highest: here };
    visit(here);
    while here != end {
        if here == start {
            return None;
        }
        let stood = here;
        here = circle.next(kind, stood)?;
        visit(here);
        told.cycles += 1;
        told.charges += charge::of_arc_step(stood, here);
        told.lowest = Point::new(told.lowest.x.min(here.x), told.lowest.y.min(here.y));
        told.highest = Point::new(told.highest.x.max(here.x), told.highest.y.max(here.y));
    }
    Some(told)
}

/// Walks, and remembers the long ones: a text may ask for the same great circle 8,000 times.
#[derive(Clone, Default, Debug)]
pub struct Walker {
    long_ones: HashMap<(i64, Kind, Point, Point), Walk>,
}

impl Walker {
    pub fn walk(&mut self, n: i64, kind: Kind, start: Point, end: Point) -> Option<Walk> {
        let asked = (n, kind, start, end);
        if let Some(&told) = self.long_ones.get(&asked) {
            return Some(told);
        }
        let told = walk(n, kind, start, end, |_| ())?;
        if told.cycles > 100_000 {
            self.long_ones.insert(asked, told);
        }
        Some(told)
    }
}

/// "for an arc its m on an axis": the m of the circle point (m, 0), found by trying.
pub fn m_on_an_axis(n: i64) -> u64 {
    let root = root_up(n.unsigned_abs().into());
    let near = root.saturating_sub(2)..=root + 1;
    let mut on_axis = near.filter(|&m| i64::try_from(m).is_ok_and(|m| is_circle_point(n, Point::new(m, 0))));
    on_axis.next().unwrap_or(0)
}

pub fn width(n: i64) -> u32 {
    bits_that_hold(m_on_an_axis(n))
}

#[cfg(test)]
mod tests {
    use super::*;

    const KINDS: [Kind; 2] = [Kind::Clockwise, Kind::OtherWay];

    fn visited(n: i64, kind: Kind, start: (i64, i64), end: (i64, i64)) -> Vec<(i64, i64)> {
        let mut seen = Vec::new();
        let (start, end) = (Point::new(start.0, start.1), Point::new(end.0, end.1));
        let told = walk(n, kind, start, end, |at| seen.push((at.x, at.y))).unwrap();
        assert_eq!(told.cycles as usize, seen.len());
        seen
    }

    #[test]
    fn pulses_worked_by_hand() {
        let quarter = [(5, 1), (5, 2), (4, 3), (3, 4), (2, 5), (1, 5), (0, 5)];
        assert_eq!(visited(25, Kind::OtherWay, (5, 0), (0, 5)), quarter);
        assert_eq!(visited(25, Kind::OtherWay, (5, 0), (5, 0)).len(), 28);
        assert_eq!(visited(25, Kind::Clockwise, (3, 4), (3, 4)).len(), 28);
        assert_eq!(visited(1, Kind::OtherWay, (1, 0), (1, 0)).len(), 4);
        assert_eq!(visited(2, Kind::OtherWay, (1, 1), (1, 1)).len(), 8);
        assert_eq!(visited(2, Kind::Clockwise, (1, 0), (1, 0)).len(), 8);
        assert!(is_circle_point(2, Point::new(0, 1)));
        assert!(!is_circle_point(2, Point::new(0, 2)));
        // N no sum of two squares (docs/DECISIONS.md, "N in 1..2,000,000,000,000" and made-up arcs).
        assert_eq!(visited(3, Kind::OtherWay, (1, 1), (1, 1)).len(), 8);
    }

    #[test]
    fn the_clockwise_way_is_clockwise() {
        assert_eq!(visited(1, Kind::Clockwise, (1, 0), (0, -1)), [(0, -1)]);
        assert_eq!(visited(1, Kind::OtherWay, (1, 0), (0, 1)), [(0, 1)]);
    }

    /// The quarter has 4 straight steps and 3 diagonal ones, 4,000 + 4,242, and the full turn four such quarters. All steps of N 1
    /// are diagonal, all of N 2 straight.
    #[test]
    fn charges_worked_by_hand() {
        let charges = |n, start: (i64, i64), end: (i64, i64)| {
            let (start, end) = (Point::new(start.0, start.1), Point::new(end.0, end.1));
            walk(n, Kind::OtherWay, start, end, |_| ()).unwrap().charges
        };
        assert_eq!(charges(25, (5, 0), (0, 5)), 8_242);
        assert_eq!(charges(25, (5, 0), (5, 1)), 1_000);
        assert_eq!(charges(25, (5, 2), (4, 3)), 1_414);
        assert_eq!(charges(25, (5, 0), (5, 0)), 32_968);
        assert_eq!(charges(1, (1, 0), (1, 0)), 5_656);
        assert_eq!(charges(2, (1, 1), (1, 1)), 8_000);
    }

    /// docs/DECISIONS.md, "Register width of an arc".
    #[test]
    fn m_on_an_axis_is_the_nearest_root() {
        assert_eq!((m_on_an_axis(58), width(58)), (8, 4));
        assert_eq!((m_on_an_axis(50), width(50)), (7, 3));
        assert_eq!(m_on_an_axis(LARGEST_N), 1_414_214);
        assert_eq!(m_on_an_axis(1), 1);
        for n in 1..3_000 {
            let m = m_on_an_axis(n) as i64;
            assert!(m * m + m >= n && (m - 1) * (m - 1) + (m - 1) < n);
        }
    }

    /// "the next point" by the definition over all circle points: exactly one, a neighbour, and
    /// the one that the search among neighbours finds (docs/DECISIONS.md, "The next point").
    #[test]
    fn next_is_one_and_a_neighbour() {
        for n in 1..=400 {
            let all = all_circle_points(n);
            for kind in KINDS {
                for &this in &all {
                    let is_next =
                        |next: Point| follows(kind, next, this) && !all.iter().any(|&q| follows(kind, q, this) && follows(kind, next, q));
                    let found: Vec<Point> = all.iter().copied().filter(|&next| is_next(next)).collect();
                    assert_eq!(found.len(), 1, "N {n} {this:?}");
                    assert!((found[0].x - this.x).abs() <= 1 && (found[0].y - this.y).abs() <= 1);
                    assert_eq!(next_among_neighbours(n, kind, this), Some(found[0]));
                    assert_eq!(next_among_all(&all, kind, this), Some(found[0]));
                }
            }
        }
    }

    /// A full turn visits every circle point once, the start last, whatever the start.
    #[test]
    fn a_full_turn_visits_all() {
        for n in (1..=300).chain([5_000, 99_999]) {
            let mut all = all_circle_points(n);
            all.sort_by_key(|p| (p.x, p.y));
            for kind in KINDS {
                for &start in all.iter().take(9) {
                    let mut seen = Vec::new();
                    walk(n, kind, start, start, |at| seen.push(at)).unwrap();
                    assert_eq!(seen.last(), Some(&start));
                    seen.sort_by_key(|p| (p.x, p.y));
                    assert_eq!(seen, all);
                }
            }
        }
    }

    /// "in order of angle": the walk against sorting by the angle itself.
    #[test]
    fn the_order_is_that_of_angle() {
        for n in (1..=400).chain([10_000, 123_457]) {
            let angle = |at: &Point| (at.y as f64).atan2(at.x as f64);
            let mut all = all_circle_points(n);
            all.sort_by(|p, q| angle(p).total_cmp(&angle(q)));
            let start = all[all.len() - 1];
            let mut seen = Vec::new();
            walk(n, Kind::OtherWay, start, start, |at| seen.push(at)).unwrap();
            assert_eq!(seen, all);
        }
    }

    /// The box that `walk` tells is the box of what it visits.
    #[test]
    fn the_box_is_the_box() {
        for n in 1..=40 {
            for start in all_circle_points(n) {
                for end in all_circle_points(n) {
                    let mut seen = Vec::new();
                    let told = walk(n, Kind::Clockwise, start, end, |at| seen.push(at)).unwrap();
                    assert_eq!(Some(told.lowest.x), seen.iter().map(|p| p.x).min());
                    assert_eq!(Some(told.lowest.y), seen.iter().map(|p| p.y).min());
                    assert_eq!(Some(told.highest.x), seen.iter().map(|p| p.x).max());
                    assert_eq!(Some(told.highest.y), seen.iter().map(|p| p.y).max());
                }
            }
        }
    }

    /// The nearest point along the longer coordinate, no ties (docs/DECISIONS.md, "It is a circle point if -m ≤ F < m."), no two
    /// on one ray.
    #[test]
    fn nearest_along_the_longer_coordinate() {
        for n in 1..=1_000i64 {
            let all = all_circle_points(n);
            for at in &all {
                let (long, short) = (at.x.abs().max(at.y.abs()), at.x.abs().min(at.y.abs()));
                let rest = n - short * short;
                // (2 long - 1)² < 4 rest < (2 long + 1)²: nearer to long than to any other whole number.
                assert!((2 * long - 1).pow(2) < 4 * rest && 4 * rest < (2 * long + 1).pow(2));
            }
            for (i, p) in all.iter().enumerate().take(40) {
                for q in &all[i + 1..] {
                    assert!(p.x * q.y != p.y * q.x || p.x * q.x + p.y * q.y < 0, "one ray: {p:?} {q:?}");
                }
            }
        }
    }

    /// A full turn in closed form, which nothing here uses, tried against the walk.
    #[test]
    fn closed_count_agrees_with_the_walk() {
        for n in 1..=3_000i64 {
            let start = Point::new(m_on_an_axis(n) as i64, 0);
            let walked = walk(n, Kind::OtherWay, start, start, |_| ()).unwrap().cycles as i64;
            let d = (0..100).filter(|d| 2 * d * d - d < n).max().unwrap();
            let diagonal = i64::from(2 * d * d + d >= n);
            assert_eq!(walked, 8 * (d + 1) - 4 - 4 * diagonal, "N {n}");
        }
    }

    #[test]
    fn far_points_are_no_circle_points() {
        for far in [i64::MIN, i64::MAX, 4_000_001, -4_000_001] {
            assert!(!is_circle_point(LARGEST_N, Point::new(far, 0)));
            assert!(!is_circle_point(1, Point::new(0, far)));
        }
        assert!(!is_circle_point(1, Point::new(0, 0)));
    }
}
