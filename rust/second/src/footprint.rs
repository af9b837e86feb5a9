//! Footprints: what makes a good one. Whether two edges share a point is found by solving for it.

use crate::fraction::Fraction;
use crate::reach;
use crate::refusal::{Refusal, CLOCKWISE, FOLD, MEETING, SAME};
use crate::Piece;

pub type Point = (i128, i128);

/// The corners as points.
pub fn points(corners: &[i32]) -> Vec<Point> {
    corners.chunks(2).map(|c| (c[0] as i128, c[1] as i128)).collect()
}

/// Edge i joins corner i to the next, the last to corner 0.
pub fn edge(ring: &[Point], i: usize) -> (Point, Point) {
    (ring[i], ring[(i + 1) % ring.len()])
}

/// All of a piece, in the order of a call on plain numbers.
pub fn check_piece(piece: &Piece) -> Result<(), Refusal> {
    reach::check_count(piece.corners.len())?;
    reach::check_body(piece)?;
    reach::check_corners(&piece.corners)?;
    check_shape(&piece.corners)
}

/// A footprint without a band, as the point place takes it.
pub fn check_footprint(corners: &[i32]) -> Result<(), Refusal> {
    reach::check_count(corners.len())?;
    reach::check_corners(corners)?;
    check_shape(corners)
}

/// Equal corners, folds, meetings and the turn, once count and reach are good.
pub fn check_shape(corners: &[i32]) -> Result<(), Refusal> {
    let ring = points(corners);
    if let Some(i) = equal_corner(&ring) {
        return Err(Refusal::at(SAME, i));
    }
    if let Some(i) = fold(&ring) {
        return Err(Refusal::at(FOLD, i));
    }
    if let Some((a, b)) = first_meeting(&ring) {
        return Err(Refusal::between(MEETING, a, b));
    }
    if twice_area(&ring) <= 0 {
        return Err(Refusal::plain(CLOCKWISE));
    }
    Ok(())
}

/// The first corner that equals the next one around the ring.
fn equal_corner(ring: &[Point]) -> Option<usize> {
    (0..ring.len()).find(|&i| {
        let (from, to) = edge(ring, i);
        from == to
    })
}

/// The first corner whose two edges share a point besides it.
fn fold(ring: &[Point]) -> Option<usize> {
    let n = ring.len();
    (0..n).find(|&i| {
        let before = edge(ring, (i + n - 1) % n);
        let after = edge(ring, i);
        // The common corner is where the edge before it ends: parameter 1.
        let (first, _) = shared(before, after).expect("neighbours share their corner");
        first < Fraction::whole(1)
    })
}

/// The first pair of edges that are not neighbours and share a point.
fn first_meeting(ring: &[Point]) -> Option<(usize, usize)> {
    let n = ring.len();
    for a in 0..n {
        for b in a + 1..n {
            let neighbours = b == a + 1 || (a == 0 && b == n - 1);
            if !neighbours && shared(edge(ring, a), edge(ring, b)).is_some() {
                return Some((a, b));
            }
        }
    }
    None
}

fn twice_area(ring: &[Point]) -> i128 {
    (0..ring.len())
        .map(|i| {
            let (p, q) = edge(ring, i);
            p.0 * q.1 - q.0 * p.1
        })
        .sum()
}

/// The points that two segments, neither of length zero, have in common: the first and the last of
/// them as parameters along `p`, which is 0 where it begins and 1 where it ends.
fn shared(p: (Point, Point), q: (Point, Point)) -> Option<(Fraction, Fraction)> {
    let along = minus(p.1, p.0);
    let other = minus(q.1, q.0);
    let gap = minus(q.0, p.0);
    let zero = Fraction::whole(0);
    let one = Fraction::whole(1);
    let det = cross(along, other);
    if det != 0 {
        // p.0 + s along = q.0 + u other has one solution.
        let s = Fraction::over(cross(gap, other), det);
        let u = Fraction::over(cross(gap, along), det);
        let on_both = zero <= s && s <= one && zero <= u && u <= one;
        return on_both.then_some((s, s));
    }
    if cross(gap, along) != 0 {
        return None;
    }
    // One line: q begins and ends at these parameters of p.
    let length = dot(along, along);
    let begins = Fraction::over(dot(gap, along), length);
    let ends = Fraction::over(dot(minus(q.1, p.0), along), length);
    let first = begins.min(ends).max(zero);
    let last = begins.max(ends).min(one);
    (first <= last).then_some((first, last))
}

pub fn minus(p: Point, q: Point) -> Point {
    (p.0 - q.0, p.1 - q.1)
}

pub fn cross(p: Point, q: Point) -> i128 {
    p.0 * q.1 - p.1 * q.0
}

fn dot(p: Point, q: Point) -> i128 {
    p.0 * q.0 + p.1 * q.1
}
