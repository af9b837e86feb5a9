//! The place of a point: on, inside or outside a footprint.

use crate::footprint::{check_footprint, edge, points, Point};
use crate::fraction::Fraction;
use crate::reach::check_point;
use crate::refusal::Refusal;

#[derive(Clone, Copy, Debug, PartialEq, Eq)]
pub enum Place {
    Outside,
    Inside,
    On,
}

/// The place of (x, y), or the refusal: the point's own first, then the footprint's.
pub fn place(x: i32, y: i32, corners: &[i32]) -> Result<Place, Refusal> {
    check_point(x, y)?;
    check_footprint(corners)?;
    Ok(place_in(&points(corners), (x as i128, y as i128)))
}

/// The place of a point in a ring of corners, by the definition.
pub fn place_in(ring: &[Point], point: Point) -> Place {
    if (0..ring.len()).any(|i| on_edge(edge(ring, i), point)) {
        Place::On
    } else if edges_above(ring, point) % 2 == 1 {
        Place::Inside
    } else {
        Place::Outside
    }
}

/// How many edges have exactly one end whose x is at most the point's, and a height at that x that
/// is strictly above the point's.
pub fn edges_above(ring: &[Point], point: Point) -> usize {
    (0..ring.len())
        .filter(|&i| {
            let (from, to) = edge(ring, i);
            let spans = (from.0 <= point.0) != (to.0 <= point.0);
            spans && height_at((from, to), point.0) > Fraction::whole(point.1)
        })
        .count()
}

/// Is the point on the edge, ends included?
fn on_edge((from, to): (Point, Point), point: Point) -> bool {
    if from.0 == to.0 {
        return point.0 == from.0 && between(from.1, point.1, to.1);
    }
    between(from.0, point.0, to.0) && height_at((from, to), point.0) == Fraction::whole(point.1)
}

/// The y at x of the line through an edge that is not upright.
fn height_at((from, to): (Point, Point), x: i128) -> Fraction {
    let width = to.0 - from.0;
    Fraction::over(from.1 * width + (x - from.0) * (to.1 - from.1), width)
}

fn between(one: i128, value: i128, other: i128) -> bool {
    one.min(other) <= value && value <= one.max(other)
}
