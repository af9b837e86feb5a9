//! The checks of runs and pieces, and the place of a point.

use crate::{Piece, Refusal, Run};

const FAR: i32 = 16_384;
const FAST: i32 = 255;
pub(crate) const MOST_CORNERS: usize = 64;

#[derive(Clone, Copy, Debug, PartialEq, Eq)]
pub enum Place {
    Outside,
    Inside,
    On,
}

#[derive(Clone, Copy, PartialEq, Eq)]
struct Corner {
    x: i32,
    y: i32,
}

/// Lowest and highest x and y of an edge.
#[derive(Clone, Copy)]
struct Extent {
    x0: i32,
    x1: i32,
    y0: i32,
    y1: i32,
}

impl Extent {
    fn of(p: Corner, q: Corner) -> Self {
        Extent { x0: p.x.min(q.x), x1: p.x.max(q.x), y0: p.y.min(q.y), y1: p.y.max(q.y) }
    }

    fn overlaps(&self, other: &Extent) -> bool {
        self.x0 <= other.x1 && other.x0 <= self.x1 && self.y0 <= other.y1 && other.y0 <= self.y1
    }
}

fn within(value: i32, most: i32, offset: usize) -> Result<(), Refusal> {
    if (-most..=most).contains(&value) {
        Ok(())
    } else {
        Err(Refusal::reach(offset))
    }
}

pub fn check_run(run: &Run) -> Result<(), Refusal> {
    within(run.x, FAR, 2)?;
    within(run.y, FAR, 4)?;
    within(run.z, FAR, 6)?;
    within(run.vx, FAST, 8)?;
    within(run.vy, FAST, 10)?;
    within(run.vz, FAST, 12)?;
    if run.ticks > 4_096 {
        return Err(Refusal::reach(14));
    }
    Ok(())
}

pub fn check_piece(piece: &Piece) -> Result<(), Refusal> {
    check_count(piece.corners.len())?;
    check_numbers(piece)
}

/// A piece whose count is known to be good.
pub(crate) fn check_numbers(piece: &Piece) -> Result<(), Refusal> {
    within(piece.bottom, FAR, 2)?;
    within(piece.top, FAR, 4)?;
    if piece.bottom > piece.top {
        return Err(Refusal::reach(4));
    }
    within(piece.vx, FAST, 6)?;
    within(piece.vy, FAST, 8)?;
    within(piece.vz, FAST, 10)?;
    check_corners(piece.corners)
}

pub(crate) fn check_count(length: usize) -> Result<(), Refusal> {
    if length % 2 != 0 || !(6..=2 * MOST_CORNERS).contains(&length) {
        return Err(Refusal::new(5, 0, 0));
    }
    Ok(())
}

fn check_corners(corners: &[i32]) -> Result<(), Refusal> {
    for (k, &value) in corners.iter().enumerate() {
        within(value, FAR, 12 + 2 * k)?;
    }
    // One corner more than there are, so that edge i joins corners i and i + 1.
    let n = corners.len() / 2;
    let mut ring = [Corner { x: 0, y: 0 }; MOST_CORNERS + 1];
    for (corner, pair) in ring.iter_mut().zip(corners.chunks_exact(2)) {
        *corner = Corner { x: pair[0], y: pair[1] };
    }
    ring[n] = ring[0];
    check_ring(&ring[..=n])
}

/// The shape of a ring whose last corner repeats its first.
fn check_ring(ring: &[Corner]) -> Result<(), Refusal> {
    let n = ring.len() - 1;
    if let Some(i) = ring.windows(2).position(|edge| edge[0] == edge[1]) {
        return Err(Refusal::new(6, i, 0));
    }
    if let Some(i) = (0..n).find(|&i| folds(ring[if i == 0 { n - 1 } else { i - 1 }], ring[i], ring[i + 1])) {
        return Err(Refusal::new(7, i, 0));
    }
    if let Some((a, b)) = first_meeting(ring) {
        return Err(Refusal::new(8, a, b));
    }
    let area: i64 =
        ring.windows(2).map(|e| e[0].x as i64 * e[1].y as i64 - e[1].x as i64 * e[0].y as i64).sum();
    if area <= 0 {
        return Err(Refusal::new(9, 0, 0));
    }
    Ok(())
}

/// Does the ring turn right back at this corner?
fn folds(before: Corner, corner: Corner, after: Corner) -> bool {
    let (px, py) = ((before.x - corner.x) as i64, (before.y - corner.y) as i64);
    let (qx, qy) = ((after.x - corner.x) as i64, (after.y - corner.y) as i64);
    px * qy - py * qx == 0 && px * qx + py * qy > 0
}

fn first_meeting(ring: &[Corner]) -> Option<(usize, usize)> {
    let n = ring.len() - 1;
    let mut extents = [Extent { x0: 0, x1: 0, y0: 0, y1: 0 }; MOST_CORNERS];
    for (extent, edge) in extents.iter_mut().zip(ring.windows(2)) {
        *extent = Extent::of(edge[0], edge[1]);
    }
    for a in 0..n - 2 {
        // Edges 0 and n - 1 are neighbours.
        let end = if a == 0 { n - 1 } else { n };
        for b in a + 2..end {
            if extents[a].overlaps(&extents[b]) && straddle(&ring[a..a + 2], &ring[b..b + 2]) {
                return Some((a, b));
            }
        }
    }
    None
}

/// Does neither edge have the other wholly on one side? With overlapping extents they then meet.
fn straddle(p: &[Corner], q: &[Corner]) -> bool {
    side(p[0], p[1], q[0]) * side(p[0], p[1], q[1]) <= 0
        && side(q[0], q[1], p[0]) * side(q[0], q[1], p[1]) <= 0
}

/// Positive where the point is left of the line through an edge, 0 on it.
fn side(from: Corner, to: Corner, point: Corner) -> i64 {
    let (ex, ey) = ((to.x - from.x) as i64, (to.y - from.y) as i64);
    let (px, py) = ((point.x - from.x) as i64, (point.y - from.y) as i64);
    (ex * py - ey * px).signum()
}

pub fn place(x: i32, y: i32, corners: &[i32]) -> Result<Place, Refusal> {
    within(x, FAR, 2)?;
    within(y, FAR, 4)?;
    check_count(corners.len())?;
    check_corners(corners)?;
    Ok(place_scaled(corners, x as i64, y as i64, 1))
}

/// The place of the point (x / d, y / d).
pub(crate) fn place_scaled(corners: &[i32], x: i64, y: i64, d: i64) -> Place {
    let n = corners.len();
    let mut inside = false;
    let (mut px, mut py) = (corners[n - 2] as i64, corners[n - 1] as i64);
    for pair in corners.chunks_exact(2) {
        let (qx, qy) = (pair[0] as i64, pair[1] as i64);
        if px.min(qx) * d <= x && x <= px.max(qx) * d {
            let turn = (qx - px) * (y - py * d) - (qy - py) * (x - px * d);
            if turn == 0 && py.min(qy) * d <= y && y <= py.max(qy) * d {
                return Place::On;
            }
            if (px * d <= x) != (qx * d <= x) && (turn < 0) == (px < qx) {
                inside = !inside;
            }
        }
        (px, py) = (qx, qy);
    }
    if inside {
        Place::Inside
    } else {
        Place::Outside
    }
}
