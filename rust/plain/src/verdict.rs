//! The verdict: an interval of moments, clipped by what is linear in the moment.

use crate::footprint::{check_piece, check_run, place_scaled, Place};
use crate::{Piece, Refusal, Run};

/// How a clear verdict is coded.
pub const CLEAR: u32 = u32::MAX;

/// The moment n / d, d at least 1.
#[derive(Clone, Copy)]
struct Moment {
    n: i64,
    d: i64,
}

impl Moment {
    fn before(self, other: Moment) -> bool {
        self.n * other.d < other.n * self.d
    }

    fn mark(self) -> u32 {
        (256 * self.n / self.d) as u32
    }
}

#[derive(Clone, Copy)]
struct Span {
    lo: Moment,
    hi: Moment,
}

impl Span {
    /// The moments t of the span with a + b t at least 0.
    #[inline]
    fn clip(mut self, a: i64, b: i64) -> Option<Span> {
        if b > 0 {
            let zero = Moment { n: -a, d: b };
            if self.lo.before(zero) {
                self.lo = zero;
            }
        } else if b < 0 {
            let zero = Moment { n: a, d: -b };
            if zero.before(self.hi) {
                self.hi = zero;
            }
        } else if a < 0 {
            return None;
        }
        if self.hi.before(self.lo) {
            None
        } else {
            Some(self)
        }
    }
}

pub fn verdict(run: &Run, piece: &Piece) -> Result<u32, Refusal> {
    check_run(run)?;
    check_piece(piece)?;
    Ok(verdict_of_good(run, piece))
}

pub(crate) fn verdict_of_good(run: &Run, piece: &Piece) -> u32 {
    let Some(span) = band(run, piece) else {
        return CLEAR;
    };
    let (x, y) = (run.x as i64, run.y as i64);
    let (wx, wy) = ((run.vx - piece.vx) as i64, (run.vy - piece.vy) as i64);
    let Moment { n, d } = span.lo;
    if place_scaled(piece.corners, x * d + wx * n, y * d + wy * n, d) != Place::Outside {
        return span.lo.mark();
    }
    first_edge(piece.corners, x, y, wx, wy, span)
}

/// The moments from 0 to T at which the point is within the band.
fn band(run: &Run, piece: &Piece) -> Option<Span> {
    let w = (run.vz - piece.vz) as i64;
    let whole = Span { lo: Moment { n: 0, d: 1 }, hi: Moment { n: run.ticks as i64, d: 1 } };
    whole.clip((run.z - piece.bottom) as i64, w)?.clip((piece.top - run.z) as i64, -w)
}

/// The least mark at which the point is on an edge.
fn first_edge(corners: &[i32], x: i64, y: i64, wx: i64, wy: i64, span: Span) -> u32 {
    // Which side of the line of motion a corner is on.
    let side = |cx: i64, cy: i64| wx * (cy - y) - wy * (cx - x);
    let n = corners.len();
    let (mut px, mut py) = (corners[n - 2] as i64, corners[n - 1] as i64);
    let mut ps = side(px, py);
    let mut least = CLEAR;
    for pair in corners.chunks_exact(2) {
        let (qx, qy) = (pair[0] as i64, pair[1] as i64);
        let qs = side(qx, qy);
        let apart = (ps > 0 && qs > 0) || (ps < 0 && qs < 0);
        if !apart {
            if let Some(moment) = on_edge(span, (px - x, py - y), (qx - x, qy - y), wx, wy) {
                least = least.min(moment.mark());
            }
        }
        (px, py, ps) = (qx, qy, qs);
    }
    least
}

/// The first moment of the span on the edge from p to q, both taken from the point's start.
fn on_edge(span: Span, p: (i64, i64), q: (i64, i64), wx: i64, wy: i64) -> Option<Moment> {
    let (ex, ey) = (q.0 - p.0, q.1 - p.1);
    let a = ey * p.0 - ex * p.1;
    let b = ex * wy - ey * wx;
    let on = span
        .clip(a, b)?
        .clip(-a, -b)?
        .clip(-p.0.min(q.0), wx)?
        .clip(p.0.max(q.0), -wx)?
        .clip(-p.1.min(q.1), wy)?
        .clip(p.1.max(q.1), -wy)?;
    Some(on.lo)
}
