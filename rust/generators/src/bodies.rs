//! Runs and pieces: still and moving, near and far, aimed at each other, and out of reach.

use crate::footprints::{self, beyond, inner_point, FAR};
use crate::rng::Rng;
use second::{Piece, Run};

pub const FAST: i32 = 255;
pub const LONG: i32 = 4_096;

/// A number within a limit; its ends, zero and small ones are frequent.
fn number(rng: &mut Rng, limit: i32) -> i32 {
    match rng.below(6) {
        0 => 0,
        1 => rng.pick(&[-limit, limit]),
        2 | 3 => rng.range(-5, 5),
        _ => rng.range(-limit, limit),
    }
}

fn velocity(rng: &mut Rng) -> [i32; 3] {
    match rng.below(5) {
        0 => [0; 3],
        1 => [0, 1, 2].map(|_| rng.pick(&[-FAST, FAST])),
        2 => [0, 1, 2].map(|_| rng.range(-3, 3)),
        _ => [0, 1, 2].map(|_| number(rng, FAST)),
    }
}

pub fn ticks(rng: &mut Rng) -> u32 {
    (match rng.below(5) {
        0 => 0,
        1 => LONG,
        2 => rng.range(0, 10),
        _ => rng.range(0, LONG),
    }) as u32
}

pub fn good_run(rng: &mut Rng) -> Run {
    let position = [0, 1, 2].map(|_| number(rng, FAR));
    Run { position, velocity: velocity(rng), ticks: ticks(rng) }
}

/// A run of which one number, at times two, is out of reach.
pub fn bad_run(rng: &mut Rng) -> Run {
    let mut run = good_run(rng);
    for _ in 0..rng.range(1, 2) {
        match rng.below(7) {
            6 => run.ticks = rng.pick(&[4_097, 4_098, 65_535, 65_536, 69_632, u32::MAX]),
            k if k < 3 => run.position[k] = beyond(rng, FAR),
            k => run.velocity[k - 3] = beyond(rng, FAST),
        }
    }
    run
}

pub fn any_run(rng: &mut Rng) -> Run {
    if rng.once_in(3) {
        bad_run(rng)
    } else {
        good_run(rng)
    }
}

/// A good piece of any shape.
pub fn good_piece(rng: &mut Rng) -> Piece {
    let corners = footprints::good(rng);
    piece_over(rng, corners)
}

/// A piece with a good band and velocity over some list of corners.
pub fn piece_over(rng: &mut Rng, corners: Vec<i32>) -> Piece {
    let (one, other) = (number(rng, FAR), number(rng, FAR));
    let (bottom, top) = match rng.below(4) {
        0 => (one, one),
        1 => (-FAR, FAR),
        2 => (one.min(FAR - 40), one.min(FAR - 40) + rng.range(0, 40)),
        _ => (one.min(other), one.max(other)),
    };
    Piece { bottom, top, velocity: velocity(rng), corners }
}

/// A piece with a fault in its footprint, its band or its velocity, at times in two of them.
pub fn bad_piece(rng: &mut Rng) -> Piece {
    let faults = rng.below(4); // 0: band or velocity, 1: both, otherwise the footprint
    let corners = if faults == 0 { footprints::good(rng) } else { footprints::bad(rng) };
    let mut piece = piece_over(rng, corners);
    if faults > 1 {
        return piece;
    }
    match rng.below(4) {
        0 => piece.bottom = beyond(rng, FAR),
        1 => piece.top = beyond(rng, FAR),
        2 => {
            piece.bottom = rng.range(-FAR + 1, FAR);
            piece.top = (piece.bottom - rng.range(1, 5)).max(-FAR);
        }
        _ => {
            let k = rng.below(3);
            piece.velocity[k] = beyond(rng, FAST);
        }
    }
    piece
}

pub fn any_piece(rng: &mut Rng) -> Piece {
    match rng.below(4) {
        0 => bad_piece(rng),
        1 => {
            let corners = footprints::scribble(rng);
            piece_over(rng, corners)
        }
        _ => good_piece(rng),
    }
}

/// A point that has something to do with the footprint: a corner, a point of an edge, a
/// neighbour of one of these, or another near it.
pub fn near_point(rng: &mut Rng, corners: &[i32]) -> (i32, i32) {
    let n = corners.len() / 2;
    if n == 0 {
        return (0, 0);
    }
    let at = |i: usize| (corners[2 * (i % n)], corners[2 * (i % n) + 1]);
    let i = rng.below(n);
    let j = if rng.once_in(2) { i + 1 } else { rng.below(n) };
    let (p, q) = (at(i), at(j));
    let (x, y) = match rng.below(4) {
        0 => p,
        1 => (p.0, q.1),
        _ if [p.0, p.1, q.0, q.1].iter().any(|value| value.unsigned_abs() > FAR as u32) => p,
        2 => (p.0 + (q.0 - p.0) / 2, p.1 + (q.1 - p.1) / 2),
        _ => inner_point(rng, p, q).unwrap_or(p),
    };
    if rng.once_in(3) {
        (x.saturating_add(rng.range(-1, 1)), y.saturating_add(rng.range(-1, 1)))
    } else {
        (x, y)
    }
}

/// A run that is, at some tick, at a point near the footprint and near an end of the band.
pub fn aimed_run(rng: &mut Rng, piece: &Piece) -> Run {
    let mut run = good_run(rng);
    if rng.once_in(6) {
        run.velocity = piece.velocity; // no motion between the two
    }
    let (x, y) = near_point(rng, &piece.corners);
    let z = match rng.below(6) {
        0 => piece.bottom,
        1 => piece.top,
        2 => piece.top.saturating_add(1),
        3 => piece.bottom.saturating_sub(1),
        _ => piece.bottom + (piece.top - piece.bottom) / 2,
    };
    let speed: Vec<i64> = (0..3).map(|k| run.velocity[k] as i64 - piece.velocity[k] as i64).collect();
    // So many ticks back the start is still within reach.
    let most = speed.iter().map(|w| 2 * FAR as i64 / w.abs().max(8)).min().unwrap();
    let tick = rng.range(0, most as i32) as i64;
    let target = [x, y, z];
    for k in 0..3 {
        let start = target[k] as i64 - tick * speed[k];
        run.position[k] = start.clamp(-FAR as i64, FAR as i64) as i32;
    }
    run.ticks = match rng.below(4) {
        0 => tick as u32,
        1 => (tick as u32).saturating_sub(1),
        2 => (tick as i32 + rng.range(0, 3)) as u32,
        _ => ticks(rng),
    };
    run.ticks = run.ticks.min(LONG as u32);
    run
}

/// A run and a piece, all numbers small, so that coincidences are frequent.
pub fn small_question(rng: &mut Rng) -> (Run, Piece) {
    let corners = footprints::scribble(rng);
    let speed = |rng: &mut Rng| [0, 1, 2].map(|_| rng.range(-2, 2));
    let bottom = rng.range(0, 3);
    let piece = Piece { bottom, top: bottom + rng.range(0, 3), velocity: speed(rng), corners };
    let position = [0, 1, 2].map(|_| rng.range(-6, 10));
    (Run { position, velocity: speed(rng), ticks: rng.range(0, 12) as u32 }, piece)
}

/// A question of which nothing is known.
pub fn question(rng: &mut Rng) -> (Run, Piece) {
    match rng.below(16) {
        0 => (any_run(rng), any_piece(rng)),
        1 | 2 => small_question(rng),
        3 => {
            let piece = good_piece(rng);
            (good_run(rng), piece)
        }
        _ => {
            let piece = good_piece(rng);
            (aimed_run(rng, &piece), piece)
        }
    }
}
