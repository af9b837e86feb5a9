//! The verdict by critical moments.
//!
//! Whether there is contact can change only at a moment where the point's height passes the bottom
//! or the top, its x passes a corner's, or it passes the line of an edge. All those moments, with 0
//! and T, are put in order as exact fractions, and the definition of contact is asked at each of
//! them and once between each two neighbours.
//!
//! A critical moment has a denominator below 2^25, one between two of them below 2^26. Scaled by it
//! a position is below 2^47 and an edge below 2^42, so products stay far inside 127 bits.

use crate::footprint::{check_piece, cross, edge, minus, points, Point};
use crate::fraction::Fraction;
use crate::place::{place_in, Place};
use crate::reach::check_run;
use crate::refusal::Refusal;
use crate::{Piece, Run};

/// How a clear verdict is coded.
pub const CLEAR: u32 = u32::MAX;

/// Clear, or the mark; the run's refusal before the piece's.
pub fn verdict(run: &Run, piece: &Piece) -> Result<u32, Refusal> {
    check_run(run)?;
    check_piece(piece)?;
    Ok(verdict_of_good(run, piece))
}

/// The verdict of a run and a piece that are known to be good.
pub fn verdict_of_good(run: &Run, piece: &Piece) -> u32 {
    match first_contact(run, piece) {
        Some(moment) => moment.floor_of_times(256) as u32,
        None => CLEAR,
    }
}

/// The earliest moment of contact.
pub fn first_contact(run: &Run, piece: &Piece) -> Option<Fraction> {
    let ring = points(&piece.corners);
    let moments = critical_moments(run, piece, &ring);
    for (i, &moment) in moments.iter().enumerate() {
        if contact(run, piece, &ring, moment) {
            return Some(moment);
        }
        if let Some(&next) = moments.get(i + 1) {
            // The moments of contact are a closed set, so none begins between two neighbours.
            assert!(!contact(run, piece, &ring, moment.between(next)));
        }
    }
    None
}

/// Is the point, at this moment, on or inside the footprint and within the band? All of it is
/// moved, each by its own velocity, and multiplied by the moment's denominator.
pub fn contact(run: &Run, piece: &Piece, ring: &[Point], moment: Fraction) -> bool {
    let moved = |value: i128, velocity: i32| value * moment.d + velocity as i128 * moment.n;
    let [x, y, z] = [0, 1, 2].map(|k| moved(run.position[k] as i128, run.velocity[k]));
    let bottom = moved(piece.bottom as i128, piece.velocity[2]);
    let top = moved(piece.top as i128, piece.velocity[2]);
    if z < bottom || top < z {
        return false;
    }
    let there: Vec<Point> =
        ring.iter().map(|c| (moved(c.0, piece.velocity[0]), moved(c.1, piece.velocity[1]))).collect();
    place_in(&there, (x, y)) != Place::Outside
}

/// The critical moments from 0 to T, rising, each once.
fn critical_moments(run: &Run, piece: &Piece, ring: &[Point]) -> Vec<Fraction> {
    let start = run.position.map(i128::from);
    let [wx, wy, wz] = [0, 1, 2].map(|k| run.velocity[k] as i128 - piece.velocity[k] as i128);
    let point = (start[0], start[1]);
    let zero = Fraction::whole(0);
    let end = Fraction::whole(run.ticks as i128);
    let mut moments = vec![zero, end];
    // When is distance + t speed zero?
    let mut passes = |distance: i128, speed: i128| {
        if speed != 0 {
            moments.push(Fraction::over(-distance, speed));
        }
    };
    passes(start[2] - piece.bottom as i128, wz);
    passes(start[2] - piece.top as i128, wz);
    for i in 0..ring.len() {
        let (from, to) = edge(ring, i);
        passes(point.0 - from.0, wx);
        passes(cross(minus(to, from), minus(point, from)), cross(minus(to, from), (wx, wy)));
    }
    moments.retain(|&moment| zero <= moment && moment <= end);
    moments.sort();
    moments.dedup();
    moments
}
