//! What is timed: pieces, runs and rooms, the same each time.

use generators::footprints::{flat, rim};
use generators::Rng;
use second::{Piece, Run};

/// A piece of so many corners with a middle within reach.
pub fn piece_of(index: u64, corners: usize) -> Piece {
    let rng = &mut Rng::of_case(corners as u64, index);
    let (x, y) = (rng.range(-2_000, 2_000), rng.range(-2_000, 2_000));
    let ring: Vec<(i32, i32)> = rim(rng, corners, 20).into_iter().map(|c| (c.0 + x, c.1 + y)).collect();
    Piece { bottom: 0, top: rng.range(20, 400), velocity: [0; 3], corners: flat(&ring) }
}

/// The middle of a piece, about.
fn middle(piece: &Piece) -> (i32, i32) {
    let n = piece.corners.len() as i32 / 2;
    let sum = |from: usize| piece.corners[from..].iter().step_by(2).sum::<i32>();
    (sum(0) / n, sum(1) / n)
}

/// A run that goes through the piece.
pub fn near_run(index: u64, piece: &Piece) -> Run {
    let rng = &mut Rng::of_case(7, index);
    let (x, y) = middle(piece);
    let (vx, vy) = (rng.range(5, 30), rng.range(-30, 30));
    Run { position: [x - 40 * vx, y - 40 * vy, 10], velocity: [vx, vy, 0], ticks: 100 }
}

/// A run at the same height that passes it by, far away.
pub fn far_run(index: u64, piece: &Piece) -> Run {
    let mut run = near_run(index, piece);
    run.position[0] += 40 * run.velocity[1];
    run.position[1] += 4_000 - 40 * run.velocity[0];
    run
}

/// 40 pieces of 4 to 12 corners, one in eight moving.
pub fn typical_room() -> Vec<Piece> {
    (0..40)
        .map(|i| {
            let mut piece = piece_of(i, 4 + i as usize % 9);
            if i % 8 == 0 {
                piece.velocity = [3, -2, 0];
            }
            piece
        })
        .collect()
}

/// As many pieces as a room takes, with as many corners as a piece takes.
pub fn full_room() -> Vec<Piece> {
    (0..126).map(|i| piece_of(i, 64)).collect()
}

/// Runs across the room.
pub fn bake_runs(count: usize) -> Vec<Run> {
    (0..count)
        .map(|i| {
            let rng = &mut Rng::of_case(11, i as u64);
            let position = [rng.range(-3_000, 3_000), rng.range(-3_000, 3_000), rng.range(0, 500)];
            let velocity = [rng.range(-40, 40), rng.range(-40, 40), rng.range(-4, 4)];
            Run { position, velocity, ticks: rng.range(1, 200) as u32 }
        })
        .collect()
}

/// Slots of the book that bakes are timed with.
pub const SLOTS: usize = 128;

/// Questions of a bake over the typical room, one for a slot, so that a book remembers all of them.
pub fn questions(bake: u64) -> Vec<(Run, Piece)> {
    let room = typical_room();
    let mut taken = [false; SLOTS];
    let mut chosen = Vec::new();
    for (index, run) in bake_runs(1_000).into_iter().enumerate() {
        let piece = &room[(index + bake as usize) % room.len()];
        let run = Run { ticks: run.ticks + bake as u32, ..run };
        let home = second::book::home(&second::book::entry(&run, piece, 0), SLOTS);
        if !std::mem::replace(&mut taken[home], true) {
            chosen.push((run, piece.clone()));
        }
    }
    chosen
}

/// The numbers of an exported footprint of 64 corners.
pub fn exported() -> Vec<f32> {
    let rng = &mut Rng::of_case(13, 0);
    (0..128).map(|_| generators::floats::on_grid(rng)).collect()
}

#[cfg(test)]
mod tests {
    use super::*;
    use second::verdict::{verdict, CLEAR};

    #[test]
    fn near_runs_are_blocked_and_far_ones_clear() {
        for corners in [4, 12, 64] {
            for index in 0..64 {
                let piece = piece_of(index, corners);
                assert_eq!(piece.corners.len(), 2 * corners);
                assert!(verdict(&near_run(index, &piece), &piece).unwrap() < CLEAR);
                assert_eq!(verdict(&far_run(index, &piece), &piece), Ok(CLEAR));
            }
        }
    }

    #[test]
    fn a_second_bake_is_remembered_and_another_is_not() {
        let mut book = vec![0; SLOTS * 512];
        let mut bake = |of: u64, remembered: bool| {
            for (run, piece) in questions(of) {
                assert_eq!(
                    second::book::ask(&mut book, &run, &piece).map(|asked| asked.remembered),
                    Ok(remembered)
                );
            }
        };
        assert!(questions(0).len() > 120);
        bake(0, false);
        bake(0, true);
        bake(1, false);
        bake(0, false);
    }

    /// How many of 4,000 questions, 100 runs on 40 pieces, are remembered when they are asked again.
    fn remembered(books: usize, chosen: impl Fn(usize, usize) -> usize) -> usize {
        let (runs, room) = (bake_runs(100), typical_room());
        let mut shelf = vec![vec![0; SLOTS * 512]; books];
        let mut bake = || {
            let mut remembered = 0;
            for (i, run) in runs.iter().enumerate() {
                for (j, piece) in room.iter().enumerate() {
                    let asked = second::book::ask(&mut shelf[chosen(i, j)], run, piece).unwrap();
                    remembered += usize::from(asked.remembered);
                }
            }
            remembered
        };
        assert_eq!(bake(), 0);
        bake()
    }

    /// The figures of the README.
    #[test]
    fn many_questions_need_many_books() {
        assert_eq!(remembered(1, |_, _| 0), 0);
        assert_eq!(remembered(100, |run, _| run), 2_600);
        assert_eq!(remembered(400, |run, piece| (40 * run + piece) % 400), 3_840);
        assert_eq!(questions(0).len(), SLOTS);
    }

    #[test]
    fn rooms_and_bakes_are_not_refused() {
        let mut list = [0; 126];
        let images = [typical_room(), full_room()].map(|room| generators::blocks::image(&room));
        for run in bake_runs(20) {
            for image in &images {
                assert!(second::room::room_verdicts(&run, image, &mut list).is_ok());
            }
        }
        assert_eq!(second::intake::intake(&exported(), &mut [0; 128]), Ok(()));
    }
}
