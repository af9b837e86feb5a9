//! bench: one table of speeds, the proved baker (where BAKER_LIB was given) beside the plain
//! counterpart. Each figure is the best of several repeats; the ratio is how many times as long the
//! proved one takes.

mod files;
mod scenes;

use differ::{Baker, Calls, Plain};
use scenes::{bake_runs, exported, far_run, full_room, near_run, piece_of, questions, typical_room, SLOTS};
use second::{Piece, Run};
use std::hint::black_box;
use std::time::Instant;

/// What is timed; it says how many units it did.
type Work = Box<dyn Fn(&dyn Calls) -> usize>;

/// One line of the table.
struct Row {
    name: String,
    unit: &'static str,
    work: Work,
}

fn row(name: impl Into<String>, unit: &'static str, work: impl Fn(&dyn Calls) -> usize + 'static) -> Row {
    Row { name: name.into(), unit, work: Box::new(work) }
}

fn main() {
    println!("{:42} {:>10} {:>10} {:>7}", "", "proved", "plain", "ratio");
    let mut timed: Vec<&dyn Calls> = vec![&Plain];
    if baker::PRESENT {
        timed.push(&Baker);
    }
    for row in rows() {
        let rates = rates(&row, &timed);
        let plain = rates[0];
        let proved = rates.get(1).map_or("-".to_string(), |&proved| figure(proved));
        let ratio = rates.get(1).map_or("-".to_string(), |&proved| format!("{:.2}", plain / proved));
        println!("{:42} {proved:>10} {:>10} {ratio:>7}  {} a second", row.name, figure(plain), row.unit);
    }
    if !baker::PRESENT {
        println!("\nBuilt without the proved library, by the feature library-optional: see BAKER_LIB.");
    }
}

/// Units a second of each: the best of five repeats of at least 60 milliseconds, taken in turn.
fn rates(row: &Row, timed: &[&dyn Calls]) -> Vec<f64> {
    let mut best = vec![0f64; timed.len()];
    for _ in 0..5 {
        for (best, calls) in best.iter_mut().zip(timed) {
            let began = Instant::now();
            let mut done = 0;
            while began.elapsed().as_millis() < 60 {
                done += (row.work)(*calls);
            }
            *best = best.max(done as f64 / began.elapsed().as_secs_f64());
        }
    }
    best
}

fn figure(rate: f64) -> String {
    match rate {
        r if r >= 1e6 => format!("{:.2} M", r / 1e6),
        r if r >= 1e3 => format!("{:.1} k", r / 1e3),
        r => format!("{r:.1}"),
    }
}

fn rows() -> Vec<Row> {
    let mut rows = Vec::new();
    for corners in [4, 12, 64] {
        for (word, run) in [("near", near_run as fn(u64, &Piece) -> Run), ("far", far_run)] {
            let questions: Vec<(Run, Piece)> = (0..64)
                .map(|i| {
                    let piece = piece_of(i, corners);
                    (run(i, &piece), piece)
                })
                .collect();
            let name = format!("verdict, {corners} corners, {word}");
            rows.push(row(name, "verdicts", move |calls| verdicts(calls, &questions)));
        }
    }
    for corners in [4, 12, 64] {
        let pieces: Vec<Piece> = (0..64).map(|i| piece_of(i, corners)).collect();
        rows.push(row(format!("check of a footprint, {corners} corners"), "checks", move |calls| {
            for piece in &pieces {
                black_box(calls.check_piece(black_box(piece)));
            }
            pieces.len()
        }));
    }
    for (name, image) in [
        ("room verdicts, 40 pieces of 4 to 12", generators::blocks::image(&typical_room())),
        ("room verdicts, 126 pieces of 64", generators::blocks::image(&full_room())),
    ] {
        let runs = bake_runs(16);
        rows.push(row(name, "rooms", move |calls| rooms(calls, &runs, &image)));
    }
    rows.extend(bakes());
    let corners = exported();
    rows.push(row("intake, 64 corners", "numbers", move |calls| {
        let mut list = [0; 128];
        black_box(calls.intake(black_box(&corners), &mut list));
        black_box(&list);
        corners.len()
    }));
    rows.extend(objs());
    rows
}

/// OBJ files by their bytes, and small ones by their number.
fn objs() -> Vec<Row> {
    let mut rows = Vec::new();
    for (name, file) in [
        ("obj of 64 KB, v as exported, 4 corners", files::exported(4)),
        ("obj of 64 KB, v as exported, 64 corners", files::exported(64)),
        ("obj of 64 KB, the shortest v", files::shortest_lines()),
    ] {
        rows.push(row(name, "bytes", move |calls| {
            obj(calls, &file);
            file.len()
        }));
    }
    let file = files::small();
    rows.push(row("obj of 1 KB as exported, 4 corners", "files", move |calls| {
        (0..64).for_each(|_| obj(calls, &file));
        64
    }));
    rows
}

/// A bake of 10,000 runs over the typical room, by each of the ways there are.
fn bakes() -> Vec<Row> {
    let fresh = bake_runs(10_000);
    let (same, by_verdict) = (fresh.clone(), fresh.clone());
    let image = generators::blocks::image(&typical_room());
    vec![
        row("bake of 10,000 runs, by room verdicts", "runs", move |calls| rooms(calls, &fresh, &image)),
        row("bake of 10,000 runs, by single verdicts", "runs", move |calls| {
            let room = typical_room();
            for run in &by_verdict {
                for piece in &room {
                    black_box(calls.verdict(black_box(run), piece));
                }
            }
            by_verdict.len()
        }),
        row("bake of 10,000 runs, book, all new", "runs", move |calls| asks(calls, &same)),
        bake_again("a first bake through the book", &[0, 1]),
        bake_again("a second bake through the book", &[0, 0]),
    ]
}

/// The bakes in turn over one book: a bake finds all its questions remembered where it comes twice, and none where
/// another came between, since both fill the same slots.
fn bake_again(name: &'static str, bakes: &[u64]) -> Row {
    let bakes: Vec<_> = bakes.iter().map(|&bake| questions(bake)).collect();
    row(name, "asks", move |calls| {
        let mut book = vec![0; SLOTS * 512];
        let mut asks = 0;
        for (run, piece) in bakes.iter().cycle().take(200).flatten() {
            black_box(calls.ask(&mut book, black_box(run), piece));
            asks += 1;
        }
        asks
    })
}

fn verdicts(calls: &dyn Calls, questions: &[(Run, Piece)]) -> usize {
    for (run, piece) in questions {
        black_box(calls.verdict(black_box(run), black_box(piece)));
    }
    questions.len()
}

fn rooms(calls: &dyn Calls, runs: &[Run], image: &[u8]) -> usize {
    let mut list = [0; 126];
    for run in runs {
        black_box(calls.room_verdicts(black_box(run), image, &mut list));
        black_box(&list);
    }
    runs.len()
}

fn obj(calls: &dyn Calls, file: &[u8]) {
    let mut list = [0; 128];
    black_box(calls.obj(black_box(file), 0, 400, [0; 3], &mut list));
    black_box(&list);
}

/// Every run asked against every piece of the typical room, with a book of 128 slots.
fn asks(calls: &dyn Calls, runs: &[Run]) -> usize {
    let room = typical_room();
    let mut book = vec![0; SLOTS * 512];
    for run in runs {
        for piece in &room {
            black_box(calls.ask(&mut book, black_box(run), piece));
        }
    }
    runs.len()
}
