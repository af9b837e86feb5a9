//! The rows and examples of the rules, and what they say of each refusal.

use second::block::*;
use second::book::{ask, entry, home, Asked};
use second::footprint::{check_piece, points};
use second::intake::{intake, take, Taken};
use second::place::{edges_above, place, Place};
use second::reach::check_run;
use second::room::{room_verdicts, Reader};
use second::shade::shade;
use second::verdict::{verdict, CLEAR};
use second::{Piece, Refusal, Run};

const Q: [i32; 8] = [0, 0, 64, 0, 64, 64, 0, 64];
const U: [i32; 16] = [0, 0, 96, 0, 96, 96, 64, 96, 64, 32, 32, 32, 32, 96, 0, 96];

fn run(position: [i32; 3], velocity: [i32; 3], ticks: u32) -> Run {
    Run { position, velocity, ticks }
}

fn piece(corners: &[i32], velocity: [i32; 3]) -> Piece {
    Piece { bottom: 0, top: 32, velocity, corners: corners.to_vec() }
}

fn still(corners: &[i32]) -> Piece {
    piece(corners, [0; 3])
}

fn refusal(number: u8, block: u16, a: u32, b: u16) -> Refusal {
    Refusal { number, block, a, b }
}

fn room(pieces: &[Piece]) -> Vec<u8> {
    let mut image = vec![0; SIZE * (1 + pieces.len())];
    write_header(pieces.len() as u32, &mut image[..SIZE]).unwrap();
    for (block, piece) in image[SIZE..].chunks_mut(SIZE).zip(pieces) {
        write_piece(piece, block).unwrap();
    }
    image
}

fn run_block(run: &Run) -> [u8; SIZE] {
    let mut block = [0; SIZE];
    write_run(run, &mut block).unwrap();
    block
}

#[test]
fn rows() {
    let q = still(&Q);
    let u = still(&U);
    let rows = [
        (run([-64, 32, 16], [16, 0, 0], 4), &q, 1024),
        (run([-64, 32, 16], [16, 0, 0], 3), &q, CLEAR),
        (run([32, 32, 16], [0, 0, 0], 0), &q, 0),
        (run([-32, 32, 16], [16, 16, 0], 8), &q, 512),
        (run([-64, 32, 16], [3, 0, 0], 22), &q, 5461),
        (run([-64, 32, 16], [3, 0, 0], 21), &q, CLEAR),
        (run([-64, 32, 40], [16, 0, -1], 16), &q, 2048),
        (run([-64, 32, 40], [17, 0, -1], 16), &q, CLEAR),
        (run([-100, 32, 16], [255, 0, 0], 1), &q, 100),
        (run([-64, 32, 16], [8, 0, 0], 8), &piece(&Q, [-8, 0, 0]), 1024),
        (run([48, 200, 16], [0, -8, 0], 21), &u, 5376),
        (run([48, 200, 16], [0, -8, 0], 20), &u, CLEAR),
        // the mark is rounded down
        (run([-64, 32, 16], [7, 0, 0], 10), &q, 2340),
        // begins inside; enters the band from above and from below, over the footprint
        (run([32, 32, 16], [1, 0, 0], 8), &q, 0),
        (run([32, 32, 48], [0, 0, -1], 20), &q, 16 * 256),
        (run([32, 32, -48], [0, 0, 3], 20), &q, 16 * 256),
        (run([32, 32, 48], [0, 0, -1], 15), &q, CLEAR),
    ];
    for (run, piece, answer) in rows {
        assert_eq!(verdict(&run, piece), Ok(answer), "{run:?} {piece:?}");
    }
}

#[test]
fn places() {
    assert_eq!(place(48, 64, &U), Ok(Place::Outside));
    assert_eq!(place(48, 16, &U), Ok(Place::Inside));
    assert_eq!(place(32, -16, &U), Ok(Place::Outside));
    assert_eq!(edges_above(&points(&U), (32, -16)), 2);
    for k in 0..8 {
        assert_eq!(place(U[2 * k], U[2 * k + 1], &U), Ok(Place::On));
    }
    assert_eq!(place(48, 32, &U), Ok(Place::On));
    assert_eq!(place(64, 50, &U), Ok(Place::On));
    assert_eq!(place(64, 97, &U), Ok(Place::Outside));
}

#[test]
fn place_refusals() {
    assert_eq!(place(16_385, 16_385, &[1]), Err(refusal(4, 0, 2, 0)));
    assert_eq!(place(0, -16_385, &[1]), Err(refusal(4, 0, 4, 0)));
    assert_eq!(place(0, 0, &[1]), Err(refusal(5, 0, 0, 0)));
    assert_eq!(place(0, 0, &[0, 0, 0, 0, 1, 16_385]), Err(refusal(4, 0, 22, 0)));
}

#[test]
fn footprint_refusals() {
    let refused = |corners: &[i32]| check_piece(&still(corners)).unwrap_err();
    assert_eq!(refused(&[0, 0, 64, 64, 64, 0, 0, 64]), refusal(8, 0, 0, 2));
    assert_eq!(refused(&[0, 0, 64, 0, 32, 0, 32, 64]), refusal(7, 0, 1, 0));
    assert_eq!(refused(&[0, 0, 0, 64, 64, 64, 64, 0]), refusal(9, 0, 0, 0));
    assert_eq!(refused(&[0, 0, 64, 0, 64, 0, 0, 64]), refusal(6, 0, 1, 0));
    assert_eq!(refused(&[0, 0, 64, 0, 0, 64, 0, 0]), refusal(6, 0, 3, 0));
    assert_eq!(refused(&[0, 0, 64, 0]), refusal(5, 0, 0, 0));
    assert_eq!(refused(&[0; 7]), refusal(5, 0, 0, 0));
    assert_eq!(refused(&[0; 130]), refusal(5, 0, 0, 0));
    // three corners on a line: the fold is at corner 0, and no edges are left to meet
    assert_eq!(refused(&[0, 0, 10, 0, 5, 0]), refusal(7, 0, 0, 0));
    // a corner in the middle of a far edge
    assert_eq!(refused(&[0, 0, 64, 0, 64, 64, 32, 0, 0, 64]), refusal(8, 0, 0, 2));
    // a corner on a straight line is no fold
    assert_eq!(check_piece(&still(&[0, 0, 32, 0, 64, 0, 64, 64, 0, 64])), Ok(()));
    assert_eq!(check_piece(&still(&Q)), Ok(()));
    assert_eq!(check_piece(&still(&U)), Ok(()));
}

#[test]
fn reach_by_rising_offset() {
    let good = run([16_384, -16_384, 0], [255, -255, 0], 4_096);
    assert_eq!(check_run(&good), Ok(()));
    for k in 0..3 {
        let mut far = good;
        far.position[k] = 16_385;
        far.velocity = [256; 3];
        assert_eq!(check_run(&far), Err(refusal(4, 0, 2 + 2 * k as u32, 0)));
        let mut fast = good;
        fast.velocity[k] = -256;
        fast.ticks = 4_097;
        assert_eq!(check_run(&fast), Err(refusal(4, 0, 8 + 2 * k as u32, 0)));
    }
    assert_eq!(check_run(&Run { ticks: 4_097, ..good }), Err(refusal(4, 0, 14, 0)));

    let band = |bottom, top| check_piece(&Piece { bottom, top, ..still(&Q) });
    assert_eq!(band(7, 7), Ok(()));
    assert_eq!(band(20_000, 0), Err(refusal(4, 0, 2, 0)));
    assert_eq!(band(1, 0), Err(refusal(4, 0, 4, 0)));
    assert_eq!(band(0, 16_385), Err(refusal(4, 0, 4, 0)));
    for k in 0..3 {
        let mut fast = still(&Q);
        fast.velocity[k] = 256;
        fast.corners[3] = -16_385;
        assert_eq!(check_piece(&fast), Err(refusal(4, 0, 6 + 2 * k as u32, 0)));
    }
    for k in 0..8 {
        let mut far = still(&Q);
        far.corners[k] = -16_385;
        assert_eq!(check_piece(&far), Err(refusal(4, 0, 12 + 2 * k as u32, 0)));
    }
    // the run comes before all of the piece, and the count before the reach
    let nothing = Piece { bottom: 20_000, ..still(&[]) };
    assert_eq!(verdict(&Run { ticks: 4_097, ..good }, &nothing), Err(refusal(4, 0, 14, 0)));
    assert_eq!(verdict(&good, &nothing), Err(refusal(5, 0, 0, 0)));
}

#[test]
fn intake_of_one() {
    let grid = |x: f32| match take(x) {
        Taken::Grid(grid) => grid,
        other => panic!("{x} is {other:?}"),
    };
    let below = |x: f32| match take(x) {
        Taken::OffGrid(floor) => floor.to_bits(),
        other => panic!("{x} is {other:?}"),
    };
    assert_eq!(grid(1024.0), 16_384);
    assert_eq!(grid(-1024.0), -16_384);
    assert_eq!(grid(0.0625), 1);
    assert_eq!(grid(-0.0), 0);
    assert_eq!(grid(-63.9375), -1_023);
    assert_eq!(below(-0.03125), (-0.0625f32).to_bits());
    assert_eq!(below(0.03125), 0);
    assert_eq!(below(f32::from_bits(1)), 0);
    assert_eq!(below(-f32::from_bits(1)), (-0.0625f32).to_bits());
    assert_eq!(below(1023.99994), 1023.9375f32.to_bits());
    assert_eq!(below(-1023.99994), (-1024.0f32).to_bits());
    assert!(matches!(take(1024.0625), Taken::OutOfReach));
    assert!(matches!(take(1024.0001), Taken::OutOfReach));
    assert!(matches!(take(-1024.0001), Taken::OutOfReach));
    assert!(matches!(take(f32::INFINITY), Taken::OutOfReach));
    assert!(matches!(take(f32::NEG_INFINITY), Taken::OutOfReach));
    assert!(matches!(take(f32::MAX), Taken::OutOfReach));
    assert!(matches!(take(f32::NAN), Taken::NotANumber));
    assert!(matches!(take(f32::from_bits(0xff80_0001)), Taken::NotANumber));
}

#[test]
fn intake_agrees_with_every_grid_number() {
    for grid in -16_384..=16_384 {
        let x = grid as f32 / 16.0;
        assert!(matches!(take(x), Taken::Grid(g) if g == grid));
        if grid < 16_384 {
            let next = f32::from_bits(if x < 0.0 { x.to_bits() - 1 } else { x.to_bits() + 1 });
            assert!(matches!(take(next), Taken::OffGrid(f) if f.to_bits() == x.to_bits()));
        }
    }
}

#[test]
fn intake_of_a_footprint() {
    let mut list = [7; 8];
    let triangle = [0.0, 0.0, 4.0, 0.0, 0.0, -0.0625];
    assert_eq!(intake(&triangle, &mut list), Ok(()));
    assert_eq!(list, [0, 0, 64, 0, 0, -1, 7, 7]);
    let refused = |numbers: &[f32], length: usize| {
        let mut list = vec![7; length];
        let refusal = intake(numbers, &mut list).unwrap_err();
        assert!(list.iter().all(|&element| element == 7));
        refusal
    };
    assert_eq!(refused(&[f32::NAN; 5], 0), refusal(5, 0, 0, 0));
    assert_eq!(refused(&[f32::NAN; 4], 8), refusal(5, 0, 0, 0));
    assert_eq!(refused(&[f32::NAN; 130], 130), refusal(5, 0, 0, 0));
    assert_eq!(refused(&[f32::NAN; 6], 5), refusal(10, 0, 0, 0));
    assert_eq!(refused(&[0.0, 0.0, 0.0, f32::NAN, 2e9, 0.1], 6), refusal(11, 0, 1, 1));
    assert_eq!(refused(&[0.0, 0.0, 0.0, 0.0, 2e9, 0.1], 6), refusal(12, 0, 2, 0));
    assert_eq!(refused(&[0.1, f32::NAN, 0.0, 0.0, 0.0, 0.0], 6), refusal(13, 0, 0, 0));
}

#[test]
fn layouts() {
    let mut header = [9; SIZE];
    assert_eq!(write_header(126, &mut header), Ok(()));
    assert_eq!(header[..7], [0x52, 0x4f, 0x4f, 0x4d, 1, 126, 0]);
    assert_eq!(read_header(&header), Ok(126));
    // 52 + 4F + 4F + 4D + 1 + 126 = 444, and 189 after taking 255 off
    assert_eq!(header[510], 189);
    assert_eq!(write_header(127, &mut [0; SIZE]), Err(refusal(3, 0, 5, 0)));
    assert_eq!(write_header(127, &mut [0; 511]), Err(refusal(1, 0, 0, 0)));

    let r = run([-64, 32, 16], [16, -1, 0], 4_096);
    let block = run_block(&r);
    assert_eq!(block[..17], [2, 0, 0xc0, 0xff, 32, 0, 16, 0, 16, 0, 0xff, 0xff, 0, 0, 0, 16, 0]);
    assert_eq!(read_run(&block), Ok(r));

    let q = piece(&Q, [-1, 2, -3]);
    let mut block = [9; SIZE];
    assert_eq!(write_piece(&q, &mut block), Ok(()));
    assert_eq!(block[..12], [1, 4, 0, 0, 32, 0, 0xff, 0xff, 2, 0, 0xfd, 0xff]);
    assert_eq!(block[12..29], [0, 0, 0, 0, 64, 0, 0, 0, 64, 0, 64, 0, 0, 0, 64, 0, 0]);
    assert_eq!(read_piece(&block), Ok(q));
}

#[test]
fn writers_refuse_and_leave_the_block() {
    let mut block = [9; SIZE];
    let late = run([0; 3], [0; 3], 4_097);
    assert_eq!(write_run(&late, &mut block[..511]), Err(refusal(1, 0, 0, 0)));
    assert_eq!(write_run(&late, &mut block), Err(refusal(4, 0, 14, 0)));
    assert_eq!(write_piece(&still(&[]), &mut block[1..]), Err(refusal(1, 0, 0, 0)));
    assert_eq!(write_piece(&still(&[]), &mut block), Err(refusal(5, 0, 0, 0)));
    assert_eq!(block, [9; SIZE]);
}

/// A block with one byte changed and its check made right again.
fn altered(block: &[u8], at: usize, byte: u8) -> Vec<u8> {
    let mut block = block.to_vec();
    block[at] = byte;
    seal(&mut block);
    block
}

#[test]
fn readers_refuse() {
    assert_eq!(read_header(&[0; 513]), Err(refusal(1, 0, 0, 0)));
    // an all-zero block has a right check
    assert_eq!(read_header(&[0; SIZE]), Err(refusal(3, 0, 0, 0)));
    assert_eq!(read_piece(&[0; SIZE]), Err(refusal(3, 0, 0, 0)));
    assert_eq!(read_run(&[0; SIZE]), Err(refusal(3, 0, 0, 0)));

    let header = &room(&[])[..];
    assert_eq!(read_header(&altered(header, 3, 0)), Err(refusal(3, 0, 3, 0)));
    assert_eq!(read_header(&altered(header, 4, 2)), Err(refusal(3, 0, 4, 0)));
    assert_eq!(read_header(&altered(header, 5, 127)), Err(refusal(3, 0, 5, 0)));
    assert_eq!(read_header(&altered(header, 509, 1)), Err(refusal(3, 0, 509, 0)));
    let mut wrong = header.to_vec();
    wrong[100] = 1;
    assert_eq!(read_header(&wrong), Err(refusal(2, 0, 0, 0)));

    let block = &run_block(&run([0; 3], [0; 3], 0))[..];
    assert_eq!(read_run(&altered(block, 1, 1)), Err(refusal(3, 0, 1, 0)));
    assert_eq!(read_run(&altered(block, 16, 1)), Err(refusal(3, 0, 16, 0)));
    assert_eq!(read_run(&altered(block, 3, 0x41)), Err(refusal(4, 0, 2, 0)));
    assert_eq!(read_run(&altered(block, 15, 17)), Err(refusal(4, 0, 14, 0)));

    let block = &room(&[still(&Q)])[SIZE..];
    assert_eq!(read_piece(&altered(block, 0, 2)), Err(refusal(3, 0, 0, 0)));
    assert_eq!(read_piece(&altered(block, 1, 2)), Err(refusal(5, 0, 0, 0)));
    assert_eq!(read_piece(&altered(block, 1, 65)), Err(refusal(5, 0, 0, 0)));
    // a smaller count leaves the last corner's bytes unnamed
    assert_eq!(read_piece(&altered(block, 1, 3)), Err(refusal(3, 0, 26, 0)));
    assert_eq!(read_piece(&altered(block, 28, 1)), Err(refusal(3, 0, 28, 0)));
    assert_eq!(read_piece(&altered(block, 5, 0x80)), Err(refusal(4, 0, 4, 0)));
    assert_eq!(read_piece(&altered(block, 13, 0x50)), Err(refusal(4, 0, 12, 0)));
}

#[test]
fn a_check_byte_of_255_is_wrong_where_0_is_right() {
    // 255 in the body leaves both sums at zero
    let mut block = [0; SIZE];
    block[20] = 255;
    assert_eq!(check_bytes(&block), [0, 0]);
    assert_eq!(read_run(&block), Err(refusal(3, 0, 0, 0)));
    block[510] = 255;
    assert_eq!(read_run(&block), Err(refusal(2, 0, 0, 0)));
}

#[test]
fn rooms() {
    let r = run([-64, 32, 16], [16, 0, 0], 8);
    let image = room(&[still(&Q), piece(&Q, [16, 0, 0])]);
    let mut list = [5; 3];
    assert_eq!(room_verdicts(&r, &image, &mut list), Ok(2));
    assert_eq!(list, [1024, CLEAR, 5]);
    let refused = |run: &Run, image: &[u8], length: usize| {
        let mut list = vec![5; length];
        let refusal = room_verdicts(run, image, &mut list).unwrap_err();
        assert!(list.iter().all(|&element| element == 5));
        refusal
    };
    assert_eq!(refused(&r, &image, 1), refusal(10, 0, 0, 0));
    assert_eq!(refused(&r, &image[..1_024], 1), refusal(1, 0, 0, 0));
    assert_eq!(refused(&r, &image[..1_023], 1), refusal(1, 0, 0, 0));
    assert_eq!(refused(&r, &[], 1), refusal(1, 0, 0, 0));
    assert_eq!(refused(&r, &[0; 65_536], 1), refusal(1, 0, 0, 0));
    assert_eq!(refused(&r, &[0; 65_024], 1), refusal(3, 0, 0, 0));
    assert_eq!(refused(&Run { ticks: 5_000, ..r }, &[], 1), refusal(4, 0, 14, 0));
    let mut damaged = image.clone();
    damaged[SIZE * 2 + 100] = 1;
    assert_eq!(refused(&r, &damaged, 0), refusal(2, 2, 0, 0));
    seal(&mut damaged[SIZE * 2..]);
    assert_eq!(refused(&r, &damaged, 0), refusal(3, 2, 100, 0));
    assert_eq!(room_verdicts(&r, &room(&[]), &mut []), Ok(0));
}

#[test]
fn the_reader_repeats_the_end_and_a_refusal() {
    let pieces = [still(&Q), still(&U), piece(&Q, [1, 2, 3])];
    let mut image = room(&pieces);
    let mut reader = Reader::new(&image);
    for piece in &pieces {
        assert_eq!(reader.step(), Ok(Some(piece.clone())));
    }
    assert_eq!(reader.step(), Ok(None));
    assert_eq!(reader.step(), Ok(None));

    image[SIZE * 2] = 7;
    seal(&mut image[SIZE * 2..SIZE * 3]);
    let mut reader = Reader::new(&image);
    assert_eq!(reader.step(), Ok(Some(pieces[0].clone())));
    assert_eq!(reader.step(), Err(refusal(3, 2, 0, 0)));
    assert_eq!(reader.step(), Err(refusal(3, 2, 0, 0)));

    let mut reader = Reader::new(&image[SIZE..]);
    assert_eq!(reader.step(), Err(refusal(3, 0, 0, 0)));
    assert_eq!(reader.step(), Err(refusal(3, 0, 0, 0)));
}

#[test]
fn the_book() {
    let r = run([-64, 32, 16], [16, 0, 0], 8);
    let q = still(&Q);
    let worked_out = Asked { verdict: 1024, remembered: false };
    let remembered = Asked { verdict: 1024, remembered: true };
    let mut book = vec![0; SIZE * 5];
    assert_eq!(ask(&mut book, &r, &q), Ok(worked_out));
    let made = entry(&r, &q, 1024);
    let slot = SIZE * home(&made, 5);
    assert_eq!(book[slot..slot + SIZE], made);
    assert_eq!(book.iter().filter(|&&byte| byte != 0).count(), made.iter().filter(|&&b| b != 0).count());
    let before = book.clone();
    assert_eq!(ask(&mut book, &r, &q), Ok(remembered));
    assert_eq!(book, before);

    // what is sound is answered as it stands; what is not is worked out anew
    let forge = |at: usize, byte: u8, answer: Asked| {
        let mut forged = before.clone();
        forged[slot + at] = byte;
        seal(&mut forged[slot..slot + SIZE]);
        assert_eq!(ask(&mut forged, &r, &q), Ok(answer), "byte {at}");
    };
    forge(284, 5, Asked { verdict: 1280, remembered: true });
    forge(284, 8, Asked { verdict: 2048, remembered: true });
    forge(285, 1, worked_out);
    forge(0, 2, worked_out);
    forge(1, 1, worked_out);
    forge(287, 1, worked_out);
    forge(509, 1, worked_out);
    forge(282, 1, worked_out);
    let mut forged = before.clone();
    forged[slot + 510] ^= 1;
    assert_eq!(ask(&mut forged, &r, &q), Ok(worked_out));
    assert_eq!(forged, before);
}

#[test]
fn two_questions_with_one_slot_and_one_sum() {
    let r = run([-64, 32, 16], [16, 0, 0], 8);
    let q = still(&Q);
    let turned = still(&[64, 0, 64, 64, 0, 64, 0, 0]);
    let (first, other) = (entry(&r, &q, 1024), entry(&r, &turned, 1024));
    assert_eq!(home(&first, usize::MAX), home(&other, usize::MAX));
    let mut book = first.to_vec();
    assert_eq!(ask(&mut book, &r, &turned), Ok(Asked { verdict: 1024, remembered: false }));
    assert_eq!(book, other);
}

#[test]
fn an_entry_is_laid_out_as_named() {
    let r = run([-64, 32, 16], [16, 0, 0], 8);
    let made = entry(&r, &still(&Q), CLEAR);
    assert_eq!(made[..2], [3, 0]);
    assert_eq!(made[2..16], run_block(&r)[2..16]);
    let image = room(&[still(&Q)]);
    assert_eq!(made[16..283], image[SIZE + 1..SIZE + 268]);
    assert_eq!(made[283..287], [255; 4]);
    assert!(made[287..510].iter().all(|&byte| byte == 0));
}

#[test]
fn the_book_refuses() {
    let late = run([0; 3], [0; 3], 4_097);
    let good = run([0; 3], [0; 3], 0);
    let bad = still(&[]);
    assert_eq!(ask(&mut [], &late, &bad), Err(refusal(1, 0, 0, 0)));
    assert_eq!(ask(&mut [0; 513], &late, &bad), Err(refusal(1, 0, 0, 0)));
    assert_eq!(ask(&mut [0; SIZE * 129], &late, &bad), Err(refusal(1, 0, 0, 0)));
    assert_eq!(ask(&mut [0; SIZE * 128], &late, &bad), Err(refusal(4, 0, 14, 0)));
    assert_eq!(ask(&mut [0; SIZE], &good, &bad), Err(refusal(5, 0, 0, 0)));
}

#[test]
fn the_printing_program() {
    let r = run([-64, 32, 16], [16, 0, 0], 8);
    let mut input = run_block(&r).to_vec();
    input.extend(room(&[still(&Q), piece(&Q, [16, 0, 0])]));
    assert_eq!(shade(&input), "pieces 2\n0 blocked 1024\n1 clear\n");

    let wrong = "refused 1 block 0 at 0 0\n";
    assert_eq!(shade(&[]), wrong);
    assert_eq!(shade(&input[..512]), wrong);
    assert_eq!(shade(&input[..1_025]), wrong);
    assert_eq!(shade(&[0; 66_048]), wrong);
    assert_eq!(shade(&input[..1_024]), wrong);
    assert_eq!(shade(&[0; 65_536]), "refused run 3\n");

    let mut damaged = input.clone();
    damaged[2] ^= 1;
    assert_eq!(shade(&damaged), "refused run 2\n");
    let mut damaged = input.clone();
    damaged[1_024 + 30] = 1;
    assert_eq!(shade(&damaged), "refused 2 block 1 at 0 0\n");
    seal(&mut damaged[1_024..1_536]);
    assert_eq!(shade(&damaged), "refused 3 block 1 at 30 0\n");

    let mut empty = run_block(&r).to_vec();
    empty.extend(room(&[]));
    assert_eq!(shade(&empty), "pieces 0\n");
}

/// Footprints from OBJ text: one test for each rule, in the order file, lines, numbers, corners, order of
/// refusals.
mod obj {
    use super::refusal;
    use second::obj::footprint;
    use second::Refusal;

    /// The `v`s of a good triangle, in lines 1 to 3. What is tried out follows them.
    const V: &str = "v 0 0 0\nv 1 0 0\nv 0 0 -1\n";
    const TRIANGLE: [i32; 6] = [0, 0, 16, 0, 0, 16];

    /// The call with this band, velocity and length of list. What is lent is 7 all through, and what
    /// is not written is looked at here; the answer is what was written.
    fn call(file: &[u8], band: [i32; 2], velocity: [i32; 3], length: usize) -> Result<Vec<i32>, Refusal> {
        let mut list = vec![7; length];
        let answer = footprint(file, band[0], band[1], velocity, &mut list);
        let written = 2 * answer.unwrap_or(0);
        assert!(list[written..].iter().all(|&element| element == 7));
        answer.map(|_| list[..written].to_vec())
    }

    fn read(file: impl AsRef<[u8]>) -> Result<Vec<i32>, Refusal> {
        call(file.as_ref(), [0, 32], [0; 3], 130)
    }

    #[track_caller]
    fn good(file: impl AsRef<[u8]>) {
        assert_eq!(read(file), Ok(TRIANGLE.to_vec()));
    }

    #[track_caller]
    fn bad(file: impl AsRef<[u8]>, number: u8, a: u32, b: u16) {
        assert_eq!(read(file), Err(refusal(number, 0, a, b)));
    }

    /// The triangle with this line before it.
    fn after(line: impl AsRef<[u8]>) -> Vec<u8> {
        [line.as_ref(), b"\n", V.as_bytes(), b"f 1 2 3\n"].concat()
    }

    /// The triangle's `v`s and these bytes after them, from line 4 on.
    fn then(rest: impl AsRef<[u8]>) -> Vec<u8> {
        [V.as_bytes(), rest.as_ref()].concat()
    }

    /// The triangle with x of its second corner as written here.
    fn with_x(number: &str) -> String {
        format!("v 0 0 0\nv {number} 0 0\nv 0 0 -1\nf 1 2 3\n")
    }

    #[test]
    fn at_most_65536_bytes() {
        let mut file = then("f 1 2 3\n#");
        file.resize(65_536, b'x');
        good(&file);
        file.push(b'x');
        bad(&file, 1, 0, 0);
        assert_eq!(call(&file, [20_000, 0], [256; 3], 0), Err(refusal(1, 0, 0, 0)));
        bad([b'x'; 65_536], 14, 1, 0);
        bad([b'x'; 65_537], 1, 0, 0);
        bad([b'\n'; 131_072], 1, 0, 0);
        bad("", 16, 0, 0);
    }

    #[test]
    fn line_numbers_pass_16_bits() {
        let fed = |feeds: usize, rest: &str| "\n".repeat(feeds) + rest;
        bad(fed(65_535, "x"), 14, 65_536, 0);
        bad(fed(65_534, "x"), 14, 65_535, 0);
        bad(fed(65_536, ""), 16, 0, 0);
        bad("f".to_string() + &fed(65_534, "f"), 16, 65_535, 0);
        bad(fed(65_533, "f 1"), 15, 65_534, 0);
        let last_corner = "v 0 0 0\nv 0.1 0 0\nf".to_string() + &" 1".repeat(32_757) + " 2";
        bad(last_corner, 13, 32_757, 0);
    }

    #[test]
    fn a_line_feed_ends_a_line_and_nothing_else_does() {
        bad("v 0 0 0\rv 1 0 0\rv 0 0 -1\rf 1 2 3\r", 14, 1, 0);
        bad("v 0 0 0\x0bv 1 0 0\n", 14, 1, 0);
        bad("v 0 0 0\x0cv 1 0 0\n", 14, 1, 0);
        good(after("# c\rf 9\x0bf 9\x0cf 9\0f 9"));
        good(after("o a\rf 9\x0bf 9\x0cf 9\0f 9"));
        good(then("f 1 2 3"));
        good(then("f 1 2 3\n\n\n"));
    }

    #[test]
    fn one_carriage_return_before_a_feed_is_ignored() {
        good("v 0 0 0\r\nv 1 0 0 \r\nv 0 0 -1\t\r\n\r\n \t\r\nf 1 2 3\r\n");
        bad(then("f 1 2 3\r"), 14, 4, 0);
        bad(then("f 1 2 3\n\r"), 14, 5, 0);
        bad(then("f 1 2 3\r\r\n"), 14, 4, 0);
        bad(then("\r\r\n"), 14, 4, 0);
        bad(then("\r \n"), 14, 4, 0);
        bad(then("f 1 2\r 3\n"), 14, 4, 0);
        bad(then("f\r 1 2 3\n"), 14, 4, 0);
        bad("v 0\r 0 0\n", 14, 1, 0);
        bad("\rv 0 0 0\n", 14, 1, 0);
        for passed_over in ["#\r", "# c\r\r", "o \r", "o \r\r x\r", "vn\r"] {
            good(after(passed_over));
        }
        good(then("f 1 2 3\n# c\r"));
        good(then("f 1 2 3\no \r"));
        // these are other words than `o` and `vn`
        bad(then("f 1 2 3\no\r"), 14, 5, 0);
        bad(after("vn\r\r"), 14, 1, 0);
    }

    #[test]
    fn a_blank_line_is_empty_or_has_spaces_and_tabs() {
        for blank in ["", " ", "\t", " \t \t\t  "] {
            good(after(blank));
        }
        for other in [&b"\x0b"[..], b"\x0c", b"\0", b" \0 ", b"\xa0", b"\xc2\xa0", b"\xe2\x80\x83", b"."] {
            bad(after(other), 14, 1, 0);
        }
    }

    #[test]
    fn a_comment_begins_with_the_first_byte() {
        for comment in [&b"#"[..], b"# x", b"#x", b"##", b"#\0\xff", b"#v 0 0 0", b"# f 9"] {
            good(after(comment));
        }
        bad(after(" # x"), 14, 1, 0);
        bad(after("\t#"), 14, 1, 0);
    }

    #[test]
    fn spaces_and_tabs_part_words_and_mean_nothing_else() {
        good("  v 0 0 0 \n\tv\t1\t0\t0\t\n \t v  \t 0 \t\t 0   -1 \t \n\t f \t 1 \t2\t 3 \t\n");
        let bytes = [&b"\0"[..], b"\x0b", b"\x0c", b"\x7f", b"\x80", b"\xff", b"\xa0", b"\xc2\xa0"];
        for byte in bytes {
            bad([b"v 0", byte, b"0 0\n"].concat(), 14, 1, 0);
            bad([b"v 0 0 0", byte, b"\n"].concat(), 14, 1, 0);
            bad([b"v 0 0 0 ", byte, b"\n"].concat(), 14, 1, 0);
            bad([byte, b"v 0 0 0\n"].concat(), 14, 1, 0);
            bad(then([b"f 1", byte, b"2 3\n"].concat()), 14, 4, 0);
            bad(then([b"f 1 2 3 ", byte].concat()), 14, 4, 0);
            bad(then([b"f", byte, b"1 2 3"].concat()), 14, 4, 0);
            bad(after([b"o", byte].concat()), 14, 1, 0);
            good(after([b"o ", byte].concat()));
            good(after([b"#", byte].concat()));
        }
        // a byte order mark
        bad([b"\xef\xbb\xbf", V.as_bytes()].concat(), 14, 1, 0);
        bad(b"\xef\xbb\xbf# c\n", 14, 1, 0);
    }

    #[test]
    fn a_line_is_passed_over_by_its_whole_first_word() {
        for word in ["o", "g", "s", "vn", "vt", "usemtl", "mtllib"] {
            good(after(word));
            good(after(format!("{word} x")));
            good(after(format!(" \t{word}\t1 2 3 # c \\")));
            good(after([word.as_bytes(), b" \0\x80\xff\r\x0b /"].concat()));
            bad(after(format!("{word}x")), 14, 1, 0);
            bad(after(word.to_uppercase()), 14, 1, 0);
        }
        for line in ["vnx", "O", "vp 1 2", "l 1 2", "p 1", "V 0 0 0", "F 1 2 3", "v1 0 0", "f1 2 3", "1 2 3"]
        {
            bad(after(line), 14, 1, 0);
        }
        bad("v 1 2 3 # c\n", 14, 1, 0);
        bad(then("f 1 2 3 # c\n"), 14, 4, 0);
        bad(then("f 1 2 \\\n3\n"), 14, 4, 0);
        good(then("# c \\\nf 1 2 3\n"));
    }

    #[test]
    fn a_number_may_have_either_sign_and_an_index_only_a_minus() {
        good("v +0 -0 +0.0\nv +1 0 -0\nv 0 +5 -1.0\nf 1 2 3\n");
        assert_eq!(read(with_x("-1")).unwrap_err(), refusal(9, 0, 0, 0));
        for number in ["-", "+", "--1", "++1", "+-1", "-+1", "1-", "- 1"] {
            bad(with_x(number), 14, 2, 0);
        }
        for corner in ["+1", "1/+1", "1//+1", "1/1/+1", "+1/1"] {
            bad(then(format!("f {corner} 2 3\n")), 14, 4, 0);
        }
    }

    #[test]
    fn one_to_nine_digits_and_perhaps_a_point_and_one_to_nine() {
        for number in ["1", "01", "000000001", "1.0", "1.000000000", "000000001.000000000", "+1.00"] {
            good(with_x(number));
        }
        let wrong = "1. .5 -.5 +1. . 0000000001 1234567890 0.0000000000 1.0123456789 1e3 1E0 1.0e0 \
                     1.2.3 1..0 1,0 0x1 1f nan inf 1/1 1_0 \u{661}";
        for number in wrong.split(' ') {
            bad(with_x(number), 14, 2, 0);
        }
        for zero in ["-0", "-0.0", "-000000000.000000000", "+0"] {
            good(format!("v {zero} 0 {zero}\nv 1 0 {zero}\nv {zero} 0 -1\nf 1 2 3"));
        }
    }

    #[test]
    fn a_v_has_three_numbers() {
        for line in ["v", "v 1", "v 1 2", "v 1 2 3 4", "v 1 2 3 1.0", "v 1 2 3 0.5 0.5 0.5"] {
            bad(after(line), 14, 1, 0);
        }
        // counted from the end, the triangle is the last three; height is ignored
        good(["v 1 2 3\n", V, "f -3 -2 -1"].concat());
    }

    #[test]
    fn a_face_has_any_number_of_corners() {
        for line in ["f", "f ", "f 1", "f 1 2"] {
            bad(then(line), 5, 0, 0);
        }
        bad("f", 5, 0, 0);
        for corners in [65, 66, 128, 256, 30_000] {
            bad(then("f".to_string() + &" 1".repeat(corners)), 5, 0, 0);
        }
        bad("f\nf\n", 16, 2, 0);
        bad(then("f\nf 1 2 3\n"), 16, 5, 0);
    }

    #[test]
    fn a_corner_has_one_of_four_forms() {
        good(then("f 1 2/3 3//4\n"));
        good(then("f 1/1/1 -2/-1 3//-4\n"));
        let wrong = "1/ 1// /1 //1 / // 1/2/ 1//2/ 1/2/3/4 1///2 - --1 1- 1.0 1/- 1//- 1/2/- 1/1.0 1/a \
                     a a/1 1/2/a 1\\2 /1/1 1e0 -/1 0x1";
        for corner in wrong.split(' ') {
            bad(then(format!("f {corner} 2 3\n")), 14, 4, 0);
            bad(then(format!("f 1 2 {corner}")), 14, 4, 0);
        }
        // a form is not parted by blanks
        bad(then("f 1 / 2 3"), 14, 4, 0);
        bad(then("f 1 2 - 3"), 14, 4, 0);
    }

    #[test]
    fn an_index_has_any_length() {
        good(then("f 01 002 0000000000000000000000003\n"));
        good(then(format!("f 1 {}2 3", "0".repeat(60_000))));
        good(then(format!("f 1 -{}2 3", "0".repeat(60_000))));
        let wrapping = "257 65537 2147483649 4294967297 9223372036854775809 18446744073709551617 \
                        340282366920938463463374607431768211457";
        // cut to 8, 16, 32 and 64 bits, these are 1 too
        let below_zero = "-255 -65535 -4294967295 -18446744073709551615";
        for index in wrapping.split(' ').chain(below_zero.split(' ')) {
            bad(then(format!("f {index} 2 3\n")), 15, 4, 0);
            bad(then(format!("f 1 2 {index}/1")), 15, 4, 0);
        }
        for digit in ["1", "9"] {
            bad(then(format!("f 1 2 {}", digit.repeat(60_000))), 15, 4, 0);
            bad(then(format!("f -{} 2 3", digit.repeat(60_000))), 15, 4, 0);
        }
        bad(then(format!("f 1 2 {}x", "1".repeat(60_000))), 14, 4, 0);
    }

    #[test]
    fn t_and_m_are_any_whole_numbers() {
        good(then("f 1/0 2/-0/-99 3//18446744073709551617\n"));
        good(then("f 1/007/000 2//-4 3/4294967297\n"));
        good(then(format!("f 1/{0} 2//-{0} 3", "9".repeat(30_000))));
    }

    #[test]
    fn zero_is_an_index_that_names_nothing() {
        for index in ["0", "-0", "000", "-000", "0/1", "-0//1", "0/0/0"] {
            bad(then(format!("f {index} 2 3\n")), 15, 4, 0);
            bad(then(format!("f 1 2 3 {index}\n")), 15, 4, 0);
        }
    }

    #[test]
    fn a_v_below_the_face_is_not_counted() {
        good(then("f 1 2 3\nv 5 5 5\nv 9 9 9\n"));
        good(then("f -3 -2 -1\nv 5 5 5\nv 9 9 9\n"));
        bad("v 0 0 0\nv 1 0 0\nf 1 2 3\nv 0 0 -1\n", 15, 3, 0);
        bad("v 0 0 0\nv 1 0 0\nf -3 1 2\nv 0 0 -1\n", 15, 3, 0);
        bad("f 1 2 3\n".to_string() + V, 15, 1, 0);
        bad("f -1\n".to_string() + V, 15, 1, 0);
        bad(then("f 1 2 4\n"), 15, 4, 0);
        bad(then("f 1 2 -4\n"), 15, 4, 0);
        bad(then("f 1 2 3\nv 5 5\n"), 14, 5, 0);
        good(then("f 1 2 3\nv 999999999 0 0.1\n"));
    }

    #[test]
    fn line_by_line_14_then_16_then_15() {
        bad(then("f 1 2 9\nx\n"), 15, 4, 0);
        bad(then("x\nf 1 2 9\n"), 14, 4, 0);
        bad(then("f 9 1/ 2\n"), 14, 4, 0);
        bad(then("f 1 2 3\nf 1 2 9\n"), 16, 5, 0);
        bad(then("f 1 2 3\nf 1/ 2 9\n"), 14, 5, 0);
        bad(then("f 1 2 9\nf 1 2 3\n"), 15, 4, 0);
        bad(then("f 1 2 3\nf 1 2 3\nx\n"), 16, 5, 0);
        bad(then("f 1 2 3\nx\nf 1 2 3\n"), 14, 5, 0);
        // all lines come before what is wrong with the corners
        bad("v 0.1 0 2000\nf 1\nx\n", 14, 3, 0);
        bad("v 0.1 0 2000\nf 1\nf\n", 16, 3, 0);
        bad("v 0.1 0 2000\nx\n", 14, 2, 0);
    }

    #[test]
    fn lines_that_are_passed_over_count() {
        let before = "# a\n\n \t\no x\r\n".to_string() + V;
        bad(before.clone() + "x", 14, 8, 0);
        bad(before.clone() + "f 9", 15, 8, 0);
        bad(before.clone() + "f 1 2 3\n#\nf", 16, 10, 0);
        bad(before, 16, 0, 0);
        bad(V, 16, 0, 0);
        bad("# f 1 2 3\n", 16, 0, 0);
    }

    #[test]
    fn corners_are_taken_before_they_are_counted() {
        let v = "v 0 0 0\nv 0.1 0 2000\nv 2000 0 0.1\nv 1024.1 0 0\nv 0 0 0.1\n".to_string();
        bad(v.clone() + "f 1 2 3", 13, 1, 0);
        bad(v.clone() + "f 1 3 2", 12, 1, 0);
        bad(v.clone() + "f 1 5 3", 13, 1, 1);
        bad(v.clone() + "f 1 1 4", 12, 2, 0);
        bad(v.clone() + "f 2", 13, 0, 0);
        bad(v.clone() + "f 1 3", 12, 1, 0);
        bad(v.clone() + "f" + &" 1".repeat(64) + " 3", 12, 64, 0);
        bad(v.clone() + "f" + &" 1".repeat(300) + " 2", 13, 300, 0);
        // and before the piece is looked at
        let refused = call((v + "f 1 1 5").as_bytes(), [20_000, 0], [256; 3], 0);
        assert_eq!(refused, Err(refusal(13, 0, 2, 1)));
    }

    #[test]
    fn the_place_is_the_corner_of_the_face() {
        let v = "v 0 0 0\nv 1 0 0\nv 0 0 -2000\nv 0 0 0.01\n".to_string();
        bad(v.clone() + "f 3 1 2", 12, 0, 1);
        bad(v.clone() + "f 1 2 -2", 12, 2, 1);
        bad(v.clone() + "\n#\nf 1 4 2", 13, 1, 1);
        // our y is minus their z
        assert_eq!(read("v 0 0 1\nv 1 0 1\nv 0 0 -2.5\nf 1 2 3"), Ok(vec![0, -16, 16, -16, 0, 40]));
    }

    #[test]
    fn only_x_and_z_of_what_the_face_names_are_held_against_reach_and_grid() {
        good("v 0 999999999 0\nv 1 -999999999.999999999 0\nv 0 0.000000001 -1\nf 1 2 3\n");
        good(then("v 999999999 0 0\nv 0 0 0.1\nv 1024.000000001 0 0\nf 1 2 3\n"));
        bad(then("v 999999999 0 0\nf 1 2 3 4\n"), 12, 3, 0);
    }

    #[test]
    fn decimals_are_read_exactly() {
        for number in ["1024.000000001", "-1024.000000001", "1024.0625", "1025", "999999999.999999999"] {
            bad(with_x(number), 12, 1, 0);
        }
        for number in ["16777217", "-999999999", "268435456", "134217728.0625", "001024.000000001"] {
            bad(with_x(number), 12, 1, 0);
        }
        for number in
            ["0.062499999", "0.062500001", "0.000000001", "-0.000000001", "0.03125", "1023.999999999"]
        {
            bad(with_x(number), 13, 1, 0);
        }
        for number in ["0.1", "-1023.999999999", "1023.937500001", "0.0624", "1.00000001", "0.33"] {
            bad(with_x(number), 13, 1, 0);
        }
        let x = |number: &str| read(with_x(number)).unwrap()[2];
        assert_eq!(x("1024"), 16_384);
        assert_eq!(x("1024.000000000"), 16_384);
        assert_eq!(x("1023.9375"), 16_383);
        assert_eq!(x("0.0625"), 1);
        assert_eq!(x("000000000.062500000"), 1);
        assert_eq!(x("63.9375"), 1_023);
        let far = "v -1024 0 1024\nv 1024.0 0 1024\nv 1024 0 -1024\nf 1 2 3";
        assert_eq!(read(far), Ok(vec![-16_384, -16_384, 16_384, -16_384, 16_384, 16_384]));
    }

    /// Every grid number within reach, in the shortest form and the longest, on both sides of zero.
    #[test]
    fn every_grid_number_is_taken() {
        for grid in 1..=16_384 {
            let (whole, part) = (grid / 16, grid % 16 * 625);
            let short = format!("{whole}.{part:04}");
            let short = short.trim_end_matches('0').trim_end_matches('.');
            assert_eq!(read(with_x(short)), Ok(vec![0, 0, grid, 0, 0, 16]), "{short}");
            let long = format!("{whole:09}.{part:04}00000");
            let file = format!("v 0 0 0\nv -{long} 0 0\nv 0 0 +{long}\nf 2 3 1");
            assert_eq!(read(file), Ok(vec![-grid, 0, 0, -grid, 0, 0]), "{long}");
        }
    }

    #[test]
    fn band_and_velocity_come_after_the_count_and_before_the_shape() {
        let clockwise = then("f 1 3 2");
        let refused = |band, velocity| call(&clockwise, band, velocity, 0);
        assert_eq!(refused([20_000, 0], [256; 3]), Err(refusal(4, 0, 2, 0)));
        assert_eq!(refused([0, 16_385], [256; 3]), Err(refusal(4, 0, 4, 0)));
        assert_eq!(refused([1, 0], [256; 3]), Err(refusal(4, 0, 4, 0)));
        assert_eq!(refused([0, 0], [256, -256, 256]), Err(refusal(4, 0, 6, 0)));
        assert_eq!(refused([0, 0], [255, -256, 256]), Err(refusal(4, 0, 8, 0)));
        assert_eq!(refused([0, 0], [255, -255, 256]), Err(refusal(4, 0, 10, 0)));
        assert_eq!(refused([0, 0], [255, -255, 255]), Err(refusal(9, 0, 0, 0)));
        assert_eq!(call(&then("f 1 2"), [20_000, 0], [256; 3], 0), Err(refusal(5, 0, 0, 0)));
        assert_eq!(call(&then("f 1 2 3"), [7, 7], [255; 3], 6), Ok(TRIANGLE.to_vec()));
    }

    /// The shape, in its order.
    #[test]
    fn the_footprint_is_checked() {
        bad(then("f 1 2 3 3"), 6, 2, 0);
        bad(then("f 1 2 3 1"), 6, 3, 0);
        bad(then("v 2 0 0\nf 1 4 2 3"), 7, 1, 0);
        bad(then("v 1 0 -1\nf 1 4 2 3"), 8, 0, 2);
        bad(then("f 1 3 2"), 9, 0, 0);
    }

    #[test]
    fn a_short_list_comes_last() {
        let triangle = then("f 1 2 3");
        for length in 0..6 {
            assert_eq!(call(&triangle, [0, 32], [0; 3], length), Err(refusal(10, 0, 0, 0)));
        }
        for length in [6, 7, 8, 1_000] {
            assert_eq!(call(&triangle, [0, 32], [0; 3], length), Ok(TRIANGLE.to_vec()));
        }
        let refused = |rest: &str| call(&then(rest), [0, 32], [0; 3], 0).unwrap_err().number;
        assert_eq!(refused("x"), 14);
        assert_eq!(refused("f 9"), 15);
        assert_eq!(refused(""), 16);
        assert_eq!(refused("v 2000 0 0\nf 4"), 12);
        assert_eq!(refused("v 0 0 0.1\nf 4"), 13);
        assert_eq!(refused("f 1 2"), 5);
        assert_eq!(refused("f 1 1 2"), 6);
        assert_eq!(refused("v 2 0 0\nf 1 4 2 3"), 7);
        assert_eq!(refused("v 1 0 -1\nf 1 4 2 3"), 8);
        assert_eq!(refused("f 1 3 2"), 9);
    }

    #[test]
    fn the_answer_is_the_corner_count() {
        let mut list = [7; 130];
        assert_eq!(footprint(&then("f 1 2 3"), 0, 32, [0; 3], &mut list), Ok(3));
        assert_eq!(footprint(&then("v 1 0 -1\nf 1 2 4 3"), 0, 32, [0; 3], &mut list), Ok(4));
        assert_eq!(list[..10], [0, 0, 16, 0, 16, 16, 0, 16, 7, 7]);
        // 32 corners to the right along the line y = 0, 32 back along y = 16
        let mut file = String::new();
        for x in 0..32 {
            file += &format!("v {x} 0 0\n");
        }
        for x in 0..32 {
            file += &format!("v {} 0 -1\n", 31 - x);
        }
        file += "f";
        for n in 1..=64 {
            file += &format!(" {n}");
        }
        assert_eq!(footprint(file.as_bytes(), 0, 32, [0; 3], &mut list), Ok(64));
        assert_eq!(list[124..], [16, 16, 0, 16, 7, 7]);
        bad(file + " 1", 5, 0, 0);
    }
}
