//! OBJ files: good ones in every form that is allowed, ones with faults at every place of the grammar,
//! one at a time and together, changed ones, loose words and bytes, and ones as long as a file can be.

use crate::bodies;
use crate::footprints::FAR;
use crate::rng::Rng;
use second::Piece;

/// What the call is given, but for the list.
pub struct Given {
    pub file: Vec<u8>,
    pub bottom: i32,
    pub top: i32,
    pub velocity: [i32; 3],
    /// how many numbers the face has
    pub numbers: usize,
}

type Word = Vec<u8>;

/// A line before blanks are put between its words and an end behind it.
#[derive(Clone)]
enum Line {
    Vertex(Vec<Word>),
    Face(Vec<Word>),
    /// as it stands
    Whole(Vec<u8>),
}

/// Any file, with any band and velocity.
pub fn any(rng: &mut Rng) -> Given {
    let mut piece = match rng.below(10) {
        0 | 1 => bodies::bad_piece(rng),
        2 => bodies::any_piece(rng),
        _ => bodies::good_piece(rng),
    };
    // A face of some hundred corners is as bad as one of thousands; long files have those.
    piece.corners.truncate(400);
    let file = match rng.below(16) {
        0 => loose_words(rng),
        1 => loose_bytes(rng),
        2..=7 => faulty(rng, &mut piece),
        8 | 9 => {
            let file = written(rng, &piece.corners);
            changed(rng, file)
        }
        10 if rng.once_in(12) => long(rng, &piece.corners),
        _ => written(rng, &piece.corners),
    };
    let Piece { bottom, top, velocity, corners } = piece;
    Given { file, bottom, top, velocity, numbers: corners.len() / 2 * 2 }
}

/// A good file with these corners for its face, which may be at fault themselves.
pub fn written(rng: &mut Rng, corners: &[i32]) -> Vec<u8> {
    let lines = draft(rng, corners);
    render(rng, &lines)
}

// ---- good files ----

fn draft(rng: &mut Rng, corners: &[i32]) -> Vec<Line> {
    let (values, named) = vertices(rng, corners);
    let order = order(rng, values.len());
    let mut lines: Vec<Line> = Vec::new();
    for &stands in &order {
        lines.push(match stands {
            Some(k) => vertex(rng, values[k]),
            None => unused(rng),
        });
    }
    let form = rng.below(6);
    let face = named.iter().map(|&k| {
        let n = 1 + order.iter().position(|&stands| stands == Some(k)).expect("it is in the order");
        corner(rng, n, order.len(), form)
    });
    lines.push(Line::Face(face.collect()));
    for _ in 0..rng.below(6).saturating_sub(3) {
        lines.push(unused(rng));
    }
    for _ in 0..rng.below(8).saturating_sub(2) {
        let at = rng.below(lines.len() + 1);
        lines.insert(at, Line::Whole(passed_over(rng)));
    }
    lines
}

/// The x and y that become `v`s, and for each corner which of them it is. Equal corners share a `v` at
/// times.
fn vertices(rng: &mut Rng, corners: &[i32]) -> (Vec<[i32; 2]>, Vec<usize>) {
    let mut values: Vec<[i32; 2]> = Vec::new();
    let mut named = Vec::new();
    for pair in corners.chunks_exact(2) {
        let known = values.iter().position(|value| value == pair);
        let k = known.filter(|_| rng.once_in(2)).unwrap_or(values.len());
        if k == values.len() {
            values.push([pair[0], pair[1]]);
        }
        named.push(k);
    }
    (values, named)
}

/// In which order so many `v`s stand, at times with others between them that no corner names.
fn order(rng: &mut Rng, count: usize) -> Vec<Option<usize>> {
    let mut order: Vec<_> = (0..count).map(Some).collect();
    for _ in 0..rng.below(6).saturating_sub(3) {
        let at = rng.below(order.len() + 1);
        order.insert(at, None);
    }
    if rng.once_in(2) {
        for k in (1..order.len()).rev() {
            order.swap(k, rng.below(k + 1));
        }
    }
    order
}

/// Their x is our x, their z minus our y, and their y is anything.
fn vertex(rng: &mut Rng, [x, y]: [i32; 2]) -> Line {
    let height = if rng.once_in(2) { b"0".to_vec() } else { any_number(rng) };
    Line::Vertex(vec![grid_number(rng, x as i64), height, grid_number(rng, -(y as i64))])
}

fn unused(rng: &mut Rng) -> Line {
    Line::Vertex((0..3).map(|_| any_number(rng)).collect())
}

/// A grid number in the file's unit, in one of its many forms.
fn grid_number(rng: &mut Rng, grid: i64) -> Word {
    let size = grid.abs();
    let sign = match grid {
        ..0 => "-",
        0 => rng.pick(&["", "", "", "-", "+"]),
        _ => rng.pick(&["", "", "", "+"]),
    };
    let whole = (size / 16).to_string();
    let width = if rng.once_in(8) { rng.range(1, 9) as usize } else { 1 };
    let part = format!("{:04}", size % 16 * 625);
    let part = part.trim_end_matches('0');
    let places = if rng.once_in(4) { rng.range(1, 9) as usize } else { part.len() };
    if part.is_empty() && places == 0 {
        format!("{sign}{whole:0>width$}").into_bytes()
    } else {
        format!("{sign}{whole:0>width$}.{part:0<places$}").into_bytes()
    }
}

/// Any number that a `v` may have.
fn any_number(rng: &mut Rng) -> Word {
    let mut word = rng.pick(&["", "", "-", "+"]).as_bytes().to_vec();
    word.extend(some_digits(rng, 9));
    if rng.once_in(2) {
        word.push(b'.');
        word.extend(some_digits(rng, 9));
    }
    word
}

/// One digit or more, often as many as there can be, and often all alike.
fn some_digits(rng: &mut Rng, most: usize) -> Word {
    let count = if rng.once_in(4) { most } else { 1 + rng.below(most) };
    match rng.below(4) {
        0 => vec![b'9'; count],
        1 => vec![b'0'; count],
        _ => (0..count).map(|_| b'0' + rng.below(10) as u8).collect(),
    }
}

/// Corner n of so many, counted from the first or back from the last, in one of the four forms; forms
/// from 4 on stand for any of them.
fn corner(rng: &mut Rng, n: usize, count: usize, form: usize) -> Word {
    let mut word = Word::new();
    let mut number = n;
    if rng.once_in(3) {
        word.push(b'-');
        number = count + 1 - n;
    }
    if rng.once_in(8) {
        word.extend(vec![b'0'; rng.pick(&[1, 1, 2, 9, 20, 40])]);
    }
    word.extend(number.to_string().into_bytes());
    with_form(rng, word, form)
}

/// An index with t and m behind it.
fn with_form(rng: &mut Rng, mut word: Word, form: usize) -> Word {
    let form = if form < 4 { form } else { rng.below(4) };
    if form == 1 || form == 3 {
        word.push(b'/');
        word.extend(any_whole(rng));
    }
    if form >= 2 {
        word.extend_from_slice(if form == 2 { b"//" } else { b"/" });
        word.extend(any_whole(rng));
    }
    word
}

/// Any whole number, for t and m.
fn any_whole(rng: &mut Rng) -> Word {
    let mut word = rng.pick(&["", "", "", "-"]).as_bytes().to_vec();
    match rng.below(8) {
        0 => word.push(b'0'),
        1 => word.extend(some_digits(rng, 25)),
        _ => word.extend(rng.range(1, 99).to_string().into_bytes()),
    }
    word
}

/// A line that says nothing.
fn passed_over(rng: &mut Rng) -> Vec<u8> {
    match rng.below(4) {
        0 => blanks(rng, 0, 4),
        1 => [vec![b'#'], junk(rng)].concat(),
        _ => {
            let word = rng.pick(&["o", "g", "s", "vn", "vt", "usemtl", "mtllib"]).as_bytes().to_vec();
            let before = if rng.once_in(4) { blanks(rng, 1, 3) } else { vec![] };
            let after = if rng.once_in(4) { vec![] } else { [blanks(rng, 1, 2), junk(rng)].concat() };
            [before, word, after].concat()
        }
    }
}

/// Bytes that nobody looks at: any but a line feed.
fn junk(rng: &mut Rng) -> Vec<u8> {
    let like_lines: [&[u8]; 6] =
        [b"f 1 2 3", b"v 0 0 0\rv 1 0 0", b"\0", b"\xef\xbb\xbf", b"0.5 1 -1", b"x \\"];
    match rng.below(4) {
        0 => rng.pick(&like_lines).to_vec(),
        1 => (0..rng.below(12)).map(|_| rng.bits() as u8).filter(|&byte| byte != b'\n').collect(),
        2 => (0..rng.below(6)).map(|_| rng.pick(b"\0\r\x0b\x0c\x7f\x80\xff #")).collect(),
        _ => format!("{} {} {}", rng.range(0, 9), rng.range(-9, 9), rng.below(9)).into_bytes(),
    }
}

fn blanks(rng: &mut Rng, least: i32, most: i32) -> Vec<u8> {
    (0..rng.range(least, most)).map(|_| rng.pick(b" \t")).collect()
}

/// The bytes of a file: its lines with blanks and ends.
fn render(rng: &mut Rng, lines: &[Line]) -> Vec<u8> {
    let many_blanks = rng.once_in(3);
    let returns = rng.below(3); // none, some, all
    let mut file = Vec::new();
    for (k, line) in lines.iter().enumerate() {
        match line {
            Line::Vertex(words) => put_words(rng, &mut file, b"v", words, many_blanks),
            Line::Face(words) => put_words(rng, &mut file, b"f", words, many_blanks),
            Line::Whole(bytes) => file.extend_from_slice(bytes),
        }
        if k + 1 == lines.len() && rng.once_in(3) {
            break;
        }
        if returns == 2 || (returns == 1 && rng.once_in(2)) {
            file.push(b'\r');
        }
        file.push(b'\n');
    }
    file
}

fn put_words(rng: &mut Rng, file: &mut Vec<u8>, first: &[u8], words: &[Word], many_blanks: bool) {
    if many_blanks {
        file.extend(blanks(rng, 0, 2));
    }
    file.extend_from_slice(first);
    for word in words {
        if many_blanks {
            file.extend(blanks(rng, 1, 3));
        } else {
            file.push(b' ');
        }
        file.extend_from_slice(word);
    }
    if many_blanks {
        file.extend(blanks(rng, 0, 2));
    }
}

// ---- faults ----

/// Lines that are none of those that are read, parted by bars. A carriage return at the end of one is
/// taken off where a feed follows at once, and that may make it good.
const WRONG_LINES: &[u8] = b"x|v|v 1|v 1 2|v 1 2 3 4|v 1 2 3 1.0 0.5 0.5|v 1 2 3 # c|v 1 2 3 \\|v 1 2 3\r|\
    v 1 2 3\r\r|v 1\r 2 3|v 1\x0b2 3|v\x0c1 2 3|v 1 2 3\0|v 1 2 3 \xff|v 1 2 \xa03|v1 2 3|V 1 2 3|vv 1 2 3|\
    \xef\xbb\xbfv 1 2 3|\xef\xbb\xbf# c|\rv 1 2 3|f1|F 1 2 3|f 1 2 3 # c|f 1 2 3\r|f 1\r2 3|f 1\x0b2 3|\
    f\x001 2 3|f 1 2 3 \x80|f 1 2 3 \\|f 1 / 2|ff| # x|\t#|vnx|O x|G|VN 1 2 3|vp 1 2|l 1 2|p 1|vt2 1|\
    usemtl2|usemt x|mtllibs x|o\r|s\r\r|g\x0bx|o\0|\r|\r\r|\x0b|\0| \xc2\xa0 |/|-|1 2 3|\\";

/// Words that are no number of a `v`.
const WRONG_NUMBERS: &[u8] = b"1.|.5|-.5|+1.|.|0000000001|1234567890|0.0000000000|1.0123456789|1e3|1E0|\
    1.0e0|1.2.3|1..0|1,0|0x1|1f|nan|inf|1/1|-|+|--1|++1|+-1|-+1|1-|1+|#|1#|\xd9\xa1|-1.-1|1.+1|\0|1\0";

/// Words that are no corner of a face, whatever stands above it.
const WRONG_CORNERS: &[u8] = b"1/|1//|/1|//1|/|//|///|1/2/|1//2/|1/2/3/4|1///2|-|--1|--|1-|1.0|+1|1/+1|\
    1//+1|1/1/+1|1/-|1//-|1/2/-|-/1|1/--1|1/1.0|1/a|a|a/1|1/2/a|1\\2|1e0|0x1|1,2|#|1#|\xd9\xa1|\0|1\0|1/\xff";

const OUT_OF_REACH: &[u8] = b"1024.000000001|-1024.000000001|1024.0625|-1024.0625|1024.1|1025|-1025|2000|\
    001024.000000001|16384|16777217|134217728.0625|268435456|-268435456|999999999|-999999999.999999999";

const OFF_GRID: &[u8] = b"0.062499999|-0.062500001|0.000000001|-0.000000001|0.1|-0.03125|0.5000001|\
    1023.999999999|-1023.937500001|12.3|1.00000001|0.33|000000000.030";

/// The entries of a table.
fn entries(table: &'static [u8]) -> Vec<&'static [u8]> {
    table.split(|&byte| byte == b'|').collect()
}

fn one_of(rng: &mut Rng, table: &'static [u8]) -> Vec<u8> {
    rng.pick(&entries(table)).to_vec()
}

/// A file with one fault or more, wherever they fall, so that the order of refusals shows.
fn faulty(rng: &mut Rng, piece: &mut Piece) -> Vec<u8> {
    let mut lines = draft(rng, &piece.corners);
    for _ in 0..rng.pick(&[1, 1, 1, 1, 2, 2, 2, 3]) {
        spoil(rng, &mut lines, piece);
    }
    let mut file = render(rng, &lines);
    match rng.below(40) {
        // A carriage return may be left without its feed.
        0 | 1 => drop(file.pop()),
        2 => file = [b"\xef\xbb\xbf", &file[..]].concat(),
        _ => {}
    }
    file
}

fn spoil(rng: &mut Rng, lines: &mut Vec<Line>, piece: &mut Piece) {
    match rng.below(14) {
        0 | 1 => {
            let at = rng.below(lines.len() + 1);
            lines.insert(at, Line::Whole(one_of(rng, WRONG_LINES)));
        }
        2 => wrong_vertex(rng, lines),
        3 => wrong_corner(rng, lines),
        4 | 5 => nameless_corner(rng, lines),
        6 | 7 => second_face(rng, lines),
        8 => lines.retain(|line| !matches!(line, Line::Face(_))),
        9 | 10 => untaken_numbers(rng, lines),
        11 => other_count(rng, lines),
        12 if !lines.is_empty() => {
            // Indices then name fewer `v`s, or others.
            let (from, to) = (rng.below(lines.len()), rng.below(lines.len()));
            let line = lines.remove(from);
            lines.insert(to, line);
        }
        _ => {
            let Piece { bottom, top, velocity, .. } = bodies::bad_piece(rng);
            (piece.bottom, piece.top, piece.velocity) = (bottom, top, velocity);
        }
    }
}

/// The words of some `v`.
fn some_vertex<'a>(rng: &mut Rng, lines: &'a mut [Line]) -> Option<&'a mut Vec<Word>> {
    let vertices = lines.iter_mut().filter_map(|line| match line {
        Line::Vertex(words) => Some(words),
        _ => None,
    });
    some(rng, vertices.collect())
}

/// The words of some face, where it has any.
fn some_face<'a>(rng: &mut Rng, lines: &'a mut [Line]) -> Option<&'a mut Vec<Word>> {
    let faces = lines.iter_mut().filter_map(|line| match line {
        Line::Face(words) if !words.is_empty() => Some(words),
        _ => None,
    });
    some(rng, faces.collect())
}

fn some<T>(rng: &mut Rng, mut all: Vec<T>) -> Option<T> {
    if all.is_empty() {
        None
    } else {
        Some(all.swap_remove(rng.below(all.len())))
    }
}

fn wrong_vertex(rng: &mut Rng, lines: &mut [Line]) {
    let Some(words) = some_vertex(rng, lines) else {
        return;
    };
    if words.is_empty() || rng.once_in(6) {
        words.push(any_number(rng));
        return;
    }
    let k = rng.below(words.len());
    match rng.below(5) {
        0 => drop(words.remove(k)),
        1 => strange_byte(rng, &mut words[k]),
        _ => words[k] = one_of(rng, WRONG_NUMBERS),
    }
}

fn wrong_corner(rng: &mut Rng, lines: &mut [Line]) {
    let Some(words) = some_face(rng, lines) else {
        return;
    };
    let k = rng.below(words.len());
    match rng.below(4) {
        0 => strange_byte(rng, &mut words[k]),
        _ => words[k] = one_of(rng, WRONG_CORNERS),
    }
}

/// Puts one byte, nearly always a wrong one, somewhere into a word.
fn strange_byte(rng: &mut Rng, word: &mut Word) {
    let byte = if rng.once_in(2) { rng.bits() as u8 } else { rng.pick(b"\0\r\x0b\x0c\x80\xa0/.+-e#\\") };
    let at = rng.below(word.len() + 1);
    word.insert(at, byte);
}

/// Makes an index of a face name no `v`, or by chance one below the face.
fn nameless_corner(rng: &mut Rng, lines: &mut [Line]) {
    let count = lines.iter().filter(|line| matches!(line, Line::Vertex(_))).count();
    if let Some(words) = some_face(rng, lines) {
        let k = rng.below(words.len());
        let word = nameless(rng, count);
        words[k] = with_form(rng, word, 5);
    }
}

/// An index that names none of so many `v`s.
fn nameless(rng: &mut Rng, count: usize) -> Word {
    let n = 1 + rng.below(count.max(1)) as u128;
    let power = 1u128 << rng.pick(&[8, 16, 24, 31, 32, 33, 63, 64, 65, 127]);
    match rng.below(8) {
        0 => rng.pick(&["0", "-0", "00", "-000"]).to_string(),
        1 => (count + 1 + rng.below(3)).to_string(),
        2 => format!("-{}", count + 1 + rng.below(3)),
        // Cut to so many bits, these are n.
        3 | 4 => (power + n).to_string(),
        5 => format!("-{}", power - n),
        6 => format!("{n}{}", "0".repeat(rng.pick(&[4, 9, 10, 18, 19, 20, 38, 39]))),
        _ => format!("{}{}", rng.range(1, 9), "7".repeat(rng.below(40) + 4)),
    }
    .into_bytes()
}

fn second_face(rng: &mut Rng, lines: &mut Vec<Line>) {
    let first = lines.iter().find(|line| matches!(line, Line::Face(_))).cloned();
    let mut face = match first {
        Some(face) if !rng.once_in(3) => face,
        _ => Line::Face(vec![]),
    };
    if let Line::Face(words) = &mut face {
        match rng.below(4) {
            0 => words.push(nameless(rng, 99)),
            1 => words.push(one_of(rng, WRONG_CORNERS)),
            _ => {}
        }
    }
    let at = rng.below(lines.len() + 1);
    lines.insert(at, face);
}

/// Numbers out of reach or off the grid, mostly as x or z.
fn untaken_numbers(rng: &mut Rng, lines: &mut [Line]) {
    for _ in 0..rng.range(1, 3) {
        let word = match rng.below(3) {
            0 => one_of(rng, OUT_OF_REACH),
            1 => one_of(rng, OFF_GRID),
            _ => beside_grid(rng),
        };
        let k = rng.pick(&[0, 0, 0, 2, 2, 2, 1]);
        if let Some(number) = some_vertex(rng, lines).and_then(|words| words.get_mut(k)) {
            *number = word;
        }
    }
}

/// A number just beside one of the grid, often at an end of reach.
fn beside_grid(rng: &mut Rng) -> Word {
    let grid = if rng.once_in(3) { rng.pick(&[-FAR, FAR]) } else { rng.range(-FAR, FAR) };
    let off = rng.pick(&[1, 10, 64, 1_000, 500_000, 10_000_000, 31_250_000, 62_500_000]);
    let billionths = grid as i64 * 62_500_000 + rng.pick(&[-1, 1]) * off;
    let (size, sign) = (billionths.abs(), if billionths < 0 { "-" } else { "" });
    format!("{sign}{}.{:09}", size / 1_000_000_000, size % 1_000_000_000).into_bytes()
}

/// Another number of corners.
fn other_count(rng: &mut Rng, lines: &mut [Line]) {
    if let Some(words) = some_face(rng, lines) {
        let count = rng.pick(&[0, 1, 2, 2, 63, 64, 65, 65, 66, 128, 255, 256, 257]);
        let whole = words.clone();
        *words = whole.into_iter().cycle().take(count).collect();
    }
}

// ---- files of which less is known ----

/// A file with a few bytes or lines changed.
fn changed(rng: &mut Rng, mut file: Vec<u8>) -> Vec<u8> {
    for _ in 0..rng.pick(&[1, 1, 1, 2, 3]) {
        let byte = if rng.once_in(4) { rng.bits() as u8 } else { rng.pick(ALPHABET) };
        let at = rng.below(file.len() + 1);
        match rng.below(8) {
            0 | 1 => file.insert(at, byte),
            2 | 3 if at < file.len() => file[at] = byte,
            4 | 5 if at < file.len() => drop(file.remove(at)),
            6 if rng.once_in(3) => file.truncate(at),
            _ => file = other_lines(rng, &file),
        }
    }
    file
}

/// Two lines exchanged, or one doubled, left out, or joined with the next.
fn other_lines(rng: &mut Rng, file: &[u8]) -> Vec<u8> {
    let mut lines: Vec<Vec<u8>> = file.split(|&byte| byte == b'\n').map(<[u8]>::to_vec).collect();
    let (one, other) = (rng.below(lines.len()), rng.below(lines.len()));
    match rng.below(4) {
        0 => lines.swap(one, other),
        1 => {
            let line = lines[one].clone();
            lines.insert(other, line);
        }
        2 => drop(lines.remove(one)),
        _ if one + 1 < lines.len() => {
            let next = lines.remove(one + 1);
            lines[one].extend(next);
        }
        _ => {}
    }
    lines.join(&b'\n')
}

const ALPHABET: &[u8] = b"vf #\t\r\n0123456789./-+ognst";

fn loose_bytes(rng: &mut Rng) -> Vec<u8> {
    (0..rng.below(40)).map(|_| rng.pick(ALPHABET)).collect()
}

/// Words, lines and blanks in any order.
fn loose_words(rng: &mut Rng) -> Vec<u8> {
    const WORDS: &[u8] = b"v|f| | | |\n|\n|\r\n|\t|\r|0|1|-1|2|3|-2|0.5|+1|/|//|#|# |o |vn|s|1 2 3|0 0 0|\
        \nf|\nf |\nf 1 2 3|\nf -1/1 -3//2 -2/3/4 \r\n|\nv 0 0 0\n|\nv 1 0 0\n|\nv 0 0 -1\n|\
        \nv 0 0 0\nv 1 0 0\nv 1 0 -1\n";
    (0..rng.below(14)).flat_map(|_| one_of(rng, WORDS)).collect()
}

// ---- long files ----

const LONGEST: usize = 65_536;

/// A file about as long as one can be, or longer.
fn long(rng: &mut Rng, corners: &[i32]) -> Vec<u8> {
    let mut file = match rng.below(6) {
        0 => feeds(rng),
        1 => long_face(rng),
        2 => long_index(rng),
        3 => many_vertices(rng),
        _ => padded(rng, corners),
    };
    let length = match rng.below(8) {
        0 => LONGEST + rng.pick(&[1, 2, 700, LONGEST, LONGEST + 9]),
        1 | 2 => LONGEST - rng.below(2),
        _ => file.len(),
    };
    file.resize(length, b'\n');
    file
}

/// Feeds, with something in the last lines.
fn feeds(rng: &mut Rng) -> Vec<u8> {
    let last = rng.pick(&["x", "f", "f 1", "\r", " ", "v 0 0 0\nf 1", "f\nf", "#", "f\nx"]);
    let first = rng.pick(&["", "", "", "v 0 0 0\nv 1 0 0\nv 0 0 -1\n", "f\n", "# c\n"]);
    let room = LONGEST - first.len() - last.len() - rng.pick(&[0, 0, 0, 1, 2]);
    (first.to_string() + &"\n".repeat(room) + last).into_bytes()
}

/// Tens of thousands of corners, of which the last may not be taken.
fn long_face(rng: &mut Rng) -> Vec<u8> {
    let vertices = "v 0 0 0\nv 0.1 0 0\nv 0 0 1025\n";
    let last = rng.pick(&[" 1", " 2", " 3", " 4", " -4", " 1/", " 0"]);
    let corners = rng.pick(&[300, 16_383, 16_384, 32_700, 32_750]);
    (vertices.to_string() + "f" + &" 1".repeat(corners) + last).into_bytes()
}

/// An index of tens of thousands of digits.
fn long_index(rng: &mut Rng) -> Vec<u8> {
    let (sign, digit) = (rng.pick(&["", "-"]), rng.pick(&["0", "0", "1", "9"]));
    let digits = digit.repeat(rng.pick(&[300, 4_096, 60_000, 65_400]));
    let end = rng.pick(&["2", "2", "0", "2/1", "2//", "x"]);
    format!("v 0 0 0\nv 1 0 0\nv 0 0 -1\nf 1 {sign}{digits}{end} 3").into_bytes()
}

/// Thousands of `v`s and a face that names the last of them, or one that is not there.
fn many_vertices(rng: &mut Rng) -> Vec<u8> {
    let before = rng.pick(&[252, 253, 1_000, 4_093, 8_000, 8_180]);
    let mut file = "v 0 0 0\n".repeat(before) + "v 0 0 0\nv 1 0 0\nv 0 0 -1\nf";
    let count = before + 3;
    for n in [count - 2, count - 1, count + rng.pick(&[0, 0, 0, 1])] {
        let back = format!(" -{}", count as i64 + 1 - n as i64);
        file += &if rng.once_in(2) { back } else { format!(" {n}") };
    }
    (file + "\n").into_bytes()
}

/// A good file with a comment, blanks or lines that are passed over before it or behind it.
fn padded(rng: &mut Rng, corners: &[i32]) -> Vec<u8> {
    let file = written(rng, corners);
    let wanted = LONGEST + rng.pick(&[0, 1]) - rng.pick(&[0, 0, 0, 1, 100]);
    let room = wanted - file.len() - 3;
    let filling: Vec<u8> = match rng.below(4) {
        0 => vec![b'\n'; room],
        1 => vec![b' '; room],
        2 => {
            let again = [junk(rng), vec![b'x']].concat().into_iter().cycle();
            [b'#'].into_iter().chain(again).take(room).collect()
        }
        _ => "o x\n".bytes().cycle().take(room).collect(),
    };
    let parts = if rng.once_in(2) { [filling, file] } else { [file, filling] };
    let mut file = parts.join(&b'\n');
    file.resize(wanted, b'\n');
    file
}

#[cfg(test)]
mod tests {
    use super::*;
    use second::obj::footprint;

    /// The refusal's number and place a, for a face of no interest.
    fn refused(file: &[u8]) -> (u8, u32) {
        let refusal = footprint(file, 0, 0, [0; 3], &mut []).expect_err("a file that is refused");
        (refusal.number, refusal.a)
    }

    #[test]
    fn good_files_are_good() {
        for index in 0..30_000 {
            let rng = &mut Rng::of_case(3, index);
            let corners = crate::footprints::good(rng);
            let file = written(rng, &corners);
            let mut list = vec![0; corners.len()];
            let answer = footprint(&file, 0, 0, [0; 3], &mut list);
            assert_eq!(answer, Ok(corners.len() / 2), "seed 3 index {index}: {}", file.escape_ascii());
            assert_eq!(list, corners, "seed 3 index {index}: {}", file.escape_ascii());
        }
    }

    #[test]
    fn the_tables_are_wrong_as_they_say() {
        for line in entries(WRONG_LINES) {
            assert_eq!(refused(&[line, b"\r\nf"].concat()), (14, 1), "{}", line.escape_ascii());
        }
        for word in entries(WRONG_NUMBERS) {
            for [before, after] in [["v ", " 0 0"], ["v 0 ", " 0"], ["v 0 0 ", ""]] {
                let file = [before.as_bytes(), word, after.as_bytes()].concat();
                assert_eq!(refused(&file), (14, 1), "{}", file.escape_ascii());
            }
        }
        for word in entries(WRONG_CORNERS) {
            assert_eq!(refused(&[b"v 0 0 0\nf 1 ", word].concat()), (14, 2), "{}", word.escape_ascii());
        }
        for (table, number) in [(OUT_OF_REACH, 12), (OFF_GRID, 13)] {
            for word in entries(table) {
                let file = [b"v 0 0 0\nv 0 0 ", word, b"\nf 1 -1"].concat();
                assert_eq!(refused(&file), (number, 1), "{}", file.escape_ascii());
            }
        }
    }

    #[test]
    fn nameless_indices_name_nothing() {
        for index in 0..10_000 {
            let word = nameless(&mut Rng::of_case(4, index), 3);
            let file = [b"v 0 0 0\nv 0 0 0\nv 0 0 0\nf ", &word[..], b"\nv 0 0 0"].concat();
            assert_eq!(refused(&file), (15, 4), "{}", file.escape_ascii());
        }
    }
}
