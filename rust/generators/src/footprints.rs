//! Footprints: good ones of many shapes, and ones spoilt for each refusal.

use crate::rng::Rng;

pub const FAR: i32 = 16_384;

type Corner = (i32, i32);
type Ring = Vec<Corner>;

/// The corners as the calls take them: x, y, x, y and so on.
pub fn flat(ring: &[Corner]) -> Vec<i32> {
    ring.iter().flat_map(|&(x, y)| [x, y]).collect()
}

/// A good footprint, of any shape and 3 to 64 corners; small counts are the more frequent.
pub fn good(rng: &mut Rng) -> Vec<i32> {
    let most = rng.pick(&[4, 4, 5, 6, 8, 8, 12, 16, 24, 64]);
    let corners = rng.range(3, most) as usize;
    flat(&good_ring(rng, corners))
}

/// A good footprint of about this many corners (3 to 64, some shapes need one more or less).
fn good_ring(rng: &mut Rng, corners: usize) -> Ring {
    let ring = match rng.below(8) {
        0 => block(rng),
        1 => star(rng, corners),
        2 => saw(rng, corners),
        3 => comb(rng, corners),
        4 => spiral(rng, corners),
        5 => needle(rng),
        6 => corner_of_the_map(rng),
        _ => {
            let far = rng.pick(&[20, 400, 1_600]);
            rim(rng, corners, far)
        }
    };
    let ring = placed(rng, ring);
    straight_corners(rng, ring, corners)
}

/// A box, at times a very flat one.
fn block(rng: &mut Rng) -> Ring {
    let size = rng.pick(&[1, 2, 5, 64, 1_000, FAR]);
    let (w, h) = (rng.range(1, size), rng.range(1, size));
    vec![(0, 0), (w, 0), (w, h), (0, h)]
}

/// Corners sorted round the middle, each in a direction of its own, the middle inside.
fn star(rng: &mut Rng, corners: usize) -> Ring {
    let far = rng.pick(&[1, 4, 40, 400]) * corners as i32;
    let far = far.clamp(10, FAR);
    loop {
        let mut ring: Ring = (0..corners).map(|_| (rng.range(-far, far), rng.range(-far, far))).collect();
        ring.retain(|&c| c != (0, 0));
        ring.sort_by(|&p, &q| half(p).cmp(&half(q)).then(0.cmp(&cross(p, q))));
        ring.dedup_by(|q, p| half(*p) == half(*q) && cross(*p, *q) == 0);
        let n = ring.len();
        if n >= 3 && (0..n).all(|i| cross(ring[i], ring[(i + 1) % n]) > 0) {
            return ring;
        }
    }
}

/// 0 for directions from right round to left, 1 for the others.
fn half(p: Corner) -> u8 {
    (p.1 < 0 || (p.1 == 0 && p.0 < 0)) as u8
}

fn cross(p: Corner, q: Corner) -> i64 {
    p.0 as i64 * q.1 as i64 - p.1 as i64 * q.0 as i64
}

/// Jagged above and below a line from left to right.
fn saw(rng: &mut Rng, corners: usize) -> Ring {
    let lower = rng.below(corners - 2) + 1;
    let upper = corners - 1 - lower;
    let high = rng.pick(&[1, 1, 3, 50, 1_000]);
    let step = rng.pick(&[1, 2, 7, 200]);
    let mut x = 0;
    let mut below: Ring = Vec::new();
    for _ in 0..lower {
        below.push((x, rng.range(-high, -1)));
        x += rng.range(1, step);
    }
    let mut right = x;
    let mut above: Ring = Vec::new();
    x = 0;
    for _ in 0..upper {
        above.push((x, rng.range(1, high)));
        x += rng.range(1, step);
    }
    right = right.max(x);
    below.push((right, 0));
    below.extend(above.into_iter().rev());
    below
}

/// Teeth with upright sides on a straight back.
fn comb(rng: &mut Rng, corners: usize) -> Ring {
    let teeth = ((corners.max(4) - 2) / 4).max(1) as i32;
    let wide = rng.pick(&[1, 2, 9, 100]);
    let high = rng.pick(&[2, 3, 40, 3_000]);
    let mut upper: Ring = Vec::new();
    let mut x = 0;
    for tooth in 0..teeth {
        let top = rng.range(2, high);
        upper.push((x, top));
        x += rng.range(1, wide);
        upper.push((x, top));
        if tooth + 1 < teeth {
            upper.push((x, 1));
            x += rng.range(1, wide);
            upper.push((x, 1));
        }
    }
    let mut ring = vec![(0, 0), (x, 0)];
    ring.extend(upper.into_iter().rev());
    ring
}

/// A corridor that winds outward in a square spiral.
fn spiral(rng: &mut Rng, corners: usize) -> Ring {
    let arms = (corners / 2).max(2) - 1;
    let half = rng.pick(&[1, 1, 2, 10, 100]);
    let pitch = 2 * half + rng.pick(&[1, 1, 2, 30, 250]);
    let ways = [(1, 0), (0, 1), (-1, 0), (0, -1)];
    let left = |way: Corner| (-way.1, way.0);
    let (mut right_side, mut left_side) = (Vec::new(), Vec::new());
    let mut at = (0, 0);
    for arm in 0..=arms {
        // The sides turn where the way in and the way out do; at the two ends there is only one.
        let normals =
            [(arm > 0).then(|| left(ways[(arm + 3) % 4])), (arm < arms).then(|| left(ways[arm % 4]))];
        let (mut dx, mut dy) = (0, 0);
        for normal in normals.into_iter().flatten() {
            dx += half * normal.0;
            dy += half * normal.1;
        }
        right_side.push((at.0 - dx, at.1 - dy));
        left_side.push((at.0 + dx, at.1 + dy));
        let length = pitch * (arm as i32 / 2 + 1);
        at = (at.0 + length * ways[arm % 4].0, at.1 + length * ways[arm % 4].1);
    }
    right_side.extend(left_side.into_iter().rev());
    right_side
}

/// A long triangle as thin as whole numbers allow, or nearly.
fn needle(rng: &mut Rng) -> Ring {
    let far = rng.pick(&[10, 1_000, 2 * FAR - 1]);
    loop {
        let tip = (rng.range(0, far), rng.range(-far, far).clamp(-FAR, FAR));
        let near = if rng.once_in(2) { tip } else { (tip.0 / 2, tip.1 / 2) };
        let third = (near.0 + rng.range(-1, 1), near.1 + rng.range(-1, 1));
        match cross(tip, third) {
            1.. => return vec![(0, 0), tip, third],
            0 => continue,
            _ => return vec![(0, 0), third, tip],
        }
    }
}

/// Corners at the ends of what is within reach.
fn corner_of_the_map(rng: &mut Rng) -> Ring {
    let mut ring = vec![(-FAR, -FAR), (FAR, -FAR), (FAR, FAR), (-FAR, FAR)];
    match rng.below(4) {
        0 => {
            ring.remove(rng.below(4));
        }
        1 => {
            // a thin notch from one side nearly to the other
            let x = rng.range(-FAR + 1, FAR - 1);
            ring.insert(3, (x, rng.range(-FAR + 1, -FAR + 3)));
        }
        2 => {
            let (x, y) = (rng.range(-FAR, FAR), rng.range(-FAR, FAR));
            ring[2] = (FAR, y.max(-FAR + 1));
            ring[3] = (x.min(FAR - 1), FAR);
        }
        _ => {}
    }
    ring
}

/// Corners all round a square, each at its own distance: nearly all edges short.
pub fn rim(rng: &mut Rng, corners: usize, far: i32) -> Ring {
    (0..corners)
        .map(|i| {
            let (x, y) = on_square(far, 8 * far * i as i32 / corners as i32);
            let size = rng.range(5, 9);
            (size * x, size * y)
        })
        .collect()
}

/// The point that is this far along the outline of a square, counterclockwise.
fn on_square(half: i32, along: i32) -> Corner {
    let off = along % (2 * half) - half;
    match along / (2 * half) {
        0 => (half, off),
        1 => (-off, half),
        2 => (-half, -off),
        _ => (off, -half),
    }
}

/// Turned, mirrored, sheared or stretched, then moved somewhere within reach, and begun at any
/// corner. All of that keeps a good footprint good.
fn placed(rng: &mut Rng, mut ring: Ring) -> Ring {
    if !rng.once_in(3) {
        mapped(rng, &mut ring);
    }
    let (lowest, highest) = extent(&ring);
    let near = rng.once_in(2);
    let mut shift = |low: i32, high: i32| {
        let (least, most) = (-FAR - low, FAR - high);
        if near {
            rng.range(-20, 20).clamp(least, most)
        } else {
            match rng.below(4) {
                0 => least,
                1 => most,
                _ => rng.range(least, most),
            }
        }
    };
    let (dx, dy) = (shift(lowest.0, highest.0), shift(lowest.1, highest.1));
    for corner in &mut ring {
        *corner = (corner.0 + dx, corner.1 + dy);
    }
    let first = rng.below(ring.len());
    ring.rotate_left(first);
    ring
}

fn extent(ring: &[Corner]) -> (Corner, Corner) {
    let xs = || ring.iter().map(|c| c.0);
    let ys = || ring.iter().map(|c| c.1);
    ((xs().min().unwrap(), ys().min().unwrap()), (xs().max().unwrap(), ys().max().unwrap()))
}

/// By a whole matrix, where the result is not too wide to be moved within reach.
fn mapped(rng: &mut Rng, ring: &mut Ring) {
    let (lowest, highest) = extent(ring);
    let size = (highest.0 - lowest.0).max(highest.1 - lowest.1).max(1);
    let most = rng.pick(&[1, 2, 3, FAR]).min(2 * FAR / size).max(1);
    let mut entry = || rng.range(-most, most) as i64;
    let (a, b, c, d) = (entry(), entry(), entry(), entry());
    let det = a * d - b * c;
    let map = |p: Corner| (a * p.0 as i64 + b * p.1 as i64, c * p.0 as i64 + d * p.1 as i64);
    let all: Vec<(i64, i64)> = ring.iter().map(|&p| map(p)).collect();
    let wide = |values: &dyn Fn(&(i64, i64)) -> i64| {
        let least = all.iter().map(values).min().unwrap();
        let most = all.iter().map(values).max().unwrap();
        // Also keep the coordinates themselves within i32 before the move.
        most - least > 2 * FAR as i64 || least < -(1 << 28) || most > 1 << 28
    };
    if det == 0 || wide(&|p| p.0) || wide(&|p| p.1) {
        return;
    }
    *ring = all.into_iter().map(|p| (p.0 as i32, p.1 as i32)).collect();
    if det < 0 {
        ring.reverse();
    }
}

/// Sets corners into the edges, at points where they leave them straight, up to a count.
fn straight_corners(rng: &mut Rng, mut ring: Ring, corners: usize) -> Ring {
    for _ in 0..corners {
        if ring.len() >= corners {
            break;
        }
        let i = rng.below(ring.len());
        let (p, q) = (ring[i], ring[(i + 1) % ring.len()]);
        if let Some(point) = inner_point(rng, p, q) {
            ring.insert(i + 1, point);
        }
    }
    ring
}

/// A whole point of an edge that is none of its ends.
pub fn inner_point(rng: &mut Rng, p: Corner, q: Corner) -> Option<Corner> {
    let steps = gcd((q.0 - p.0).abs(), (q.1 - p.1).abs());
    if steps < 2 {
        return None;
    }
    let k = rng.range(1, steps - 1);
    Some((p.0 + (q.0 - p.0) / steps * k, p.1 + (q.1 - p.1) / steps * k))
}

fn gcd(a: i32, b: i32) -> i32 {
    if b == 0 {
        a
    } else {
        gcd(b, a % b)
    }
}

/// Corners on a small grid in any order: folds, meetings and equal corners of all kinds, and some
/// good ones.
pub fn scribble(rng: &mut Rng) -> Vec<i32> {
    let corners = rng.range(3, 7);
    let side = rng.range(2, 6);
    (0..2 * corners).map(|_| rng.range(0, side)).collect()
}

/// A footprint that is spoilt for one refusal, chosen from all; a few stay good by chance.
pub fn bad(rng: &mut Rng) -> Vec<i32> {
    let mut list = good(rng);
    let n = list.len() / 2;
    let corner = rng.below(n);
    let next = (corner + 1) % n;
    match rng.below(7) {
        0 => spoil_count(rng, &mut list),
        1 => {
            let k = rng.below(list.len());
            list[k] = beyond(rng, FAR);
        }
        2 => {
            list[2 * next] = list[2 * corner];
            list[2 * next + 1] = list[2 * corner + 1];
        }
        3 => fold(rng, &mut list, corner),
        4 => meet(rng, &mut list, corner),
        5 => clockwise(&mut list),
        _ => list = scribble(rng),
    }
    if rng.once_in(8) {
        // a second fault, so that the order of checking shows
        let k = rng.below(list.len().max(1));
        if let Some(number) = list.get_mut(k) {
            *number = beyond(rng, FAR);
        }
    }
    list
}

/// A number beyond a limit, often just beyond.
pub fn beyond(rng: &mut Rng, limit: i32) -> i32 {
    let size = rng.pick(&[limit + 1, limit + 2, 32_767, 32_768, 65_536, 65_537, i32::MAX]);
    let beyond = if rng.once_in(20) { i32::MIN } else { rng.pick(&[-1, 1]) * size };
    if rng.once_in(4) {
        rng.pick(&[limit + 1, -limit - 1])
    } else {
        beyond
    }
}

fn spoil_count(rng: &mut Rng, list: &mut Vec<i32>) {
    match rng.below(4) {
        0 => list.truncate(rng.below(6)),
        1 => {
            list.pop();
        }
        2 => list.push(0),
        _ => {
            let longer = rng.pick(&[129, 130, 131, 132, 200, 510, 512, 65_542]);
            while list.len() < longer {
                list.extend_from_within(..(longer - list.len()).min(list.len()));
            }
        }
    }
}

/// Sets in a corner behind this one that lies on the edge before it, or on its line.
fn fold(rng: &mut Rng, list: &mut Vec<i32>, corner: usize) {
    let n = list.len() / 2;
    let at = |i: usize| (list[2 * i], list[2 * i + 1]);
    let (before, here) = (at((corner + n - 1) % n), at(corner));
    let back = inner_point(rng, before, here).unwrap_or(before);
    if n < 64 && rng.once_in(2) {
        list.splice(2 * corner + 2..2 * corner + 2, [back.0, back.1]);
    } else {
        let next = (corner + 1) % n;
        list[2 * next] = back.0;
        list[2 * next + 1] = back.1;
    }
}

/// Makes two edges meet: by a corner moved onto an edge or another corner, or two exchanged.
fn meet(rng: &mut Rng, list: &mut [i32], corner: usize) {
    let n = list.len() / 2;
    let other = rng.below(n);
    let at = |i: usize| (list[2 * i], list[2 * i + 1]);
    let to = match rng.below(3) {
        0 => at(other),
        1 => {
            let (p, q) = (at(other), at((other + 1) % n));
            inner_point(rng, p, q).unwrap_or(p)
        }
        _ => {
            list.swap(2 * corner, 2 * other);
            list.swap(2 * corner + 1, 2 * other + 1);
            return;
        }
    };
    list[2 * corner] = to.0;
    list[2 * corner + 1] = to.1;
}

fn clockwise(list: &mut [i32]) {
    list.reverse();
    for pair in list.chunks_exact_mut(2) {
        pair.swap(0, 1);
    }
}

#[cfg(test)]
mod tests {
    use super::*;
    use second::footprint::check_footprint;

    #[test]
    fn good_footprints_are_good() {
        let mut counts = [0; 65];
        for index in 0..30_000 {
            let mut rng = Rng::of_case(1, index);
            let list = good(&mut rng);
            assert_eq!(check_footprint(&list), Ok(()), "seed 1 index {index}: {list:?}");
            counts[list.len() / 2] += 1;
        }
        assert!(counts[3..].iter().all(|&count| count > 0), "{counts:?}");
    }

    #[test]
    fn bad_footprints_meet_every_refusal() {
        let mut numbers = [0; 10];
        for index in 0..10_000 {
            if let Err(refusal) = check_footprint(&bad(&mut Rng::of_case(2, index))) {
                numbers[refusal.number as usize] += 1;
            }
        }
        assert!(numbers[4..].iter().all(|&count| count > 200), "{numbers:?}");
    }
}
