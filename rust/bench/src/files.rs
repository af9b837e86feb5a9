//! OBJ files that are timed, the same each time. All are good.

use generators::footprints::rim;
use generators::Rng;

/// As long as a file can be.
const LONGEST: usize = 65_536;

/// How many `v`s an exported file of that length has.
const VERTICES: usize = 2_080;

const HEAD: &str = "# Exported by Joinery 2.4\nmtllib house.mtl\no Table\n";

/// A `v` as modelling packages write it: their x is our x, their z minus our y.
fn vertex((x, y): (i32, i32), height: i32) -> String {
    let [x, height, z] = [x, height, -y].map(|grid| grid as f64 / 16.0);
    format!("v {x:.6} {height:.6} {z:.6}\n")
}

/// The file with a comment behind it, as long as can be.
fn filled(file: String) -> Vec<u8> {
    let mut file = file.into_bytes();
    assert!(file.len() <= LONGEST);
    file.resize(LONGEST, b'#');
    file
}

/// Nearly all of it `v`s as they are exported. The corners of the face stand far apart: the first `v`,
/// the last, and others spread over all that is between, in mixed order.
pub fn exported(corners: usize) -> Vec<u8> {
    let rng = &mut Rng::of_case(17, corners as u64);
    let mut points: Vec<(i32, i32)> =
        (0..VERTICES).map(|_| (rng.range(-320, 320), rng.range(-320, 320))).collect();
    let mut face = String::from("f");
    for (k, corner) in rim(rng, corners, 20).into_iter().enumerate() {
        // Odd steps reach every place where the corners are a power of two.
        let place = 27 * k % corners * (VERTICES - 1) / (corners - 1);
        points[place] = corner;
        face += &format!(" {}/{}/1", place + 1, k + 1);
    }
    let vertices: String = points.into_iter().map(|point| vertex(point, rng.range(0, 40))).collect();
    filled(format!("{HEAD}{vertices}s 0\nusemtl Wood\n{face}\n"))
}

/// As many of the shortest `v`s as leave room for a face. The first three are a triangle.
pub fn shortest_lines() -> Vec<u8> {
    let rng = &mut Rng::of_case(18, 0);
    let mut file = String::from("v 1 2 3\nv 2 2 3\nv 1 2 2\n");
    for _ in 3..8_190 {
        let [x, y, z] = [0; 3].map(|_| rng.below(10));
        file += &format!("v {x} {y} {z}\n");
    }
    filled(file + "f 1 2 3\n")
}

/// About 1,000 bytes: a box, with the lines that are passed over, and its lid for a face.
pub fn small() -> Vec<u8> {
    let ring = [(-24, -12), (24, -12), (24, 12), (-24, 12)];
    let mut file = String::from(HEAD);
    for height in [0, 12] {
        file.extend(ring.map(|point| vertex(point, height)));
    }
    for [x, y, z] in [[1, 0, 0], [0, 1, 0], [0, 0, 1], [-1, 0, 0], [0, -1, 0], [0, 0, -1]] {
        file += &format!("vn {x}.0000 {y}.0000 {z}.0000\n");
    }
    for k in 0..24 {
        file += &format!("vt {:.6} {:.6}\n", (k % 5) as f64 / 8.0, (k / 5) as f64 / 8.0);
    }
    file += "s 0\nusemtl Wood\nf 5/1/2 6/2/2 7/3/2 8/4/2\n";
    file.into_bytes()
}

#[cfg(test)]
mod tests {
    use super::*;

    fn corners(file: &[u8]) -> usize {
        second::obj::footprint(file, 0, 400, [0; 3], &mut [0; 128]).expect("a good file")
    }

    fn vertices(file: &[u8]) -> Vec<&[u8]> {
        file.split(|&byte| byte == b'\n').filter(|line| line.starts_with(b"v ")).collect()
    }

    #[test]
    fn long_files_are_good_and_nearly_all_vertices() {
        for (file, count, named) in
            [(exported(4), VERTICES, 4), (exported(64), VERTICES, 64), (shortest_lines(), 8_190, 3)]
        {
            assert_eq!((file.len(), corners(&file)), (LONGEST, named));
            let vertices = vertices(&file);
            assert_eq!(vertices.len(), count);
            let bytes: usize = vertices.iter().map(|line| line.len() + 1).sum();
            assert!(bytes * 100 > LONGEST * 98, "{bytes} bytes");
        }
    }

    #[test]
    fn corners_stand_far_apart() {
        let file = String::from_utf8(exported(64)).unwrap();
        let face = file.lines().find_map(|line| line.strip_prefix("f ")).unwrap();
        let mut places: Vec<usize> =
            face.split(' ').map(|word| word.split('/').next().unwrap().parse().unwrap()).collect();
        assert!(places.windows(2).all(|next| next[0].abs_diff(next[1]) > VERTICES / 3));
        places.sort();
        assert_eq!((places[0], places[63]), (1, VERTICES));
        assert!(places.windows(2).all(|next| next[1] - next[0] > VERTICES / 70));
    }

    #[test]
    fn the_small_file_is_good() {
        let file = small();
        assert_eq!(corners(&file), 4);
        assert_eq!(vertices(&file).len(), 8);
        assert!((950..1_050).contains(&file.len()), "{} bytes", file.len());
    }
}
