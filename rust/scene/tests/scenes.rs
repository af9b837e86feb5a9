//! The example scenes, the way there and back, bad texts, pieces from OBJ files, and what is shown.
//! All of it stands on the proved library: without it (see `baker::PRESENT`) only bad texts are tested.

use generators::{blocks, bodies, Rng};
use scene::{decode, list, Fault, Shown};
use second::shade::shade;
use std::fs;
use std::path::{Path, PathBuf};

fn examples() -> PathBuf {
    Path::new(env!("CARGO_MANIFEST_DIR")).join("../../examples")
}

fn example(name: &str) -> String {
    let path = examples().join(name);
    fs::read_to_string(&path).unwrap_or_else(|error| panic!("{}: {error}", path.display()))
}

/// A text that names no OBJ file: it needs no folder.
fn encode(text: impl AsRef<[u8]>) -> Result<Vec<u8>, Fault> {
    scene::encode(text.as_ref(), Path::new("nowhere"))
}

/// The text of bytes of which nothing is refused.
fn decoded(bytes: &[u8]) -> String {
    let Shown { text, refused } = decode(bytes).unwrap();
    assert_eq!(refused, Vec::<String>::new());
    text
}

const RUN: &str = "run 0 0 0 0 0 0 0\n";

#[test]
fn examples_print_what_stands_beside_them() {
    if !baker::PRESENT {
        return;
    }
    for name in ["room", "parlour", "corner-sofa"] {
        let (text, expected) = (example(&format!("{name}.scene")), example(&format!("{name}.expected")));
        let bytes = scene::encode(text.as_bytes(), &examples()).unwrap();
        assert_eq!(shade(&bytes), expected, "{name}");
    }
    assert_eq!(example("room.expected"), "pieces 2\n0 blocked 1024\n1 clear\n");
}

#[test]
fn there_and_back() {
    if !baker::PRESENT {
        return;
    }
    for index in 0..500 {
        let rng = &mut Rng::of_case(3, index);
        let mut bytes = vec![0; 512];
        second::block::write_run(&bodies::good_run(rng), &mut bytes).unwrap();
        bytes.extend(blocks::image(&blocks::pieces(rng)));
        assert_eq!(encode(decoded(&bytes)), Ok(bytes), "index {index}");
    }
}

#[test]
fn one_line_or_many() {
    if !baker::PRESENT {
        return;
    }
    let many = "run 1 2 3  4 5 6  7\r\npiece 0 9 0 0 0\n0 0\n9 0 # here\n\n 9 9\n";
    let one = "piece 0 9 0 0 0 0 0 9 0 9 9\nrun 1 2 3 4 5 6 7";
    assert_eq!(encode(many), encode(one));
    assert_eq!(
        decoded(&encode(one).unwrap()),
        "run 1 2 3  4 5 6  7\n\npiece 0 9  0 0 0\n  0 0\n  9 0\n  9 9\n"
    );
}

#[test]
fn bad_texts_name_their_line() {
    let fault = |text: &[u8], line: usize, why: &str| {
        let fault = Fault { line, why: why.to_string(), refused: false };
        assert_eq!(encode(text), Err(fault), "{:?}", String::from_utf8_lossy(text));
    };
    fault(b"", 1, "the scene has no run");
    fault(b"\n# nothing\n", 2, "the scene has no run");
    fault(b"run 1 2 3\n", 1, "a run has 7 numbers, not 3");
    fault(b"run 0 0 0 0 0 0 x\n", 1, "`x` is no whole number");
    fault(b"run 0 0 0 0 0 0 1.5\n", 1, "`1.5` is no whole number");
    fault(b"run 0 0 99999999999 0 0 0 0\n", 1, "`99999999999` is too large: no number is above 16384");
    fault(b"\nrun 0 0 -2147483649 0 0 0 0\n", 2, "`-2147483649` is too small: no number is below -16384");
    fault(b"\xef\xbb\xbfrun 0 0 0 0 0 0 0\n", 1, "a byte order mark stands here: save the text without one");
    fault(b"# a\n# caf\xe9\nx\n", 2, "this is no UTF-8 text from byte 6 of the line on");
    fault(b"\xff\xfer\0u\0n\0\n\0", 1, "this is no UTF-8 text from byte 1 of the line on");
    let run = |text: &str| format!("{RUN}{text}").into_bytes();
    fault(&run(RUN), 2, "a second run; the first is in line 1");
    fault(&run("1 2\n"), 2, "a corner before the first piece");
    fault(&run("table 1 2\n"), 2, "`table` begins no line: `run`, `piece` or a corner does");
    fault(&run("piece 1 2 3 4\n"), 2, "a piece has 5 numbers before its corners, not 4");
    fault(&run("piece 1 2 0 0 0\n0 0 1\n"), 3, "a corner has x and y, and here is an odd number of them");
    let full = "piece 0 1 0 0 0 0 0 1 0 0 1\n".repeat(127);
    fault(&run(&full), 128, "a room has at most 126 pieces");
}

#[test]
fn refused_texts_name_their_line_and_number() {
    if !baker::PRESENT {
        return;
    }
    let refused = |text: &str, line: usize, why: &str| {
        let fault = Fault { line, why: why.to_string(), refused: true };
        assert_eq!(encode(text), Err(fault), "{text:?}");
    };
    let run = |text: &str, line: usize, why: &str| refused(text, line, &format!("the run is refused: {why}"));
    run("run 0 0 0 0 0 0 5000\n", 1, "ticks 5000 is out of reach, 0 to 4096 (4 at 14 0)");
    run("run 0 0 0 0 0 0 -1\n", 1, "ticks -1 is out of reach, 0 to 4096 (4 at 14 0)");
    run("\nrun 0 16385 0 0 0 0 -1\n", 2, "y 16385 is out of reach, -16384 to 16384 (4 at 4 0)");
    run("run 0 0 0 0 0 -256 0\n", 1, "vz -256 is out of reach, -255 to 255 (4 at 12 0)");

    let piece = |text: &str, line: usize, why: &str| {
        refused(&format!("{RUN}piece {text}"), line, &format!("piece 0 is refused: {why}"));
    };
    let corners = "0 0 1 0 0 1";
    let reach = "is out of reach, -16384 to 16384";
    piece(&format!("-16385 1 0 0 0 {corners}"), 2, &format!("bottom -16385 {reach} (4 at 2 0)"));
    piece(&format!("0 20000 0 0 0 {corners}"), 2, &format!("top 20000 {reach} (4 at 4 0)"));
    piece(&format!("2 1 0 0 0 {corners}"), 2, "top 1 is below bottom 2 (4 at 4 0)");
    piece(&format!("0 1 0 256 0 {corners}"), 2, "vy 256 is out of reach, -255 to 255 (4 at 8 0)");
    piece("0 1 0 0 0\n0 0\n1 0\n0 99999\n", 5, &format!("y 99999 of corner 2 {reach} (4 at 22 0)"));
    piece("1 2 0 0 0\n0 0\n1 0\n", 2, "the corners are not 3 to 64, or their list is odd (5 at 0 0)");
    piece("0 1 0 0 0\n0 0 9 0\n9 0\n0 1", 3, "corner 1 equals the next (6 at 1 0)");
    piece("0 1 0 0 0\n0 0\n64 0\n32 0\n32 64\n", 4, "the edges fold at corner 1 (7 at 1 0)");
    piece("0 1 0 0 0\n0 0\n64 64\n64 0\n0 64\n", 3, "edges 0 and 2 meet (8 at 0 2)");
    piece("0 1 0 0 0 0 0 0 1 1 1\n", 2, "the corners run clockwise (9 at 0 0)");
}

#[test]
fn refused_bytes_are_shown() {
    if !baker::PRESENT {
        return;
    }
    let length = "the input is refused: a run and a room have 2 to 128 blocks of 512 bytes (1 at 0 0)";
    for bytes in [0, 512, 1_025, 66_048] {
        assert_eq!(decode(&vec![0; bytes]), Err(length.to_string()));
    }
    let room =
        |bytes: &[u8], why: &str| assert_eq!(decode(bytes), Err(format!("the room is refused: {why}")));
    let kind = "byte 0 is wrong: kind, name, edition, piece count, or unnamed and not zero";
    room(&[0; 1_024], &format!("{kind} (3 at 0 0)"));

    let bytes = encode(example("room.scene")).unwrap();
    // the last block is missing, or there twice
    room(&bytes[..bytes.len() - 512], "its header counts 2 pieces, and it has 1 (1 at 0 0)");
    let last = &bytes[bytes.len() - 512..];
    room(&[&bytes, last].concat(), "its header counts 2 pieces, and it has 3 (1 at 0 0)");
    let shown = |bytes: &[u8], why: &str, text: &str| {
        let shown = Shown { text: text.to_string(), refused: vec![why.to_string()] };
        assert_eq!(decode(bytes), Ok(shown));
        // what is shown is no scene: nothing gets lost on the way back
        assert!(encode(text).is_err());
    };
    let (run, corners) = ("run -64 32 16  16 0 0  8\n", "  0 0\n  64 0\n  64 64\n  0 64\n");
    let second = format!("\npiece 0 32  16 0 0\n{corners}");

    let mut spoiled = bytes.clone();
    spoiled[1_100] ^= 1;
    let why = "piece 0 is refused: the check of a block is wrong (2 at 0 0)";
    shown(&spoiled, why, &format!("{run}\n# {why}\npiece\n{second}"));

    // a top of 20000, and the check made right
    let mut spoiled = bytes.clone();
    spoiled[1_028..1_030].copy_from_slice(&20_000i16.to_le_bytes());
    second::block::seal(&mut spoiled[1_024..1_536]);
    let why = "piece 0 is refused: top 20000 is out of reach, -16384 to 16384 (4 at 4 0)";
    shown(&spoiled, why, &format!("{run}\n# {why}\npiece 0 20000  0 0 0\n{corners}{second}"));

    let mut spoiled = bytes.clone();
    spoiled[14..16].copy_from_slice(&40_000u16.to_le_bytes());
    second::block::seal(&mut spoiled[..512]);
    let why = "the run is refused: ticks 40000 is out of reach, 0 to 4096 (4 at 14 0)";
    let text = format!("# {why}\nrun -64 32 16  16 0 0  40000\n\npiece 0 32  0 0 0\n{corners}{second}");
    shown(&spoiled, why, &text);
}

/// Whatever the bytes, what is told of them is the referee's refusal.
#[test]
fn damaged_rooms_are_told_as_by_the_second_implementation() {
    if !baker::PRESENT {
        return;
    }
    for index in 0..2_000 {
        let rng = &mut Rng::of_case(4, index);
        let mut bytes = vec![0; 512];
        second::block::write_run(&bodies::good_run(rng), &mut bytes).unwrap();
        bytes.extend(blocks::image(&blocks::pieces(rng)));
        let blocks = bytes.len() as u64 / 512;
        let block = (index % blocks) as usize * 512;
        blocks::damage(rng, &mut bytes[block..block + 512], index);
        let told = match decode(&bytes) {
            Err(why) => vec![why],
            Ok(shown) => shown.refused,
        };
        let run = second::block::read_run(&bytes[..512]).err();
        let room = second::room::room_pieces(&bytes[512..]).err();
        let expected: Vec<_> = [run, room].into_iter().flatten().collect();
        assert_eq!(told.len(), expected.len(), "index {index}");
        for (told, refusal) in told.iter().zip(&expected) {
            let places = format!("({} at {} {})", refusal.number, refusal.a, refusal.b);
            assert!(told.ends_with(&places), "index {index}: {told}");
        }
    }
}

#[test]
fn pieces_are_listed() {
    if !baker::PRESENT {
        return;
    }
    let listed = |text: &str| list(text.as_bytes(), &examples());
    let expected = "\
        0: line 6, 4 corners, x 0 to 70, y 0 to 60, height 0 to 40, area 4200\n\
        1: line 13, 6 corners, x -120 to 120, y -104 to 96, height 0 to 90, area 28519, from corner-sofa.obj\n\
        2: line 16, 6 corners, x -120 to 120, y -104 to 96, height 0 to 90, area 28519, moves -2 0 0, \
        from corner-sofa.obj\n";
    let shown = Shown { text: expected.to_string(), refused: Vec::new() };
    assert_eq!(listed(&example("corner-sofa.scene")), Ok(shown));

    // no run is needed, and a piece that is refused is listed with the others
    let text = "piece 0 1 0 0 0\n-1 0 4 0 4 1\npiece 0 0 0 0 0 0 0 0 1 1 1\npiece 0 0 0 0 0\n\
        piece 0 1 0 0 0\n0 0 1 0\n1 0 0 1\n";
    let corners = "the corners are not 3 to 64, or their list is odd (5 at 0 0)";
    let expected = format!(
        "0: line 1, 3 corners, x -1 to 4, y 0 to 1, height 0 to 1, area 2.5\n\
         1: line 3, 3 corners, x 0 to 1, y 0 to 1, height 0 to 0, area -0.5; \
         refused: the corners run clockwise (9 at 0 0)\n\
         2: line 4, 0 corners, x -, y -, height 0 to 0, area 0; refused: {corners}\n\
         3: line 5, 4 corners, x 0 to 1, y 0 to 1, height 0 to 1, area 0.5; \
         refused: corner 1 equals the next (6 at 1 0)\n"
    );
    let refused = vec![
        "line 3: piece 1 is refused: the corners run clockwise (9 at 0 0)".to_string(),
        format!("line 4: piece 2 is refused: {corners}"),
        // the corner's own line, as in encoding
        "line 6: piece 3 is refused: corner 1 equals the next (6 at 1 0)".to_string(),
    ];
    assert_eq!(listed(text), Ok(Shown { text: expected, refused }));
    let fault = Fault { line: 1, why: "`x` is no whole number".to_string(), refused: false };
    assert_eq!(listed("piece x"), Err(fault));
}

/// A new folder for the OBJ files of one test, taken away at its end.
struct Folder(PathBuf);

impl Folder {
    fn new(test: &str) -> Self {
        let path = std::env::temp_dir().join(format!("scene-{test}-{}", std::process::id()));
        fs::create_dir_all(path.join("inner")).unwrap();
        Folder(path)
    }

    fn write(&self, name: &str, text: impl AsRef<[u8]>) {
        fs::write(self.0.join(name), text).unwrap();
    }

    fn encode(&self, text: &str) -> Result<Vec<u8>, Fault> {
        scene::encode(text.as_bytes(), &self.0)
    }
}

impl Drop for Folder {
    fn drop(&mut self) {
        let _ = fs::remove_dir_all(&self.0);
    }
}

/// (0, 0) (64, 0) (64, 8) in grid units.
const TRIANGLE: &str = "v 0 9 0\nv 4.0 9 0\nv 4 9 -0.5\n";

#[test]
fn corners_from_an_obj_file() {
    if !baker::PRESENT {
        return;
    }
    let folder = Folder::new("corners");
    folder.write("a.obj", format!("{TRIANGLE}f 1 2 3\n"));
    folder.write("obj", format!("{TRIANGLE}f 1 2 3"));
    folder.write("inner/b.obj", format!("o b\n{TRIANGLE}f -3 -2/1 -1//1\n").replace('\n', "\r\n"));
    let listed = encode(format!("{RUN}piece 0 9 1 2 3\n0 0 64 0 64 8\npiece 0 1 0 0 0 0 0 1 0 0 1\n"));
    assert!(listed.is_ok());
    let absolute = folder.0.join("a.obj").display().to_string();
    for file in ["a.obj", "./a.obj", "inner/b.obj", "inner/../a.obj", "obj", "a.obj#b.obj c", &absolute] {
        let text = format!("{RUN}piece 0 9 1 2 3 obj {file}\npiece 0 1 0 0 0\n0 0 1 0 0 1\n");
        assert_eq!(folder.encode(&text), listed, "{file}");
    }
}

#[test]
fn bad_lines_with_an_obj_file() {
    if !baker::PRESENT {
        return;
    }
    let folder = Folder::new("lines");
    folder.write("a.obj", format!("{TRIANGLE}f 1 2 3\n"));
    let fault = |text: &str, line: usize, why: &str| {
        let fault = Fault { line, why: why.to_string(), refused: false };
        assert_eq!(folder.encode(&format!("{RUN}{text}")), Err(fault), "{text:?}");
    };
    let good = "piece 0 9 0 0 0 obj a.obj\n";
    fault(&format!("{good}\n 1 2\n"), 4, "the corners of this piece are in a.obj");
    fault("piece 0 9 0 0 0 obj\n", 2, "one word follows `obj`, a file's name, and here are 0");
    fault("piece 0 9 0 0 0 obj a.obj 1 2\n", 2, "one word follows `obj`, a file's name, and here are 3");
    fault("piece 0 9 0 0 obj a.obj\n", 2, "a piece has 5 numbers before its corners, not 4");
    fault("piece 0 9 0 0 0 0 0 obj a.obj\n", 2, "a piece has 5 numbers before `obj`, not 7");
    fault("piece 0 9 0 0 0 a.obj\n", 2, "`a.obj` is no whole number");
    fault("piece 0 9 0 0 0 obj b.obj\n", 2, "b.obj: No such file or directory (os error 2)");
    fault("piece 0 9 0 0 0 obj inner\n", 2, "inner: Is a directory (os error 21)");
    fault(&good.repeat(127), 128, "a room has at most 126 pieces");
}

#[test]
fn refused_obj_files_are_told() {
    if !baker::PRESENT {
        return;
    }
    let folder = Folder::new("refused");
    let refused = |file: &str, why: &str| {
        folder.write("a.obj", file);
        let text = format!("{RUN}\npiece 0 9 0 0 0 obj a.obj\n");
        let fault = Fault { line: 3, why: format!("a.obj: {why}"), refused: true };
        assert_eq!(folder.encode(&text), Err(fault), "{why}");
    };
    let face = |face: &str| format!("{TRIANGLE}{face}\n");
    let long = "a file has at most 65536 bytes (1 at 0 0)";
    refused(&"#".repeat(65_537), long);
    refused(&"#".repeat(200_000), long);
    refused(&"#".repeat(65_536), "the file has no face (16 at 0 0)");
    let line = "this is no good `v` or `f` line, and none that is passed over";
    refused("# a\n\nv 0 0\n", &format!("line 3: {line} (14 at 3 0)"));
    refused(&format!("{}x", "\n".repeat(65_535)), &format!("line 65536: {line} (14 at 65536 0)"));
    refused(&face("f 1 2 4"), "line 4: an index names no `v` above the face (15 at 4 0)");
    refused(&face("f 1 2 3\n\nf 1 2 3"), "line 6: a second face (16 at 6 0)");
    let reach = "is out of reach, below -1024 or above 1024";
    refused("v 0 0 0\nv 1024.1 0 0\nf 1 2", &format!("x of corner 1 {reach} (12 at 1 0)"));
    refused("v 0 0 0\nv 0 0 2000\nf 1 2", &format!("y (minus z) of corner 1 {reach} (12 at 1 1)"));
    let grid = "is off the grid, no whole number of sixteenths";
    refused("v 0.05 0 0\nf 1", &format!("x of corner 0 {grid} (13 at 0 0)"));
    refused("v 0 0 0.05\nf 1", &format!("y (minus z) of corner 0 {grid} (13 at 0 1)"));
    refused(&face("f 1 2"), "the corners are not 3 to 64, or their list is odd (5 at 0 0)");
    refused(&face("f 1 2 3 3"), "corner 2 equals the next (6 at 2 0)");
    refused(&face("v 2 9 0\nf 1 2 4 3"), "the edges fold at corner 1 (7 at 1 0)");
    let crossed = "v 0 0 0\nv 4 0 -4\nv 4 0 0\nv 0 0 -4\nf 1 2 3 4\n";
    refused(crossed, "edges 0 and 2 meet (8 at 0 2)");
    refused(&face("f 3 2 1"), "the corners run clockwise (9 at 0 0)");

    // band and velocity do not stand in the file
    folder.write("a.obj", face("f 1 2 3"));
    let text = format!("{RUN}piece 0 1 0 0 0 0 0 1 0 0 1\npiece 0 9 0 256 0 obj a.obj\n");
    let why = "piece 1 is refused: vy 256 is out of reach, -255 to 255 (4 at 8 0)";
    assert_eq!(folder.encode(&text), Err(Fault { line: 3, why: why.to_string(), refused: true }));
}
