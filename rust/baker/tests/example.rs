//! The example prints what the one in C does: twice over one file of books, the second time all
//! remembered.

#[path = "../examples/bake.rs"]
mod bake;

#[test]
fn bake_twice() {
    if !baker::PRESENT {
        return;
    }
    let file = std::env::temp_dir().join(format!("baker-books-{}", std::process::id()));
    let mut out = Vec::new();
    let done = bake::run(&file, &mut out).and_then(|()| bake::run(&file, &mut out));
    let _ = std::fs::remove_file(&file);
    done.unwrap();
    let due = concat!(env!("CARGO_MANIFEST_DIR"), "/../../examples/bake.expected");
    assert_eq!(String::from_utf8(out).unwrap(), std::fs::read_to_string(due).unwrap());
}
