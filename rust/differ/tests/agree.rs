//! Every implementation that is there agrees with the second one, on many cases of each call, and
//! the cases bring out every kind of answer.

use differ::input::Call;
use differ::run::{compare, Cases};

const CASES: Cases = Cases { seed: 20_260, from: 0, cases: 100_000 };

fn agrees(call: Call) {
    for calls in differ::examined() {
        let tally = compare(call, calls.as_ref(), CASES).unwrap_or_else(|difference| panic!("{difference}"));
        for kind in call.answers() {
            assert!(
                tally.get(kind).is_some_and(|&count| count >= 20),
                "{}: few {kind}: {tally:?}",
                call.name()
            );
        }
        for kind in tally.keys() {
            assert!(call.answers().contains(kind), "{}: {kind}", call.name());
        }
    }
}

macro_rules! agree {
    ($($test:ident: $call:ident,)*) => {
        $(#[test]
        fn $test() {
            agrees(Call::$call);
        })*
    };
}

agree! {
    check_run: CheckRun,
    check_piece: CheckPiece,
    place: Place,
    verdict: Verdict,
    write_header: WriteHeader,
    read_header: ReadHeader,
    write_run: WriteRun,
    read_run: ReadRun,
    write_piece: WritePiece,
    read_piece: ReadPiece,
    room_piece: RoomPiece,
    room_verdicts: RoomVerdicts,
    ask: Ask,
    take: Take,
    intake: Intake,
    obj: Obj,
}
