//! differ: compares the proved baker (where it is linked) and its plain counterpart with the second
//! implementation. The first difference of a call is told in full and ends it with status 1.

use differ::input::Call;
use differ::run::{compare, show, Cases};
use std::process::ExitCode;
use std::time::Instant;

const USAGE: &str = "\
differ [--cases N] [--seed S] [--from I] [--call NAME] [--of plain|proved] [--show]
differ --shade PROGRAM [--cases N] [--seed S] [--from I]
";

struct Wanted {
    cases: Cases,
    call: Option<Call>,
    of: Option<String>,
    shade: Option<String>,
    show: bool,
}

fn wanted() -> Option<Wanted> {
    let cases = Cases { seed: 1, from: 0, cases: 100_000 };
    let mut wanted = Wanted { cases, call: None, of: None, shade: None, show: false };
    let mut words = std::env::args().skip(1);
    while let Some(word) = words.next() {
        if word == "--show" {
            wanted.show = true;
            continue;
        }
        let value = words.next()?;
        match word.as_str() {
            "--cases" => wanted.cases.cases = value.parse().ok()?,
            "--seed" => wanted.cases.seed = value.parse().ok()?,
            "--from" => wanted.cases.from = value.parse().ok()?,
            "--call" => wanted.call = Some(Call::ALL.into_iter().find(|call| call.name() == value)?),
            "--of" => wanted.of = Some(value),
            "--shade" => wanted.shade = Some(value),
            _ => return None,
        }
    }
    Some(wanted)
}

fn main() -> ExitCode {
    let Some(wanted) = wanted() else {
        eprint!("{USAGE}");
        return ExitCode::from(2);
    };
    let agree = match &wanted.shade {
        Some(program) => shade(program, wanted.cases),
        None => calls(&wanted),
    };
    if agree {
        ExitCode::SUCCESS
    } else {
        ExitCode::FAILURE
    }
}

/// From here on every kind of answer must have come up.
const MANY: u64 = 2_000;

fn shade(program: &str, cases: Cases) -> bool {
    let began = Instant::now();
    let tally = match differ::shade::compare(program, cases) {
        Ok(tally) => tally,
        Err(difference) => {
            print!("{difference}");
            return false;
        }
    };
    let counts: Vec<_> = tally.iter().map(|(kind, count)| format!("{kind}: {count}")).collect();
    let seconds = began.elapsed().as_secs_f64();
    let tried: u64 = tally.values().sum();
    println!("shade: {tried} cases agree, {seconds:.1} s   {}", counts.join(", "));
    let mut all = true;
    for kind in differ::shade::KINDS {
        if cases.cases >= MANY && !tally.contains_key(kind) {
            println!("shade: no case answers {kind}");
            all = false;
        }
    }
    all
}

fn calls(wanted: &Wanted) -> bool {
    let chosen = |name: &str| wanted.of.as_deref().is_none_or(|of| of == name);
    let examined: Vec<_> = differ::examined().into_iter().filter(|calls| chosen(calls.name())).collect();
    if examined.is_empty() {
        eprintln!("there is no such implementation; the proved one needs BAKER_LIB when differ is built");
        return false;
    }
    if !baker::PRESENT {
        eprintln!("built without the proved library, by the feature library-optional: see BAKER_LIB");
    }
    let mut agree = true;
    for calls in &examined {
        for call in Call::ALL.into_iter().filter(|&call| wanted.call.is_none_or(|only| only == call)) {
            if wanted.show {
                print!("{}", show(call, calls.as_ref(), wanted.cases.seed, wanted.cases.from));
                continue;
            }
            let began = Instant::now();
            match compare(call, calls.as_ref(), wanted.cases) {
                Ok(tally) => {
                    let kinds: Vec<String> =
                        tally.iter().map(|(kind, count)| format!("{kind}: {count}")).collect();
                    let (name, seconds) =
                        (format!("{} {}", calls.name(), call.name()), began.elapsed().as_secs_f64());
                    println!(
                        "{name:21} {} cases agree, {seconds:.1} s   {}",
                        wanted.cases.cases,
                        kinds.join(", ")
                    );
                }
                Err(difference) => {
                    print!("{difference}");
                    agree = false;
                }
            }
        }
    }
    agree
}
