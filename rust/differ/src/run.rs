//! Runs the cases of a call and stops at the first difference.

use crate::calls::{Calls, Second};
use crate::code;
use crate::input::{hex, Call, Input, Outcome};
use std::collections::BTreeMap;
use std::panic::{catch_unwind, AssertUnwindSafe};

/// Which cases: `cases` of them, the first with index `from`.
#[derive(Clone, Copy, Debug)]
pub struct Cases {
    pub seed: u64,
    pub from: u64,
    pub cases: u64,
}

/// How often each kind of answer came.
pub type Tally = BTreeMap<&'static str, u64>;

/// Compares an implementation with the second one, and tells the first difference in full.
pub fn compare(call: Call, examined: &dyn Calls, cases: Cases) -> Result<Tally, String> {
    let mut tally = Tally::new();
    for index in cases.from..cases.from + cases.cases {
        let kind = catch_unwind(AssertUnwindSafe(|| one(call, examined, cases.seed, index)))
            .unwrap_or_else(|_| Err(format!("{}panic\n", heading(call, examined, cases.seed, index))))?;
        *tally.entry(kind).or_default() += 1;
    }
    Ok(tally)
}

fn one(call: Call, examined: &dyn Calls, seed: u64, index: u64) -> Result<&'static str, String> {
    let input = Input::of_case(call, seed, index);
    let right = input.perform(&Second);
    let got = input.perform(examined);
    if got == right {
        return Ok(call.kind(right.answer));
    }
    Err(heading(call, examined, seed, index) + &told(&input, &Second, &right, examined, &got))
}

fn heading(call: Call, examined: &dyn Calls, seed: u64, index: u64) -> String {
    let (call, of) = (call.name(), examined.name());
    format!("{of} {call}: differ --of {of} --call {call} --seed {seed} --from {index} --cases 1\n")
}

fn told(input: &Input, first: &dyn Calls, right: &Outcome, examined: &dyn Calls, got: &Outcome) -> String {
    let mut text = input.to_string();
    for (calls, outcome) in [(first, right), (examined, got)] {
        text += &format!("{} answers {}\n", calls.name(), code::text(outcome.answer));
    }
    if let Some(at) = (0..right.lent.len()).find(|&at| right.lent[at] != got.lent[at]) {
        text += &format!("what was lent differs at byte {at}\n");
        for (calls, outcome) in [(first, right), (examined, got)] {
            text += &format!("{} leaves {}\n", calls.name(), hex(&outcome.lent));
        }
    }
    text
}

/// One case in full, whether there is a difference or not.
pub fn show(call: Call, examined: &dyn Calls, seed: u64, index: u64) -> String {
    let input = Input::of_case(call, seed, index);
    let (right, got) = (input.perform(&Second), input.perform(examined));
    heading(call, examined, seed, index) + &told(&input, &Second, &right, examined, &got)
}
