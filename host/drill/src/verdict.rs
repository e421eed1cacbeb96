//! How a run ended, held against document 01's claims.

use crate::facts::{endings, Ending};
use crate::run::Run;
use crate::words::named;

pub struct Verdict {
    /// Whether all correct ones decided by the limit, alike, and for a bit that one of them
    /// brought in.
    pub agreed: bool,
    /// The same in one line.
    pub text: String,
}

/// The numbers of those that decided so.
fn deciding(endings: &[Ending], decision: u8) -> Vec<u32> {
    let such = endings.iter().filter(|ending| ending.decision == decision);
    such.map(|ending| ending.number).collect()
}

pub fn verdict(run: &Run) -> Verdict {
    let endings = endings(run);
    let limit = run.scenario.limit();
    let [zero, one, none] = [0, 1, 2].map(|decision| deciding(&endings, decision));
    if !none.is_empty() || (!zero.is_empty() && !one.is_empty()) {
        return broken(apart(&zero, &one, &none));
    }
    let bit = endings[0].decision;
    let rounds = || endings.iter().map(|ending| ending.round);
    let (first, last) = (rounds().min().unwrap_or(0), rounds().max().unwrap_or(0));
    let when = match first == last {
        true => format!("in round {last}"),
        false => format!("in rounds {first} to {last}"),
    };
    let inputs = run.scenario.correct.iter();
    let by: Vec<u32> = inputs
        .filter(|(_, &input)| input == bit)
        .map(|(&n, _)| n)
        .collect();
    if by.is_empty() {
        return broken(format!(
            "all decided {bit} {when}, which no correct one brought in"
        ));
    }
    if last > limit {
        return broken(format!(
            "all decided {bit}, but {when}, past the limit {limit}"
        ));
    }
    Verdict {
        agreed: true,
        text: format!(
            "all decided {bit} {when} (limit {limit}), brought in by {}",
            named(&by)
        ),
    }
}

fn broken(what: String) -> Verdict {
    Verdict {
        agreed: false,
        text: format!("BROKEN: {what}"),
    }
}

/// Who decided what, where they did not all decide alike.
fn apart(zero: &[u32], one: &[u32], none: &[u32]) -> String {
    let groups = [
        (zero, "decided 0"),
        (one, "decided 1"),
        (none, "never decided"),
    ];
    let told = groups.iter().filter(|(who, _)| !who.is_empty());
    let parts: Vec<String> = told
        .map(|(who, what)| format!("{} {what}", named(who)))
        .collect();
    parts.join(", ")
}

/// What is said in front where too many are faulty; nothing if the promise holds.
pub fn warning(run: &Run) -> Option<String> {
    let (faulty, size) = (run.scenario.faulty.len(), run.scenario.size());
    let are = if faulty == 1 { "is" } else { "are" };
    let warning = format!(
        "WARNING: {faulty} of {size} {are} faulty, a third or more. \
         Nothing is promised on this line."
    );
    (!run.scenario.is_promised()).then_some(warning)
}
