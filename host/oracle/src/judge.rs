//! The whole answer to a build, from the original wherever it can give it.

use crate::plan::{prospect, Plan, Prospect};
use crate::{assemble, deep, origins};
use area::Area;
use report::{Outcome, Panic, Report, Request, Spans};
use treefile::File;

/// The answer of document 01.
#[derive(Clone, Debug, PartialEq, Eq)]
pub enum Answer {
    /// The number of the refusal.
    Refused(u32),
    /// The used part of the area.
    Area(Vec<u8>),
    /// The original cannot decide, for this reason.
    Unknown(String),
}

/// An answer and how it came about.
#[derive(Clone, Debug)]
pub struct Judged {
    /// Where the original's walk for time-dependence does not end, that alone is decided by reaching.
    pub answer: Answer,
    /// Whether the original's walk for time-dependence does not end.
    pub endless: bool,
    /// The original's outcome with the ordered map, where it was run.
    pub outcome: Option<Outcome>,
    /// What the area holds, also where it is too short.
    pub area: Option<Area>,
}

impl Judged {
    fn refused(number: u32, outcome: Option<Outcome>) -> Judged {
        Judged {
            answer: Answer::Refused(number),
            endless: false,
            outcome,
            area: None,
        }
    }
}

/// The answer for a file, a root name and an area of `room` bytes. Panics where a cross-check fails.
pub fn answer(bytes: &[u8], root: &[u8], room: usize) -> Answer {
    let judged = judged(bytes, root, room);
    if judged.endless && judged.area.is_some() {
        return Answer::Unknown("the walk for time-dependence does not end".to_string());
    }
    judged.answer
}

/// The same, but where the original does not end, reaching decides which states are time-dependent, as document 01 says.
pub fn answer_by_reaching(bytes: &[u8], root: &[u8], room: usize) -> Answer {
    judged(bytes, root, room).answer
}

fn judged(bytes: &[u8], root: &[u8], room: usize) -> Judged {
    judge(bytes, root, room)
        .unwrap_or_else(|disagreement| panic!("cross-check failed: {disagreement}"))
}

/// The answer and how it came about, or the cross-check that failed.
pub fn judge(bytes: &[u8], root: &[u8], room: usize) -> Result<Judged, String> {
    match File::open(bytes) {
        Err(number) => Ok(Judged::refused(number, None)),
        Ok(file) => deep::call(|| judge_opened(&file, root, room)),
    }
}

fn judge_opened(file: &File, root: &[u8], room: usize) -> Result<Judged, String> {
    match prospect(file, root)? {
        Prospect::NoRoot => match rust_ordered::run(file, root, &Request::PLAIN)? {
            Outcome::NotFound => Ok(Judged::refused(5, Some(Outcome::NotFound))),
            _ => Err("the original finds a root".to_string()),
        },
        Prospect::Cyclic => Ok(Judged::refused(6, None)),
        Prospect::Plan(plan) => judge_plan(file, root, room, &plan),
    }
}

fn judge_plan(file: &File, root: &[u8], room: usize, plan: &Plan) -> Result<Judged, String> {
    let refusal = plan.refusal();
    if plan.sizes.far_over() {
        return Ok(Judged::refused(
            refusal.ok_or("sizes far over are over")?,
            None,
        ));
    }
    let request = Request {
        spans: Spans::Own,
        decided: plan.decided(),
        walks: &plan.walks(),
    };
    let outcome = rust_ordered::run(file, root, &request)?;
    check_outcome(plan, &outcome)?;
    let endless = !plan.decided().is_empty();
    let report = match (&outcome, refusal) {
        (_, Some(number)) => {
            return Ok(Judged {
                endless,
                ..Judged::refused(number, Some(outcome))
            })
        }
        (Outcome::Built(report), None) => report,
        (_, None) => return Err("the original panics on an accepted build".to_string()),
    };
    let area = area(file, root, plan, report)?;
    let bytes = area.to_bytes();
    let answer = if bytes.len() > room {
        Answer::Refused(1)
    } else {
        Answer::Area(bytes)
    };
    Ok(Judged {
        answer,
        endless,
        outcome: Some(outcome),
        area: Some(area),
    })
}

fn area(file: &File, root: &[u8], plan: &Plan, report: &Report) -> Result<Area, String> {
    let request = Request {
        spans: Spans::Origins,
        decided: plan.decided(),
        walks: &[],
    };
    let Outcome::Built(marked) = rust_ordered::run(file, root, &request)? else {
        return Err("the original ends otherwise with other spans".to_string());
    };
    let errors = origins::errors(file, plan.model, &report.built.errors, &marked.built.errors)?;
    assemble::area(file, plan, report, errors)
}

/// The original panics exactly where 7, 8 or 10 holds, and in a place whose condition holds.
pub fn check_outcome(plan: &Plan, outcome: &Outcome) -> Result<(), String> {
    let short = plan.flattened.as_ref().is_some_and(|flat| flat.short);
    let holds = match outcome {
        Outcome::Built(_) => !(plan.self_listed || plan.overfull || short),
        Outcome::NotFound => false,
        Outcome::Panicked(Panic::SelfListed) => plan.self_listed,
        Outcome::Panicked(Panic::BeyondUnknowns) => plan.overfull,
        Outcome::Panicked(Panic::BeyondArguments) => short,
        Outcome::Panicked(Panic::Other(_)) => false,
    };
    let Outcome::Built(report) = outcome else {
        return holds
            .then_some(())
            .ok_or_else(|| format!("{outcome:?} where {:?} was due", plan.refusal()));
    };
    let sizes = plan.flattened.as_ref().map(|flat| flat.statements.len());
    let counted = sizes == Some(report.statements.len())
        && report.instances.is_none_or(|n| n == plan.sizes.instances);
    (holds && counted)
        .then_some(())
        .ok_or_else(|| format!("the original builds where {:?} was due", plan.refusal()))
}
