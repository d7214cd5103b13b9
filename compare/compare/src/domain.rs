//! Who answers a case, decided before anything is called.
//!
//! "Demand 2's comparison covers every input that no added refusal answers and
//! on which no sum of the Rust overflows" (document 01): there the original
//! answers, everywhere else the document's words do.

use crate::answer::Refusal;
use crate::case::{Build, Case};
use crate::reading;

#[derive(Copy, Clone, PartialEq, Eq, Debug)]
pub enum Who {
    Original,
    Document,
}

impl Who {
    /// As the files of right answers have it.
    pub fn letter(self) -> char {
        match self {
            Who::Original => 'R',
            Who::Document => 'D',
        }
    }
}

pub fn who(case: &Case) -> Who {
    let original = match case {
        Case::Length(length) => fits(reading::length(length)),
        Case::Container { area } => *area <= reading::LARGEST_AREA,
        Case::Build(build) => original_builds(build),
        Case::Finish { at, .. } => fits(u128::from(*at) + 1),
        Case::Empty { room, area } => !is_added(reading::empty_refusal(*room, *area)),
        Case::SetReadOnly(_) | Case::IsUtf8(_) | Case::UriPrefix(_) | Case::Read(_) => true,
    };
    if original {
        Who::Original
    } else {
        Who::Document
    }
}

/// A text or URI that is not UTF-8 cannot even be handed to the original,
/// whatever else is wrong with the case.
fn original_builds(build: &Build) -> bool {
    !reading::passes_64_bits(build)
        && !reading::is_not_utf8(&build.what)
        && !is_added(reading::refusal(build))
}

/// Every partial sum of the Rust is at most the whole.
fn fits(sum: u128) -> bool {
    sum <= u64::MAX.into()
}

/// Refusals 3 to 5 are "added by this port".
fn is_added(refusal: Option<Refusal>) -> bool {
    match refusal {
        Some(Refusal::RecordTooLong { .. } | Refusal::AreaTooLarge | Refusal::NotUtf8) => true,
        Some(Refusal::TypeTooLong | Refusal::TooLong { .. }) | None => false,
    }
}
