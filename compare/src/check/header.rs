//! Refusals 1 to 4, which look at the header and the length alone.

use crate::answer::{Reason, Refusal};
use crate::bundle::{Counts, Section, header_of};
use crate::fault::{Fault, OLD_VARIABLES, Rules};

#[derive(Clone, Copy, Debug)]
pub struct Header {
    pub counts: Counts,
    pub left: u32,
    pub right: u32,
}

impl Header {
    pub fn read<R: Rules>(
        rules: R,
        file: &[u8],
        areas_suffice: impl Fn(&Counts) -> bool,
    ) -> Result<Self, Refusal> {
        let refused = |reason| Err(Refusal::whole(reason));
        let Some([version, counts @ .., left, right]) = header_of(file) else {
            return refused(Reason::Length);
        };
        let counts = Counts::new(counts);
        let wrong_length = if rules.has(Fault::LongerFileTaken) {
            (file.len() as u64) < counts.bytes()
        } else {
            file.len() as u64 != counts.bytes()
        };
        if rules.has(Fault::LimitBeforeVersion) && !counts.within_limits() {
            return refused(Reason::Limit);
        }
        if version != 1 {
            return refused(Reason::Version);
        }
        if rules.has(Fault::LengthBeforeLimit) && wrong_length {
            return refused(Reason::Length);
        }
        if !within_limits(rules, counts) {
            return refused(Reason::Limit);
        }
        if rules.has(Fault::AreaBeforeLength) && !areas_suffice(&counts) {
            return refused(Reason::Area);
        }
        if wrong_length {
            return refused(Reason::Length);
        }
        if !areas_suffice(&counts) {
            return refused(Reason::Area);
        }
        Ok(Header { counts, left, right })
    }
}

fn within_limits<R: Rules>(rules: R, mut counts: Counts) -> bool {
    let off_by_one = if rules.has(Fault::LimitOfTermsOff) {
        Some(Section::Terms)
    } else if rules.has(Fault::LimitOfLinksOff) {
        Some(Section::Links)
    } else if rules.has(Fault::LimitOfContextsOff) {
        Some(Section::Contexts)
    } else if rules.has(Fault::LimitOfVariablesOff) {
        Some(Section::Variables)
    } else {
        None
    };
    if rules.has(Fault::LimitOfVariablesOld) && counts[Section::Variables] > OLD_VARIABLES {
        return false;
    }
    if let Some(section) = off_by_one {
        counts[section] = counts[section].saturating_sub(1);
    }
    counts.within_limits()
}
