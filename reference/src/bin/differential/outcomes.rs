//! The classes of accesses by page tables, by how they end.

use std::fmt::{self, Display, Formatter};

use reference::{Access, MACHINE, SUPERVISOR, USER};

use crate::classes::{Class, Tally};
use crate::diagnosis::{Diagnosis, End, Flaw};
use crate::report::Difference;

const CLASSES: [Class<Diagnosis>; 46] = [
    class("translated", 2, Diagnosis::is_translated),
    class("refused 13", 50, |case| case.end == End::Refused),
    class("not translated", 20, |case| case.end == End::Untranslated),
    class("granted by 4 KiB pages", 15, |case| case.end == End::Granted(0)),
    class("by 2 MiB pages", 40, |case| case.end == End::Granted(1)),
    class("by 1 GiB pages", 30, |case| case.end == End::Granted(2)),
    class("page faults of addresses not canonical", 50, |case| flaw(case, Flaw::NotCanonical)),
    class("of V=0", 40, |case| flaw(case, Flaw::Invalid)),
    class("of W without R", 150, |case| flaw(case, Flaw::WriteOnly)),
    class("of reserved bits", 150, |case| flaw(case, Flaw::Reserved)),
    class("of pointers with U, A or D", 100, |case| flaw(case, Flaw::PointerBits)),
    class("of pointers at level 0", 500, |case| flaw(case, Flaw::PointerAtLevel0)),
    class("of R, W or X", 20, |case| flaw(case, Flaw::Rights)),
    class("of S on pages of U", 60, |case| flaw(case, Flaw::OfUser)),
    class("of U on pages of S", 40, |case| flaw(case, Flaw::OfSupervisor)),
    class("of misaligned superpages", 500, |case| flaw(case, Flaw::Misaligned)),
    class("of A=0", 500, |case| flaw(case, Flaw::NotAccessed)),
    class("of D=0", 500, |case| flaw(case, Flaw::NotDirty)),
    class("access faults of table reads by an entry", 30, |case| {
        case.end == End::TableDenied(true)
    }),
    class("of table reads by none", 100, |case| case.end == End::TableDenied(false)),
    class("of entries outside the slice", 30, |case| case.end == End::OutsideSlice),
    class("of the access itself", 150, |case| case.end == End::Denied),
    class("in two parts, granted", 50, |case| is_split(case) && case.is_granted()),
    class("faulting in part one", 20, |case| is_split(case) && case.part == 1),
    class("with a page fault in part two", 80, |case| {
        in_second(case) && matches!(case.end, End::Page(_))
    }),
    class("with a denied table read in part two", 1500, |case| {
        in_second(case) && matches!(case.end, End::TableDenied(_))
    }),
    class("outside the slice in part two", 800, |case| {
        in_second(case) && case.end == End::OutsideSlice
    }),
    class("denied itself in part two", 600, |case| in_second(case) && case.end == End::Denied),
    class("over the end of the addresses", 200, |case| is_split(case) && case.address > !0 << 12),
    class("over an end of the hole", 200, |case| is_split(case) && at_hole(case.address)),
    class("with a fault in part two there", 800, |case| in_second(case) && at_hole(case.address)),
    class("granted or not by SUM", 100, |case| case.by_sum),
    class("by MXR", 200, |case| case.by_mxr),
    class("by the grain", 200, |case| case.by_grain),
    class("fetches granted", 50, |case| granted(case, Access::Fetch)),
    class("loads granted", 20, |case| granted(case, Access::Load)),
    class("stores granted", 30, |case| granted(case, Access::Store)),
    class("fetches with a page fault", 30, |case| page_fault(case, Access::Fetch)),
    class("loads", 20, |case| page_fault(case, Access::Load)),
    class("stores", 20, |case| page_fault(case, Access::Store)),
    class("fetches with an access fault", 50, |case| access_fault(case, Access::Fetch)),
    class("loads", 30, |case| access_fault(case, Access::Load)),
    class("stores", 30, |case| access_fault(case, Access::Store)),
    class("translated as U", 5, |case| case.is_translated() && case.effective == USER),
    class("as S", 5, |case| case.is_translated() && case.effective == SUPERVISOR),
    class("in M by MPRV", 20, |case| case.is_translated() && case.mode == MACHINE),
];

const fn class(name: &'static str, one_in: u64, holds: fn(&Diagnosis) -> bool) -> Class<Diagnosis> {
    Class { name, one_in, holds }
}

fn flaw(case: &Diagnosis, flaw: Flaw) -> bool {
    case.end == End::Page(flaw)
}

fn is_split(case: &Diagnosis) -> bool {
    case.parts == 2
}

/// Whether an access in two parts has one in the hole between canonical addresses.
fn at_hole(address: u64) -> bool {
    let second = (address | 0xFFF).wrapping_add(1);
    matches!(second, 0x40_0000_0000 | 0xFFFF_FFC0_0000_0000)
}

fn in_second(case: &Diagnosis) -> bool {
    case.part == 2
}

fn granted(case: &Diagnosis, access: Access) -> bool {
    case.is_granted() && case.access == access
}

fn page_fault(case: &Diagnosis, access: Access) -> bool {
    matches!(case.end, End::Page(_)) && case.access == access
}

fn access_fault(case: &Diagnosis, access: Access) -> bool {
    let fault = matches!(case.end, End::TableDenied(_) | End::OutsideSlice | End::Denied);
    fault && case.access == access
}

/// How many accesses there were of each class.
pub struct Outcomes(Tally<Diagnosis>);

impl Outcomes {
    pub fn new() -> Outcomes {
        Outcomes(Tally::new("accesses by page tables", &CLASSES))
    }

    /// Counts an access, unless its state or its size is refused.
    pub fn count(&mut self, diagnosis: Option<&Diagnosis>) {
        if let Some(diagnosis) = diagnosis {
            self.0.count(diagnosis);
        }
    }

    pub fn check(&self, stage: &str) -> Result<(), Difference> {
        self.0.check(stage)
    }
}

impl Display for Outcomes {
    fn fmt(&self, formatter: &mut Formatter) -> fmt::Result {
        self.0.fmt(formatter)
    }
}
