//! Wrong engines that no console line from FRESH shows, told from the right one on tables put by
//! hand.

use faults::{Fault, ON_TABLES};
use std::panic::catch_unwind;

mod right {
    use engine as tried;
    include!("../../engine/tests/cases/hand.rs");
}

mod wrong {
    use faults::together as tried;
    include!("../../engine/tests/cases/hand.rs");
}

#[test]
fn each_is_told_from_the_right_engine() {
    for name in ON_TABLES {
        let fault = Fault::by_name(name).expect("a fault");
        let (called, number) = right::called(name);
        assert_eq!(called.1.number, number, "{}", name);
        // The types of two engines are two; what they hold is told in the same way.
        let right = format!("{:?}", called);
        assert_eq!(format!("{:?}", wrong::called(name).0), right, "nothing is chosen here");
        // One that would never end stops itself instead.
        let wrong = catch_unwind(|| fault.run(|| format!("{:?}", wrong::called(name).0)));
        assert!(wrong.map_or(true, |wrong| wrong != right), "missed: {}", name);
    }
}
