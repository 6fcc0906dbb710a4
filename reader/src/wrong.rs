//! Wrong readings of the scope paper, one of which may be switched on.
//!
//! The switch is held per thread, so that the plain reading stays legible:
//! a place that a wrong reading would change asks `wrongly(...)`.

use std::cell::Cell;
use std::panic;

pub use crate::readings::{Wrong, ALL};

thread_local! {
    static SWITCH: Cell<Option<Wrong>> = const { Cell::new(None) };
}

/// Whether any wrong reading is switched on in this thread.
pub fn any_wrong() -> bool {
    SWITCH.get().is_some()
}

/// Whether this wrong reading is switched on in this thread.
pub fn wrongly(switch: Wrong) -> bool {
    SWITCH.get() == Some(switch)
}

/// Failures of a wrong reading are answers like others and make no noise.
pub fn switch_on(switch: Option<Wrong>) {
    SWITCH.set(switch);
    if switch.is_some() {
        panic::set_hook(Box::new(|_| {}));
    }
}

pub fn named(name: &str) -> Option<Wrong> {
    ALL.iter().find(|(_, known, _)| *known == name).map(|(switch, _, _)| *switch)
}

/// Points whose rejected readings no case can show, with the reason.
pub const UNSEEN: &[(&str, &str)] = &[
    ("B41", "names no rejected reading (units are plain text)"),
    (
        "B60 (samples in all)",
        "each sample needs a component, so that 4,097 samples break the limit on components too",
    ),
    ("B14 (8 before 7)", "an empty field is never too long"),
    ("B74", "the second call's number is the number written for kind 6; there is no case for two calls"),
    ("B75", "checking anew at each call is seen only as 18 (see slip-trusted-table)"),
    ("B76", "which functions are public is a matter of the code"),
    ("B80 (open errors)", "an unreadable file cannot be made by a case folder"),
    ("B84", "form of the code"),
    ("B85", "form of the code"),
    ("B86", "form of the code"),
    ("B87", "form of the code; the start is seen by kinds 6 and 7 (B73f)"),
    (
        "R2 (bits of a frame)",
        "no case asks for them, and the program `cards` only where 26 was not given; c/demo.c asks by form 1",
    ),
    ("R3 (width below 1)", "each component gives the sample at least one bit"),
    (
        "R3 (pairs of copies)",
        "neighbours agree pair by pair exactly where every component is its bits of raw",
    ),
    ("R5 (65,536 requests and more)", "a case file has no room for them"),
    ("R5 (one judgement for all)", "how often a page judges table and frame is seen by its time alone"),
];
