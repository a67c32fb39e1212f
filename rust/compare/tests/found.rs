//! The comparison can fail: each fault that is planted in the interpreter is found. And it holds without one.

use compare::compare;
use oracle::fault::{plant, FAULTS};

const QUICK: u64 = 20_000;

#[test]
fn alike_without_a_fault() {
    let (cmp, apart) = compare(2, QUICK);
    assert!(apart.is_none(), "{}", apart.unwrap());
    // all answers of the paper but 14, which no call gives
    for answer in 0..=13 {
        assert!(cmp.gave(answer), "no call gave {answer}");
    }
    assert!(!cmp.gave(14));
}

#[test]
fn each_fault_is_found() {
    for (fault, name) in FAULTS {
        plant(Some(fault));
        let (cmp, apart) = compare(1, QUICK);
        plant(None);
        let apart = apart.unwrap_or_else(|| panic!("{name} was not found in {} calls", cmp.calls));
        println!("{name}: after {} calls: {}", cmp.calls, apart.how);
    }
}
