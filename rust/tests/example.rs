//! The examples, run.

#[path = "../examples/list_script.rs"]
#[allow(dead_code)]
mod list_script;
#[path = "../examples/verify_script.rs"]
#[allow(dead_code)]
mod verify_script;

use verify_script::{answer, SCRIPTS};

#[test]
fn the_example_answers_as_expected() {
    let answers = SCRIPTS.map(|(_, code)| answer(code).expect("memory for a few bytes"));
    let expected = [
        "accepted, height 1",
        "refused, chunk 0: at 0: operands lack, 1 needed and 0 there",
    ];
    assert_eq!(answers, expected);
}

#[test]
fn the_listing_is_as_expected() {
    let listings = list_script::SCRIPTS.map(list_script::listing);
    let whole: &[&str] = &[
        "0: tag 0x01, width 1",
        "1: tag 0x24, width 3",
        "4: tag 0x07, width 1",
        "5: the end",
    ];
    let cut: &[&str] = &["0: tag 0x01, width 1", "1: no width"];
    assert_eq!(listings, [whole, cut]);
}
