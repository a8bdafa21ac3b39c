//! The refusals of `bridgetext` are those of `sheet`, and 13.

use bridgetext::Refusal;

#[test]
fn names_and_numbers() {
    let (last, first) = Refusal::ALL.split_last().unwrap();
    assert_eq!(*last, Refusal::Overrun);
    let ours = first
        .iter()
        .map(|refusal| (format!("{refusal:?}"), refusal.number()));
    let theirs = sheet::Refusal::ALL
        .iter()
        .map(|refusal| (format!("{refusal:?}"), refusal.number()));
    assert!(ours.eq(theirs));
}
