//! The stack that a service may take.

use std::hint::black_box;
use trials::stack::deepest;

const MOST: usize = 65_536;

fn within(call: impl FnMut(&[u8])) {
    let (depth, label) = deepest(200, call).expect("less than 1 MiB");
    assert!(depth <= MOST, "{depth} bytes of stack on {label}");
}

#[test]
fn a_check() {
    within(|sheet| {
        let _ = black_box(bridgetext::check(sheet));
    });
}

#[test]
fn a_struct_order() {
    let mut list = [0; 255];
    within(|sheet| {
        let _ = black_box(bridgetext::struct_order(sheet, &mut list));
    });
}

#[test]
fn a_text() {
    let mut text = vec![0; 80 << 20];
    within(|sheet| {
        let _ = black_box(bridgetext::write(sheet, &mut text));
    });
}
