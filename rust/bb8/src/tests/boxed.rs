//! Boxes for which memory can be refused.

use crate::boxed::Reserved;
use bb8_core::kit::refusals::granting;
use std::sync::Arc;

#[test]
fn a_boxed_connection_is_dropped_once() {
    let alive = Arc::new(());
    let boxed = |_| Reserved::new().unwrap().fill((alive.clone(), [7_u8; 500]));
    let mut all: Vec<_> = (0..50).map(boxed).collect();
    assert_eq!(Arc::strong_count(&alive), 51);
    all.iter_mut().for_each(|each| each.1[499] = 8);
    let (kept, bytes) = all.pop().unwrap().into_inner();
    assert_eq!((bytes[0], bytes[499]), (7, 8));
    drop(all);
    assert_eq!(Arc::strong_count(&alive), 2);
    drop(kept);
    assert_eq!(Arc::strong_count(&alive), 1);
}

#[test]
fn a_connection_without_bytes_is_boxed() {
    Reserved::new().unwrap().fill(()).into_inner();
}

#[test]
fn refused_memory_is_reported_before_there_is_a_connection() {
    assert!(granting(0, Reserved::<u64>::new).is_none());
    assert!(granting(1, Reserved::<u64>::new).is_some());
}
