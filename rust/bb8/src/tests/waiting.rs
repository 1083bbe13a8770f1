//! The memory that the pool keeps for waiting gets.

use crate::boxed::Reserved;
use crate::core::{Checkout, GetKey, Key};
use crate::waiters::{Handed, Waiters};
use futures_util::task::noop_waker;

/// A get of this number, which is also its index.
fn get(number: u64) -> GetKey {
    GetKey {
        number,
        place: number as usize,
    }
}

fn waiting(numbers: impl Iterator<Item = u64>) -> Waiters<u32> {
    let mut waiters = Waiters::new(true);
    for number in numbers {
        assert!(waiters.wait(get(number), 10 * number, &mut Some(noop_waker())));
    }
    waiters
}

#[test]
fn a_get_is_found_by_its_number() {
    let mut waiters = waiting(1..4);
    assert_eq!([2, 3].map(|n| waiters.since(get(n))), [Some(20), Some(30)]);
    let handed = Handed {
        checkout: Checkout {
            conn: Reserved::new().unwrap().fill(60),
            key: Key {
                number: 50,
                place: 7,
            },
        },
        served: true,
    };
    assert!(waiters.hand_off(get(2), handed).is_some());
    assert!(waiters.notify(get(1)).is_some());
    // A get that was handed a connection is not woken again, nor is one that was woken.
    assert_eq!(waiters.wakers().len(), 1);
    assert!(matches!(waiters.take_handed(get(2)), Some(it) if *it.checkout.conn == 60));
    assert!(waiters.take_handed(get(3)).is_none());
    assert_eq!(
        [1, 2, 3].map(|n| waiters.since(get(n))),
        [Some(10), None, Some(30)]
    );
    for number in [1, 3] {
        assert!(waiters.remove(get(number)).is_none());
        assert!(waiters.since(get(number)).is_none());
    }
}

#[test]
fn a_crowd_leaves_nothing_behind() {
    let mut waiters = waiting(0..5000);
    assert!(waiters.waiting.capacity() >= 5000);
    for number in 0..5000 {
        assert!(waiters.remove(get(number)).is_some());
    }
    assert_eq!(waiters.waiting.capacity(), 0);
}
