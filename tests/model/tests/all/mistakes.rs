//! Each mistake that the trade makes is noticed, by bore K and by random call lists.

use crate::{bore_k, runs};
use reference_model::mistake;
use reference_model::scenarios::Scenarios;

#[test]
fn bore_k_notices_every_mistake() {
    for mistake in mistake::ALL {
        let noticed = bore_k::check_steps(Some(mistake));
        assert!(noticed.is_err(), "{mistake:?} goes unnoticed");
    }
}

#[test]
fn call_lists_notice_every_mistake() {
    let scenarios = Scenarios::new(7);
    for mistake in mistake::ALL {
        let noticed = (0..80).filter(|&number| runs::check_calls(&scenarios, number, Some(mistake)).is_err()).count();
        assert!(noticed >= 10, "{mistake:?} is noticed by {noticed} lists of 80");
    }
}
