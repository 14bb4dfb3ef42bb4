//! One printed case again: `ENERGY_CASE='plan 5 2 2 [6 4 0 0 5 5] [0 0 0 0 0 0] [3 - - - - -] 6' rust/cargo test -p evidence --test rerun`.

use evidence::cases::Case;
use evidence::check::expect;
use evidence::under_test;

#[test]
fn the_case_of_the_environment() {
    let text = std::env::var("ENERGY_CASE")
        .unwrap_or_else(|_| "plan 5 2 2 [6 4 0 0 5 5] [0 0 0 0 0 0] [3 - - - - -] 6".to_string());
    let case: Case = text.parse().expect("ENERGY_CASE is a printed case");
    for energy in under_test() {
        expect(&*energy, &case);
    }
}
