//! What the results of rounds hang on, in the generated files on which the proved
//! library is compared.

use second::kinds::Kinds;
use second::news::{KINDS, count};
use second::pairs::{gathered_pairs, pairs};
use second::saturation::saturate;
use second::services::LISTING_SIZE;

/// Old and new choices in every place, sets with several members, and results that
/// arise in several ways: each kind is reached, and each mistake told.
#[test]
fn generated_files_reach_every_kind() {
    let mut reached = Kinds::default();
    let (mut counted, mut left_out) = (0, 0);
    for (_, pair) in pairs(250).chain(gathered_pairs(250)) {
        let Some(table) = saturate(&pair.case, LISTING_SIZE) else {
            continue;
        };
        if count(&mut reached, &pair.case, &table) {
            counted += 1;
        } else {
            left_out += 1;
        }
    }
    println!("{counted} tables, {left_out} left out");
    println!("{reached:?}");
    assert!(20 * left_out < counted);
    assert!(reached.rarest(KINDS) >= 20, "{reached:?}");
}
