//! Each of 64 order-1 states: its one-bit word, and whether it is a member.

use second::every_state::{check_members, check_words};
use second::{proved, services};

#[test]
fn one_bit_words() {
    check_words(services::saturate);
    check_words(proved::saturate);
}

#[test]
fn members() {
    check_members(services::judge);
    check_members(proved::judge);
}
