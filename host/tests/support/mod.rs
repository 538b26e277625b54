//! What the tests share: random cases and their texts, slices with canaries, the command, and the specification in plain Rust.
#![allow(dead_code, unused_imports)]

pub mod browser;
pub mod calendar;
mod cases;
pub mod fractions;
pub mod inputs;
mod lent;
pub mod paper;
pub mod points;
mod random;
pub mod recursion;
mod running;
mod texts;

pub use cases::{
    any_case, any_schedule, any_window, c1, damage, dated, long_case, month, small_case,
};
pub use cases::{C1, FULL};
pub use lent::Lent;
pub use random::Random;
pub use running::{answer_on, limited, proved_program, ralwinga, run_on, run_unread, Folder};
pub use texts::{columns_of, damage_text, shuffled_table, text_of, text_with};

/// How often each number came up, 0 for no refusal.
pub type Seen = [usize; 13];

/// Each of these numbers came up more often than now and then.
pub fn each_came_up(seen: &[usize], numbers: &[usize]) {
    println!("answers by number, 0 no refusal: {seen:?}");
    for number in numbers {
        let times = seen[*number];
        assert!(times > 20, "number {number} came {times} times");
    }
}
