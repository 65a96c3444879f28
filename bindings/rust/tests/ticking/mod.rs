//! What a look-ahead is held against.

use verdaizka::{Ahead, Machine};

/// So many ticks, one by one.
pub fn ticked(machine: &Machine, ticks: u64) -> Ahead {
    let (mut then, mut sums) = (machine.clone(), (0, 0));
    for _ in 0..ticks {
        let byte = then.tick().expect("sound");
        let pulse = |code: u8| [0, 1, -1][usize::from(code & 3)];
        sums = (sums.0 + pulse(byte), sums.1 + pulse(byte >> 2));
    }
    Ahead { then, sums }
}
