//! The window in lent memory is the source's queue: same length, same pairs popped, and the pair
//! pushed n-th since the last clear lies at place n modulo 1,024.

#[path = "../wrapper/shapes.rs"]
#[allow(dead_code)]
mod shapes;
#[path = "../drivers/values.rs"]
#[allow(dead_code)]
mod values;
#[path = "../wrapper/window.rs"]
#[allow(dead_code)]
mod window;

use shapes::{PAIRS, STRETCH};
use std::collections::VecDeque;
use values::Random;
use window::{Lent, Ring};

fn main() {
    let mut random = Random::new(3);
    let (mut ring, mut queue) = (Ring::new(), VecDeque::new());
    let mut memory = vec![0.0; STRETCH];
    let mut pushed = 0;
    for step in 0..200_000 {
        if random.chance(5_000) {
            ring.clear();
            queue.clear();
            pushed = 0;
        }
        let pair = (random.unit(), random.unit());
        ring.push_back(pair);
        queue.push_back(pair);
        if queue.len() > PAIRS {
            assert_eq!(ring.pop_front(), queue.pop_front(), "step {step}");
        }
        assert_eq!(ring.len(), queue.len(), "step {step}");
        if random.chance(50) {
            let (start, fill) = ring.place();
            ring.give(start, fill, 0, &mut memory);
            let place = pushed % PAIRS;
            assert_eq!((memory[2 * place], memory[2 * place + 1]), pair, "step {step}");
            ring.take(&memory);
        }
        pushed += 1;
    }
    println!("window: 200,000 pushes as in the source's queue");
}
