//! How long a turn of threads takes at a `Mutex` of the standard library, beside which the turns of
//! a shared site are held: `rustc -O mutex.rs && ./mutex`.

use std::sync::Mutex;
use std::thread;
use std::time::Instant;

/// What a call does while it has the lock: about what an empty site does for a question.
fn call(state: &mut Vec<u64>) -> usize {
    state.iter().take(1).count()
}

fn main() {
    let own = Mutex::new(Vec::new());
    let count = 1_000_000u32;
    let start = Instant::now();
    let mut sum = 0;
    for _ in 0..count {
        sum += call(&mut std::hint::black_box(&own).lock().unwrap());
    }
    println!("one thread: {} ns a call of {sum}", start.elapsed().as_nanos() / u128::from(count));
    for threads in [2u32, 4, 8, 16] {
        let each = 400_000 / threads;
        let start = Instant::now();
        thread::scope(|scope| {
            for _ in 0..threads {
                scope.spawn(|| {
                    for _ in 0..each {
                        std::hint::black_box(call(&mut own.lock().unwrap()));
                    }
                });
            }
        });
        let nanos = start.elapsed().as_nanos() / u128::from(each * threads);
        println!("{threads} threads: {nanos} ns a turn");
    }
}
