//! So many threads add to a number under a Mutex, so many times each: `plain_mutex THREADS CALLS`.

use std::sync::Mutex;
use std::time::Instant;

fn main() {
    let mut args = std::env::args().skip(1);
    let threads: u32 = args.next().unwrap().parse().unwrap();
    let calls: u32 = args.next().unwrap().parse().unwrap();
    let number = Mutex::new(0u64);
    let began = Instant::now();
    std::thread::scope(|scope| {
        for _ in 0..threads {
            scope.spawn(|| {
                for _ in 0..calls {
                    *number.lock().unwrap() += 1;
                }
            });
        }
    });
    let took = began.elapsed().as_nanos();
    println!("mutex threads {threads} calls {} nanoseconds {took}", number.lock().unwrap());
}
