// Async and finish by `rayon::scope`, on as many threads as the last word says, to be measured beside
// `spd run`. Words: fib, finishes or asyncs, a count, how often it is done, and the threads.

use rayon::{Scope, ThreadPoolBuilder, scope};
use std::env::args;
use std::sync::atomic::{AtomicI64, Ordering::SeqCst};

fn fib<'s>(finish: &Scope<'s>, sum: &'s AtomicI64, n: i64) {
    if n < 2 {
        sum.fetch_add(n, SeqCst);
        return;
    }
    finish.spawn(move |finish| fib(finish, sum, n - 1));
    fib(finish, sum, n - 2);
}

/// One finish that counts up to `count`, an async for each number.
fn asyncs(count: i64) -> i64 {
    let sum = AtomicI64::new(0);
    scope(|finish| {
        for i in 0..count {
            let sum = &sum;
            finish.spawn(move |_| {
                sum.fetch_add(i, SeqCst);
            });
        }
    });
    sum.into_inner()
}

fn once(kind: &str, count: i64) -> i64 {
    match kind {
        "fib" => {
            let sum = AtomicI64::new(0);
            scope(|finish| fib(finish, &sum, count));
            sum.into_inner()
        }
        "finishes" => {
            for _ in 0..count {
                scope(|finish| finish.spawn(|_| {}));
            }
            count
        }
        "asyncs" => asyncs(count),
        _ => panic!("a word that is none of these"),
    }
}

fn main() {
    let words: Vec<String> = args().collect();
    let number = |at: usize| words[at].parse::<i64>().expect("a number");
    let threads = ThreadPoolBuilder::new().num_threads(number(4) as usize);
    let pool = threads.build().expect("a pool");
    let total = pool.install(|| (0..number(3)).map(|_| once(&words[1], number(2))).sum::<i64>());
    println!("{total}");
}
