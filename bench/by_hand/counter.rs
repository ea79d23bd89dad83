// Async and finish by one flat counter and a list of boxed closures, on one thread: what a Rust programmer
// would write by hand, to be measured beside `spd run`. Words: fib, finishes or asyncs, a count, and how
// often it is done.

use std::env::args;
use std::sync::atomic::{AtomicI64, AtomicU64, Ordering::SeqCst};

/// How many of its asyncs have not ended, and the sum of what they offered.
#[derive(Default)]
struct Finish {
    left: AtomicU64,
    sum: AtomicI64,
}

type Task = Box<dyn FnOnce(&mut Worker, &Finish)>;

/// The asyncs that are to run. The last one runs first, so those of an inner finish run before others.
#[derive(Default)]
struct Worker {
    ready: Vec<Task>,
}

impl Worker {
    fn begin(&mut self, finish: &Finish, task: impl FnOnce(&mut Worker, &Finish) + 'static) {
        finish.left.fetch_add(1, SeqCst);
        self.ready.push(Box::new(task));
    }

    /// Runs the body, and its asyncs until none is left.
    fn gathered(&mut self, body: impl FnOnce(&mut Worker, &Finish)) -> i64 {
        let finish = Finish::default();
        body(self, &finish);
        while finish.left.load(SeqCst) > 0 {
            let task = self.ready.pop().expect("an async that is left");
            task(self, &finish);
            finish.left.fetch_sub(1, SeqCst);
        }
        finish.sum.into_inner()
    }
}

fn fib(worker: &mut Worker, finish: &Finish, n: i64) {
    if n < 2 {
        finish.sum.fetch_add(n, SeqCst);
        return;
    }
    worker.begin(finish, move |worker, finish| fib(worker, finish, n - 1));
    fib(worker, finish, n - 2);
}

fn asyncs(worker: &mut Worker, finish: &Finish, count: i64) {
    for i in 0..count {
        worker.begin(finish, move |_, finish| {
            finish.sum.fetch_add(i, SeqCst);
        });
    }
}

fn once(worker: &mut Worker, kind: &str, count: i64) -> i64 {
    match kind {
        "fib" => worker.gathered(|worker, finish| fib(worker, finish, count)),
        "finishes" => {
            for _ in 0..count {
                worker.gathered(|worker, finish| worker.begin(finish, |_, _| {}));
            }
            count
        }
        "asyncs" => worker.gathered(|worker, finish| asyncs(worker, finish, count)),
        _ => panic!("a word that is none of these"),
    }
}

fn main() {
    let words: Vec<String> = args().collect();
    let number = |at: usize| words[at].parse::<i64>().expect("a number");
    let mut worker = Worker::default();
    let total: i64 = (0..number(3)).map(|_| once(&mut worker, &words[1], number(2))).sum();
    println!("{total}");
}
