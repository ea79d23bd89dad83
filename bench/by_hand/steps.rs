// The steps of a flat counter, a table of words and its vertices by hand, on one thread: the same accesses as
// a cut by `spd_dag` makes, and nothing else, to be measured beside `crates/spd_fork_sum`. And adds to one word by
// threads, to be measured beside offers. Words: cuts, and the size of a piece that isn't cut; or adds, how many
// by each thread, and the threads.

use std::env::args;
use std::sync::atomic::{AtomicU64, Ordering::SeqCst};
use std::thread::scope;

const MOVES: usize = 4096;
const READY: u64 = 2;
const RUNNING: u64 = 3;

/// The numbers from `low` up to `high`.
#[derive(Clone, Copy)]
struct Piece {
    low: u32,
    high: u32,
}

/// The words of one finish: its moves, its counter, a pair for each move and a state for each vertex; and
/// what each vertex is to run.
struct Table {
    moves: AtomicU64,
    counter: AtomicU64,
    pairs: Vec<AtomicU64>,
    vertices: Vec<AtomicU64>,
    slots: Vec<Option<Piece>>,
}

fn words(count: usize) -> Vec<AtomicU64> {
    (0..count).map(|_| AtomicU64::new(0)).collect()
}

impl Table {
    fn new(piece: Piece) -> Table {
        let mut table = Table {
            moves: AtomicU64::new(1),
            counter: AtomicU64::new(2),
            pairs: words(MOVES),
            vertices: words(2 * MOVES),
            slots: vec![None; 2 * MOVES],
        };
        table.make_ready(0, piece);
        table
    }

    fn make_ready(&mut self, vertex: usize, piece: Piece) {
        self.slots[vertex] = Some(piece);
        self.vertices[vertex].store(READY, SeqCst);
    }

    /// A look at the vertex and an exchange.
    fn start(&mut self, vertex: usize) -> Option<Piece> {
        let seen = self.vertices[vertex].load(SeqCst);
        if seen != READY || self.vertices[vertex].compare_exchange(seen, RUNNING, SeqCst, SeqCst).is_err() {
            return None;
        }
        self.slots[vertex].take()
    }

    /// The vertex becomes two: a move, an arrival, a claim, the move's pair, and two vertices.
    fn spawn(&mut self, vertex: usize, left: Piece, right: Piece) -> Option<usize> {
        let number = self.moves.fetch_add(1, SeqCst) as usize;
        if number >= MOVES {
            return None;
        }
        self.counter.fetch_add(2, SeqCst);
        let claimed = self.pairs[vertex / 2].fetch_add(1, SeqCst);
        self.pairs[number].store(claimed << 2, SeqCst);
        self.make_ready(2 * number, left);
        self.make_ready(2 * number + 1, right);
        Some(number)
    }

    /// The vertex ends: a claim and a departure. Says whether it was the last one.
    fn signal(&self, vertex: usize) -> bool {
        self.pairs[vertex / 2].fetch_add(1, SeqCst);
        self.counter.fetch_sub(2, SeqCst) == 2
    }
}

/// The sum of the numbers of a piece, and how often it was cut.
fn cut(piece: Piece, grain: u32) -> (u64, u32) {
    let mut table = Table::new(piece);
    let (mut sum, mut cuts, mut ready) = (0u64, 0, vec![0]);
    while let Some(vertex) = ready.pop() {
        let Some(piece) = table.start(vertex) else { continue };
        let size = piece.high - piece.low;
        if size > grain {
            let middle = piece.low + size / 2;
            let (left, right) = (Piece { high: middle, ..piece }, Piece { low: middle, ..piece });
            if let Some(number) = table.spawn(vertex, left, right) {
                cuts += 1;
                ready.push(2 * number + 1);
                ready.push(2 * number);
                continue;
            }
        }
        for number in piece.low..piece.high {
            sum = sum.wrapping_add(u64::from(number));
        }
        if table.signal(vertex) {
            break;
        }
    }
    (sum, cuts)
}

/// So many adds to one word by each of the threads, and nothing else.
fn adds(count: u64, threads: u32) -> u64 {
    let word = AtomicU64::new(0);
    scope(|scope| {
        for _ in 0..threads {
            scope.spawn(|| {
                for number in 0..count {
                    word.fetch_add(number, SeqCst);
                }
            });
        }
    });
    word.into_inner()
}

fn main() {
    let words: Vec<String> = args().collect();
    let number = |at: usize| words[at].parse::<u32>().expect("a number");
    match words[1].as_str() {
        "cuts" => {
            let (sum, cuts) = cut(Piece { low: 1, high: 1_000_001 }, number(2));
            println!("The sum of 1 to 1000000 is {sum}.");
            println!("{cuts} pieces were cut in two.");
        }
        "adds" => println!("{}", adds(u64::from(number(2)), number(3))),
        _ => panic!("a word that is none of these"),
    }
}
