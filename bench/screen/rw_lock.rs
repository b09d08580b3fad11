// The same calls over a RwLock of std around one board, made by rustc. Usage: rw_lock ROUNDS LOOKS; prints names and
// nanoseconds.
use std::hint::black_box;
use std::sync::RwLock;
use std::sync::atomic::{AtomicU64, Ordering};
use std::thread;
use std::time::{Duration, Instant};

const WIDTH: usize = 1920;
const HEIGHT: usize = 1080;
const TILES: usize = WIDTH / 16;

struct Board {
    colours: Vec<u32>,
    stamps: Vec<u64>,
    number: u64,
}

struct Patch {
    x: usize,
    y: usize,
    w: usize,
    h: usize,
    colours: Vec<u32>,
}

fn painted(whole: bool, colour: u32) -> Patch {
    let (x, y, w, h) = if whole { (0, 0, WIDTH, HEIGHT) } else { (640, 320, 16, 16) };
    Patch { x, y, w, h, colours: vec![colour; w * h] }
}

fn put(board: &RwLock<Board>, whole: bool, colour: u32) -> u128 {
    let patch = painted(whole, colour);
    let start = Instant::now();
    {
        let mut board = board.write().unwrap();
        for (row, colours) in patch.colours.chunks_exact(patch.w).enumerate() {
            let at = (patch.y + row) * WIDTH + patch.x;
            board.colours[at..at + patch.w].copy_from_slice(colours);
        }
        board.number += 1;
        let number = board.number;
        for row in patch.y / 16..(patch.y + patch.h).div_ceil(16) {
            board.stamps[row * TILES + patch.x / 16..row * TILES + (patch.x + patch.w).div_ceil(16)].fill(number);
        }
    }
    drop(patch);
    start.elapsed().as_nanos()
}

fn look(board: &RwLock<Board>) -> u64 {
    board.read().unwrap().number
}

fn cut(board: &RwLock<Board>, into: &mut [u32]) -> u128 {
    let start = Instant::now();
    into.copy_from_slice(&board.read().unwrap().colours);
    start.elapsed().as_nanos()
}

fn looks_of(board: &RwLock<Board>, threads: u64, each: u64) -> u128 {
    let start = Instant::now();
    thread::scope(|scope| {
        for _ in 0..threads {
            scope.spawn(|| {
                for _ in 0..each {
                    black_box(look(board));
                }
            });
        }
    });
    start.elapsed().as_nanos()
}

fn main() {
    let words: Vec<u64> = std::env::args().skip(1).map(|word| word.parse().unwrap()).collect();
    let (rounds, looks) = (words[0], words[1]);
    let rows = HEIGHT.div_ceil(16);
    let board = RwLock::new(Board { colours: vec![0; WIDTH * HEIGHT], stamps: vec![0; TILES * rows], number: 0 });
    let word = AtomicU64::new(0);
    let mut into = vec![0; WIDTH * HEIGHT];
    let mut best = [u128::MAX; 5];
    for round in 0..rounds {
        best[0] = best[0].min(put(&board, true, round as u32));
        best[1] = best[1].min(put(&board, false, round as u32));
        best[2] = best[2].min(cut(&board, &mut into));
        let start = Instant::now();
        for _ in 0..1000 {
            black_box(look(&board));
        }
        best[3] = best[3].min(start.elapsed().as_nanos());
        let start = Instant::now();
        for _ in 0..1000 {
            black_box(word.load(Ordering::SeqCst));
        }
        best[4] = best[4].min(start.elapsed().as_nanos());
    }
    for (name, time) in ["put-screen", "put-tile", "cut-screen", "looks-1000", "loads-1000"].iter().zip(best) {
        println!("{name} {time}");
    }
    for threads in [1, 4, 16] {
        println!("looks-of-{threads} {}", looks_of(&board, threads, looks));
    }
    let (mut sum, mut longest) = (0, 0);
    thread::scope(|scope| {
        scope.spawn(|| {
            for _ in 0..3 * rounds {
                cut(&board, &mut into);
            }
        });
        for _ in 0..rounds {
            thread::sleep(Duration::from_millis(1));
            let time = put(&board, false, 9);
            sum += time;
            longest = longest.max(time);
        }
    });
    println!("put-beside-cuts-mean {}", sum / u128::from(rounds.max(1)));
    println!("put-beside-cuts-longest {longest}");
}
