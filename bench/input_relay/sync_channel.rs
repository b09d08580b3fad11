// The same inputs over std's bounded channel, made by rustc. Usage: sync_channel SENDERS INPUTS; prints microseconds.
use std::sync::mpsc::{TrySendError, sync_channel};
use std::thread;
use std::time::Instant;

#[allow(dead_code)]
enum Input {
    Key { down: bool, key: u32 },
    Pointer { mask: u8, x: u16, y: u16 },
    Cut(Vec<u8>),
}

fn main() {
    let mut words = std::env::args().skip(1).map(|word| word.parse::<u64>().unwrap());
    let (senders, inputs) = (words.next().unwrap(), words.next().unwrap());
    let each = inputs / senders;
    let (sender, taker) = sync_channel::<(u64, Input)>(256);
    let start = Instant::now();
    let threads: Vec<_> = (0..senders)
        .map(|place| {
            let sender = sender.clone();
            thread::spawn(move || {
                for number in 0..each {
                    let mut item = (place, Input::Pointer { mask: 0, x: (number % 4096) as u16, y: 0 });
                    while let Err(TrySendError::Full(back)) = sender.try_send(item) {
                        item = back;
                        thread::yield_now();
                    }
                }
            })
        })
        .collect();
    for _ in 0..each * senders {
        while taker.try_recv().is_err() {
            thread::yield_now();
        }
    }
    for thread in threads {
        thread.join().unwrap();
    }
    println!("{}", start.elapsed().as_micros());
}
