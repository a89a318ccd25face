// Times serves of a page by the model's host, and the same behind a `std::sync::Mutex`, as program.txt does with the
// host and the lock of this repository. The modules of the model's sources are declared above this text.
use host::Hypervisor;
use page::Words;
use std::hint::black_box;
use std::sync::Mutex;
use std::time::Instant;

/// Stores what asks for OUT of a value to the mailbox at port 500h, as the guest does.
fn ask(page: &mut Words, value: u64) {
    let words = [
        (63, value),
        (114, 0x7B),
        (115, 0x0500_0240),
        (116, 0),
        (126, 1 << 63),
        (127, 0x001C_0000_0000_0000),
        (511, 0x1_0000),
    ];
    for (number, value) in words {
        page.w[number] = value;
    }
    page.msr = 0x8000_0000;
}

/// The nanoseconds that so many serves take.
fn time(count: u64, mut serve: impl FnMut(&mut Words)) -> u128 {
    let mut page = Words::new();
    let start = Instant::now();
    for number in 0..count {
        ask(&mut page, number);
        serve(black_box(&mut page));
    }
    start.elapsed().as_nanos()
}

fn opened() -> Hypervisor {
    Hypervisor::start(1, Vec::new(), 1)
}

fn main() {
    let words: Vec<u64> = std::env::args().skip(1).map(|word| word.parse().expect("a number")).collect();
    let [count, times] = words[..] else { panic!("usage: lock_times COUNT TIMES") };
    for _ in 0..times {
        let mut host = opened();
        println!("serve {}", time(count, |page| host.serve(0, page)));
        assert_eq!(host.history.len() as u64, count);
        let lock = Mutex::new(opened());
        println!("turn {}", time(count, |page| black_box(&lock).lock().unwrap().serve(0, page)));
        assert_eq!(lock.lock().unwrap().history.len() as u64, count);
    }
}
