//! The board's rounds over a Mutex and a channel: a supervisor assigns a child and sends its job, a worker starts it and
//! ends it, and the supervisor looks for the end and takes it.
//!
//! usage: board_mutex ROUNDS
use std::sync::mpsc::{channel, Receiver, Sender};
use std::sync::{Arc, Mutex};
use std::thread;

#[derive(Clone, Copy)]
enum Slot {
    Unused,
    Offered,
    Running,
    Exited { pid: u32, status: u8 },
}

fn work(slot: &Mutex<Slot>, jobs: &Receiver<(u32, u64)>, ended: &Sender<u64>, rounds: u32) {
    for _ in 0..rounds {
        let (pid, job) = loop {
            match jobs.try_recv() {
                Ok(job) => break job,
                Err(_) => thread::yield_now(),
            }
        };
        *slot.lock().unwrap() = Slot::Running;
        ended.send(job + 1).unwrap();
        let status = (pid % 251) as u8;
        *slot.lock().unwrap() = Slot::Exited { pid, status };
    }
}

fn main() {
    let rounds: u32 = std::env::args().nth(1).unwrap().parse().unwrap();
    let slot = Arc::new(Mutex::new(Slot::Unused));
    let (send_job, jobs) = channel();
    let (send_end, ends) = channel();
    let worker = thread::spawn({
        let slot = Arc::clone(&slot);
        move || work(&slot, &jobs, &send_end, rounds)
    });
    let mut right = 0;
    for pid in 1..=rounds {
        *slot.lock().unwrap() = Slot::Offered;
        send_job.send((pid, u64::from(pid) * 3)).unwrap();
        let (found, status) = loop {
            match *slot.lock().unwrap() {
                Slot::Exited { pid, status } => break (pid, status),
                Slot::Unused | Slot::Offered | Slot::Running => {}
            }
            thread::yield_now();
        };
        let mail = ends.recv().unwrap();
        *slot.lock().unwrap() = Slot::Unused;
        if found == pid && status == (pid % 251) as u8 && mail == u64::from(pid) * 3 + 1 {
            right += 1;
        }
    }
    worker.join().unwrap();
    assert_eq!(right, rounds);
}
