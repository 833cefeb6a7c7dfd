//! Puts logs through the oracle. README.md, one folder up, says what its lines mean.
//!
//!     driver list   [OPTIONS] < log       the lines of the listing
//!     driver detail [OPTIONS] < log       the same with every field
//!     driver batch  [OPTIONS] < frames    many logs, each its length (u32, little-endian) and its bytes; `--` after each answer
//!     driver time N < log                 walks the log N times with the crate alone, and says how many records it gave in all
//!
//!     --detail        in batch: every field
//!     --parts         after an image a line for each node, after a GPT a line for each entry
//!     --no-limits     without the limits of document 01 that the crate does not have
//!     --stack-mib N   the stack of the thread that walks (256)

mod lines;
mod room;
mod walk;

use std::fs::File;
use std::io::{Read, Write};
use std::os::fd::AsFd;
use std::os::unix::process::CommandExt;
use std::sync::{Arc, Mutex};
use std::time::Duration;
use walk::{Settings, Shared, State};

#[global_allocator]
static ROOM: room::Room = room::Room;

const _: () = assert!(usize::BITS == 64, "the oracle is of 64 bits");

/// Where the last panic was: file and line.
pub static PANIC: Mutex<String> = Mutex::new(String::new());

/// A walk that has had the processor for so long is a loop. The longest that end take a few milliseconds.
const LONG: Duration = Duration::from_millis(100);

extern "C" {
    fn clock_gettime(clock: i32, time: *mut [i64; 2]) -> i32;
}

/// The time that this process had the processor, so that a busy machine makes no loop.
fn spent() -> Duration {
    let mut time = [0; 2];
    unsafe { clock_gettime(2, &mut time) };
    Duration::new(time[0] as u64, time[1] as u32)
}

fn say(text: &str) {
    let mut out = std::io::stdout().lock();
    out.write_all(text.as_bytes()).and_then(|()| out.flush()).expect("standard output");
}

fn answer(log: &[u8], settings: Settings, state: &Shared, close: &str) {
    *state.lock().unwrap() = State::begin(spent());
    let last = walk::walk(log, settings, state);
    // The lock is held while this is written: the watch finds either a walk or its answer.
    let mut s = state.lock().unwrap();
    say(&(s.answer(&last) + close));
    s.begun = None;
}

/// The next log of a batch. Nothing is read ahead, so that another process can go on from here.
fn frame(input: &mut File) -> Option<Vec<u8>> {
    let mut size = [0; 4];
    if input.read(&mut size[..1]).expect("standard input") == 0 {
        return None;
    }
    input.read_exact(&mut size[1..]).expect("a frame's length");
    let mut log = vec![0; u32::from_le_bytes(size) as usize];
    input.read_exact(&mut log).expect("a frame's bytes");
    Some(log)
}

fn work(batch: bool, settings: Settings, state: Shared) {
    let mut input = File::from(std::io::stdin().as_fd().try_clone_to_owned().expect("standard input"));
    if batch {
        while let Some(log) = frame(&mut input) {
            answer(&log, settings, &state, "--\n");
        }
    } else {
        let mut log = Vec::new();
        input.read_to_end(&mut log).expect("standard input");
        answer(&log, settings, &state, "");
    }
}

fn time(times: usize) {
    let mut log = Vec::new();
    std::io::stdin().read_to_end(&mut log).expect("standard input");
    let records: usize = (0..times).map(|_| walk::alone(&log)).sum();
    say(&format!("records {records}\n"));
}

fn usage() -> ! {
    eprintln!("usage: driver list|detail|batch [--detail] [--parts] [--no-limits] [--stack-mib N], or driver time N");
    std::process::exit(2)
}

fn main() {
    let given: Vec<String> = std::env::args().skip(1).collect();
    let Some((mode, options)) = given.split_first() else { usage() };
    if mode == "time" {
        let [times] = options else { usage() };
        return time(times.parse().unwrap_or_else(|_| usage()));
    }
    let (mut settings, mut stack) = (Settings { detail: mode == "detail", parts: false, limits: true }, 256);
    let mut options_left = options.iter();
    while let Some(option) = options_left.next() {
        match option.as_str() {
            "--detail" => settings.detail = true,
            "--parts" => settings.parts = true,
            "--no-limits" => settings.limits = false,
            "--stack-mib" => stack = options_left.next().and_then(|n| n.parse().ok()).unwrap_or_else(|| usage()),
            _ => usage(),
        }
    }
    let batch = match mode.as_str() {
        "batch" => true,
        "list" | "detail" => false,
        _ => usage(),
    };
    std::panic::set_hook(Box::new(|info| {
        let place = info.location().map(|l| format!("{}:{}", l.file().rsplit('/').next().unwrap(), l.line()));
        *PANIC.lock().unwrap() = place.unwrap_or_default();
    }));
    let state: Shared = Arc::new(Mutex::new(State::default()));
    let walks = state.clone();
    let worker = std::thread::Builder::new().stack_size(stack << 20).spawn(move || work(batch, settings, walks)).expect("a thread");
    while !worker.is_finished() {
        std::thread::sleep(Duration::from_millis(5));
        let mut s = state.lock().unwrap();
        if s.begun.is_some_and(|begun| spent() - begun > LONG) {
            let last = s.nothing("loop");
            say(&(s.answer(&last) + if batch { "--\n" } else { "" }));
            if !batch {
                return;
            }
            // The thread cannot be ended; the process is begun anew and goes on with the next log. The lock is never given back.
            let error = std::process::Command::new(std::env::current_exe().expect("own path")).args(&given).exec();
            panic!("{error}");
        }
    }
    if worker.join().is_err() {
        eprintln!("driver: a panic outside the crate, {}", PANIC.lock().unwrap());
        std::process::exit(1);
    }
}
