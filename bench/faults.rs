//! Faults of reads and writes: `faults PROGRAM PRELOAD INPUT OUTPUT` runs the program on INPUT, whose right output is OUTPUT, with a fault at every
//! byte and at every call (bench/fault.c, preloaded), and then where the system itself is slow, full, closed or stopped. A passing fault
//! has to leave no trace; after any other the output is that of what was read or written before it, and standard error says what failed.
//! A run that does not end by itself within a minute is bad. Prints a line a kind of fault, with the number of runs and of bad ones.
use std::fs::File;
use std::io::{pipe, PipeReader, PipeWriter, Read, Seek, Write};
use std::os::fd::{AsRawFd, OwnedFd};
use std::os::unix::process::{CommandExt, ExitStatusExt};
use std::process::{Child, Command, Stdio};
use std::sync::atomic::{AtomicUsize, Ordering};
use std::thread::{scope, sleep};
use std::time::Duration;

extern "C" {
    fn alarm(seconds: u32) -> u32;
    fn fcntl(fd: i32, command: i32, value: i32) -> i32;
    fn kill(process: i32, signal: i32) -> i32;
}
const SET_FLAGS: i32 = 4;
const NONBLOCK: i32 = 0o4000;
const SET_PIPE_SIZE: i32 = 1031;
const CONTINUE: i32 = 18;
const STOP: i32 = 19;

/// What comes of a call that is at fault: `UNIT AT TIMES ERROR MOST` of bench/fault.c, but for the place.
#[derive(Clone, Copy)]
struct Fault {
    name: &'static str,
    times: i64,
    error: i32,
    says: Option<&'static str>,
}
const DEVICE: &str = "Input/output error";
const SPACE: &str = "No space left on device";
const SHORT: Fault = Fault { name: "fall short", times: 0, error: 0, says: None };
const INTERRUPTED: Fault = Fault { name: "are interrupted once", times: 1, error: 4, says: None };
const NOT_READY: Fault = Fault { name: "are not ready once", times: 1, error: 11, says: None };
const PASSING: [Fault; 5] = [
    SHORT,
    INTERRUPTED,
    Fault { name: "are interrupted 20 times", times: 20, error: 4, says: None },
    NOT_READY,
    Fault { name: "are not ready 3 times", times: 3, error: 11, says: None },
];
const FAILING: [Fault; 4] = [
    Fault { name: "fail once (EIO)", times: 1, error: 5, says: Some(DEVICE) },
    Fault { name: "fail for ever (EIO)", times: -1, error: 5, says: Some(DEVICE) },
    Fault { name: "fail once (ENOSPC)", times: 1, error: 28, says: Some(SPACE) },
    Fault { name: "fail for ever (ENOSPC)", times: -1, error: 28, says: Some(SPACE) },
];
/// More than any run meets: what is made again is made again as often as it takes.
const MANY: Fault = Fault { name: "are interrupted 10,000,000 times", times: 10_000_000, error: 4, says: None };
const TAKES_NOTHING: Fault = Fault { name: "take no byte 3 times", times: 3, error: 0, says: None };
const NONE: &str = "call 0 0 0 0";

/// Blank lines, two blocks of them: each prints `line`.
const BLANK: usize = 8192;

/// Most bytes a read brings where every call is to be met: many calls, and lines that lie in two of them.
const CHUNK: usize = 64;

impl Fault {
    fn at_byte(self, at: usize) -> String {
        format!("byte {at} {} {} 0", self.times, self.error)
    }

    fn at_call(self, at: usize, most: usize) -> String {
        format!("call {at} {} {} {most}", self.times, self.error)
    }

    /// What standard error has to have.
    fn said(self, stream: &str) -> Vec<u8> {
        self.says.map_or(Vec::new(), |what| said(stream, what))
    }
}

fn said(stream: &str, what: &str) -> Vec<u8> {
    format!("malligovu: standard {stream}: {what}\n").into_bytes()
}

#[derive(PartialEq)]
struct Ran {
    out: Vec<u8>,
    error: Vec<u8>,
    /// as wait gives it: 0, or the signal that ended the program, or another exit status above
    status: i32,
}

fn ended(out: &[u8], error: Vec<u8>) -> Ran {
    Ran { out: out.to_vec(), error, status: 0 }
}

/// Starts a command that is ended by a signal after a minute.
fn start(command: &mut Command) -> Child {
    unsafe { command.pre_exec(|| { alarm(60); Ok(()) }) };
    command.stderr(Stdio::piped()).spawn().unwrap()
}

fn collect(mut child: Child) -> Ran {
    let (mut out, mut error) = (Vec::new(), Vec::new());
    if let Some(mut stream) = child.stdout.take() {
        stream.read_to_end(&mut out).unwrap();
    }
    child.stderr.take().unwrap().read_to_end(&mut error).unwrap();
    Ran { out, error, status: child.wait().unwrap().into_raw() }
}

static RUNS: AtomicUsize = AtomicUsize::new(0);

struct Bench {
    program: String,
    preload: String,
    path: String,
    input: Vec<u8>,
    output: Vec<u8>,
}

impl Bench {
    /// The right output of what is in the first bytes of the input: a line for each word line that has ended.
    fn answers(&self, bytes: usize) -> &[u8] {
        let words = self.input[..bytes].iter().filter(|&&b| b == b'\n').count().saturating_sub(1);
        let end = self.output.iter().enumerate().filter(|(_, &b)| b == b'\n').map(|(i, _)| i + 1).take(words).last();
        &self.output[..end.unwrap_or(0)]
    }

    /// The program with these faults, and how much of the input it had read when it ended.
    fn run(&self, reads: &str, writes: &str) -> (Ran, usize) {
        let mut input = File::open(&self.path).unwrap();
        let mut command = Command::new(&self.program);
        command.env("LD_PRELOAD", &self.preload).env("FAULT_READ", reads).env("FAULT_WRITE", writes);
        let ran = collect(start(command.stdin(input.try_clone().unwrap()).stdout(Stdio::piped())));
        (ran, input.stream_position().unwrap() as usize)
    }

    fn is_whole(&self, ran: (Ran, usize)) -> bool {
        ran.0 == ended(&self.output, Vec::new()) && ran.1 == self.input.len()
    }

    /// Runs a case at each of so many places, on all cores, and prints how many were not right.
    fn each(&self, name: &str, places: usize, right: impl Fn(usize) -> bool + Sync) -> usize {
        let (next, bad) = (AtomicUsize::new(0), AtomicUsize::new(0));
        scope(|threads| {
            for _ in 0..std::thread::available_parallelism().map_or(2, |n| n.get()) {
                threads.spawn(|| loop {
                    let place = next.fetch_add(1, Ordering::Relaxed);
                    if place >= places {
                        break;
                    }
                    if !right(place) {
                        bad.fetch_add(1, Ordering::Relaxed);
                    }
                });
            }
        });
        RUNS.fetch_add(places, Ordering::Relaxed);
        println!("{name}: {places} {}, {} bad", if places == 1 { "run" } else { "runs" }, bad.load(Ordering::Relaxed));
        bad.into_inner()
    }

    /// Reads, at every byte of the input and at its end. The line that was being read is not answered. Where a call ends at the place anyway, a
    /// short one is no fault.
    fn reads(&self) -> usize {
        let places = self.input.len() + 1;
        let passing = PASSING.iter().map(|fault| {
            self.each(&format!("reads {}, at each byte", fault.name), places, |at| self.is_whole(self.run(&fault.at_byte(at), NONE)))
        });
        let failing = FAILING.iter().map(|fault| {
            self.each(&format!("reads {}, at each byte", fault.name), places, |at| {
                self.run(&fault.at_byte(at), NONE) == (ended(self.answers(at), fault.said("input")), at)
            })
        });
        passing.sum::<usize>() + failing.sum::<usize>()
    }

    /// Writes, at every byte of the output. Where one falls short before it fails, the system has taken a part of a line.
    fn writes(&self) -> usize {
        let passing = PASSING.iter().chain([&TAKES_NOTHING]).map(|fault| {
            self.each(&format!("writes {}, at each byte", fault.name), self.output.len(), |at| self.is_whole(self.run(NONE, &fault.at_byte(at))))
        });
        let failing = FAILING.iter().map(|fault| {
            self.each(&format!("writes {}, at each byte", fault.name), self.output.len(), |at| {
                self.run(NONE, &fault.at_byte(at)).0 == ended(&self.output[..at], fault.said("output"))
            })
        });
        passing.sum::<usize>() + failing.sum::<usize>()
    }

    /// At every call, with reads of at most 64 bytes, so that there is a write for each read that ends a word line, and one at the end. After a
    /// write that fails the output is whole lines, and no read follows it.
    fn calls(&self) -> usize {
        let reads = self.input.len().div_ceil(CHUNK);
        let end_of = |read: usize| self.input.len().min((read + 1) * CHUNK);
        let mut writing: Vec<usize> = (0..reads).filter(|&r| self.answers(end_of(r)) != self.answers(r * CHUNK)).collect();
        writing.push(reads);
        let limited = SHORT.at_call(0, CHUNK);
        let mut bad = self.each("reads of 1 to 64 bytes", CHUNK, |most| self.is_whole(self.run(&SHORT.at_call(0, most + 1), NONE)));
        bad += self.each("writes of 1 to 64 bytes", CHUNK, |most| self.is_whole(self.run(NONE, &SHORT.at_call(0, most + 1))));
        for fault in [INTERRUPTED, NOT_READY] {
            bad += self.each(&format!("reads {}, at each call", fault.name), reads + 1, |at| self.is_whole(self.run(&fault.at_call(at, CHUNK), NONE)));
            bad += self.each(&format!("writes {}, at each call", fault.name), writing.len(), |at| {
                self.is_whole(self.run(&limited, &fault.at_call(at, 0)))
            });
        }
        for fault in FAILING {
            bad += self.each(&format!("reads {}, at each call", fault.name), reads + 1, |at| {
                let read = self.input.len().min(at * CHUNK);
                self.run(&fault.at_call(at, CHUNK), NONE) == (ended(self.answers(read), fault.said("input")), read)
            });
            bad += self.each(&format!("writes {}, at each call", fault.name), writing.len(), |at| {
                let right = ended(self.answers(self.input.len().min(writing[at] * CHUNK)), fault.said("output"));
                self.run(&limited, &fault.at_call(at, 0)) == (right, end_of(writing[at]))
            });
        }
        bad += self.each(&format!("reads {}", MANY.name), 1, |_| self.is_whole(self.run(&MANY.at_byte(self.input.len() / 2), NONE)));
        bad + self.each(&format!("writes {}", MANY.name), 1, |_| self.is_whole(self.run(NONE, &MANY.at_byte(self.output.len() / 2))))
    }

    fn check(&self, name: &str, right: bool) -> usize {
        self.each(name, 1, |_| right)
    }

    fn piped(&self, input: PipeReader, output: PipeWriter) -> Child {
        start(Command::new(&self.program).stdin(OwnedFd::from(input)).stdout(OwnedFd::from(output)))
    }

    /// Pipes with slow other ends, blocking or not: blank lines first, so that a read answers more than a pipe holds, and the words many times
    /// over, so that both pipes fill and run dry.
    fn slow_pipes(&self) -> usize {
        let header = self.input.iter().position(|&b| b == b'\n').unwrap() + 1;
        let (mut input, mut output) = (self.input[..header].to_vec(), b"line\n".repeat(BLANK));
        input.extend(vec![b'\n'; BLANK]);
        for _ in 0..20 {
            input.extend(&self.input[header..]);
            input.push(b'\n');
            output.extend(&self.output);
        }
        let mut bad = 0;
        for (name, flags, stops) in [("slow other ends of non-blocking pipes", NONBLOCK, 0), ("slow other ends of blocking pipes", 0, 0),
            ("non-blocking pipes, stopped and continued 100 times", NONBLOCK, 100), ("blocking pipes, stopped and continued 100 times", 0, 100)]
        {
            let ((from, mut to), (mut back, out)) = (pipe().unwrap(), pipe().unwrap());
            unsafe {
                fcntl(from.as_raw_fd(), SET_FLAGS, flags);
                fcntl(out.as_raw_fd(), SET_FLAGS, 1 | flags);
                fcntl(out.as_raw_fd(), SET_PIPE_SIZE, 4096);
            }
            let child = self.piped(from, out);
            let process = child.id() as i32;
            let (fed, mut got) = (&input, Vec::<u8>::new());
            scope(|threads| {
                threads.spawn(move || {
                    for part in fed.chunks(1009) {
                        if to.write_all(part).is_err() {
                            break;
                        }
                        sleep(Duration::from_micros(500));
                    }
                });
                threads.spawn(move || {
                    for _ in 0..stops {
                        unsafe { kill(process, STOP) };
                        sleep(Duration::from_micros(300));
                        unsafe { kill(process, CONTINUE) };
                        sleep(Duration::from_micros(1700));
                    }
                });
                let mut part = [0; 200];
                loop {
                    match back.read(&mut part).unwrap() {
                        0 => break,
                        n => got.extend(&part[..n]),
                    }
                    // slow first, so that what is not read fills both pipes, and then fast, so that they run dry
                    if got.len() < output.len() / 2 {
                        sleep(Duration::from_micros(1000));
                    }
                }
            });
            bad += self.check(name, got == output && collect(child) == ended(&[], Vec::new()));
        }
        bad
    }

    /// The program as a shell starts it.
    fn shell(&self, command: &str) -> Ran {
        collect(start(Command::new("sh").arg("-c").arg(command).arg(&self.program).arg(&self.path).stdout(Stdio::piped())))
    }

    /// A reader that is gone before the first write: the signal is ignored, by the program or before it, the write fails, and the program says so.
    fn no_reader(&self) -> usize {
        let says = |command: &str| {
            let (reader, writer) = pipe().unwrap();
            drop(reader);
            let ran = collect(start(Command::new("sh").arg("-c").arg(command).arg(&self.program).arg(&self.path).stdout(OwnedFd::from(writer))));
            ran == ended(&[], said("output", "Broken pipe"))
        };
        self.check("a reader that went away", says("exec \"$0\" <\"$1\""))
            + self.check("the same, the signal ignored before", says("trap '' PIPE; exec \"$0\" <\"$1\""))
    }

    fn closed(&self) -> usize {
        let fails = |command: &str, stream: &str, what: &str| self.shell(command) == ended(&[], said(stream, what));
        self.check("no fault", self.shell("exec \"$0\" <\"$1\"") == ended(&self.output, Vec::new()))
            + self.check("a refused header", self.shell("printf '9 9 9\\n1 2\\n' | exec \"$0\"") == ended(b"refused 1\n", Vec::new()))
            + self.check("a wrong header", self.shell("printf '4 1 0 -1\\n1 2\\n' | exec \"$0\"") == ended(b"header\n", Vec::new()))
            + self.check("no header", self.shell("exec \"$0\" </dev/null") == ended(b"header\n", Vec::new()))
            + self.check("a wrong header, a full device", fails("printf '4 1 0 -1\\n1 2\\n' | exec \"$0\" >/dev/full", "output", SPACE))
            + self.check("a full device", fails("exec \"$0\" <\"$1\" >/dev/full", "output", SPACE))
            + self.check("standard output closed", fails("exec \"$0\" <\"$1\" >&-", "output", "Bad file descriptor"))
            + self.check("standard input closed", fails("exec \"$0\" <&-", "input", "Bad file descriptor"))
            + self.check("a directory as input", fails("exec \"$0\" </", "input", "Is a directory"))
    }
}

fn main() {
    let arguments: Vec<String> = std::env::args().collect();
    let [_, program, preload, path, expected] = &arguments[..] else { panic!("faults PROGRAM PRELOAD INPUT OUTPUT") };
    let (input, output) = (std::fs::read(path).unwrap(), std::fs::read(expected).unwrap());
    let bench = Bench { program: program.clone(), preload: preload.clone(), path: path.clone(), input, output };
    let bad = bench.closed() + bench.no_reader() + bench.slow_pipes() + bench.calls() + bench.writes() + bench.reads();
    println!("in all: {} runs, {bad} bad", RUNS.load(Ordering::Relaxed));
    std::process::exit(i32::from(bad > 0));
}
