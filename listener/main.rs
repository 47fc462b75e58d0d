//! Listens for clients, and moves their bytes to a program and back, in frames (docs/FORMATS.md, "Frames"). It knows nothing of what they say.
//!
//! One thread waits for all files at once, and no call blocks. All that is unsafe stands in the modules `system`, and of TLS in `openssl`.

#![deny(unsafe_op_in_unsafe_fn)]

mod addresses;
mod certificates;
mod client;
mod clients;
mod fault;
mod frames;
mod held;
mod lease;
mod notify;
mod openssl;
mod options;
mod places;
mod poll;
mod program;
mod proxied;
mod refusals;
mod runs;
mod server;
mod sockets;
mod space;
mod standby;
mod system;
mod telling;
mod times;
mod users;
mod wire;

use addresses::{Asked, Listener};
use certificates::Certificates;
use fault::{Fault, FAILED, LAST_OF_PROGRAM, LEASE_OVER, NO_PROGRAM, PROGRAM_ENDED, PROGRAM_KILLED, STOPPED, TOO_FEW_FILES, WRONG_FRAME};
use held::Held;
use lease::Lease;
use options::{Options, USAGE};
use program::Pipes;
use runs::{Again, Runs};
use server::{End, Files, Manner, Server};
use space::Space;
use standby::Standby;
use std::fmt::Arguments;
use std::fs::{read_to_string, File};
use std::io::{self, Write};
use std::process::{exit, Child, ExitStatus};
use std::thread::sleep;
use std::time::{Duration, Instant};
use telling::Telling;
use users::Users;

/// By this status, or a lower one, the program says that all that it did is kept.
const ALL_KEPT: i32 = 1;

/// Files that are no clients': of the program, of signals, of addresses.
const OTHER_FILES: u64 = 64;

/// Says something to whoever reads standard error, if anybody does.
pub fn say(what: Arguments) {
    let _ = writeln!(io::stderr(), "listen: {}", what);
}

fn main() {
    let words: Vec<_> = std::env::args_os().skip(1).collect();
    if words.len() == 1 && words[0] == "--help" {
        let _ = io::stdout().write_all(USAGE.as_bytes());
        return;
    }
    let options = Options::read(words.into_iter()).map_err(|why| {
        let _ = io::stderr().write_all(USAGE.as_bytes());
        why
    });
    let status = options.and_then(|options| run(&options)).unwrap_or_else(|why| {
        say(format_args!("{}", why));
        why.status()
    });
    exit(status)
}

/// Opens all that the options name, and serves.
fn run(options: &Options) -> Result<i32, Fault> {
    check_files(options.connections as u64)?;
    let users = options.users.as_deref().map(Users::open).transpose()?;
    let certificates = Certificates::open(&options.certificates)?;
    let mut listeners = addresses::handed_over(certificates.is_some())?;
    if options.lets_in_late() && !listeners.is_empty() {
        return Err(Fault::words(format_args!(
            "--wait and --lease: not with sockets that are handed over, where clients get in before it serves"
        )));
    }
    let mut asked = asked(&options.addresses, !listeners.is_empty(), certificates.is_some())?;
    if options.lets_in_late() {
        return serve(options, listeners, Some(Standby::new(asked)), Files { users, certificates });
    }
    for it in &mut asked {
        listeners.push(it.open()?);
    }
    serve(options, listeners, None, Files { users, certificates })
}

fn check_files(connections: u64) -> Result<(), Fault> {
    let needed = connections + OTHER_FILES;
    match system::limit(system::FILES, u64::MAX) {
        Ok(most) if most < needed => Err(Fault::new(
            TOO_FEW_FILES,
            format_args!("{} connections need {} files, and {} may be open: see ulimit -n", connections, needed, most),
        )),
        _ => Ok(()),
    }
}

/// Where clients are to come, beside what may be handed over.
fn asked(words: &[String], is_handed: bool, has_certificates: bool) -> Result<Vec<Asked>, Fault> {
    let default = ["127.0.0.1:8080".to_string()];
    let words = if words.is_empty() && !is_handed { &default } else { words };
    let mut asked = Vec::new();
    for word in words {
        let (place, speaks_tls) = addresses::spoken(word, has_certificates);
        if speaks_tls && !has_certificates {
            return Err(Fault::words(format_args!("{}: there is no --tls-cert", word)));
        }
        asked.extend(addresses::read(place)?.into_iter().map(|address| Asked { word: word.clone(), address, speaks_tls }));
    }
    Ok(asked)
}

/// Runs the program and serves; the status is that of the end.
fn serve(options: &Options, listeners: Vec<Listener>, standby: Option<Standby>, files: Files) -> Result<i32, Fault> {
    let signals = File::from(system::signals()?);
    let memory = options.memory.unwrap_or_else(half_of_memory);
    let mut runs = Runs::new(&options.program, options.waits);
    let (mut child, pipes) = begin(&runs, memory)?;
    let most = (options.connections, options.connections_per_address);
    let clients = clients::Clients::new(poll::Poll::new()?, options.limits, most, options.window, options.proxies.clone());
    let keeps_late = options.program.windows(2).any(|words| words[0] == "--sync" && words[1] == "second");
    let manner =
        Manner { grace: options.grace, keeps_late, space: Space::of(&options.program), lease: options.lease().map(Lease::new), standby };
    let mut server = Server::new(clients, listeners, signals, files, Telling { options, memory }, manner)?;
    server.begin(pipes)?;
    loop {
        match server.run() {
            End::Due => {
                let (next, pipes) = begin(&runs, memory)?;
                child = next;
                server.begin(pipes)?;
            }
            End::Program if pauses(&mut server, &mut runs, &mut child) => {}
            End::LeaseOver => {
                // A program that waits for a file system which hangs can't be killed, and so isn't waited for.
                let _ = child.kill();
                say(format_args!(
                    "the lease of the store is over: its file could not be touched in time, and another machine may serve it"
                ));
                return Ok(LEASE_OVER);
            }
            why => {
                let (is_running, patience, held) = (server.has_program(), server.patience(), server.take_held());
                // The program sees the end of its input.
                drop(server);
                return Ok(if is_running { end_of(&mut child, held, why, patience) } else { STOPPED });
            }
        }
    }
}

/// Runs the program.
fn begin(runs: &Runs, memory: u64) -> Result<(Child, Pipes), Fault> {
    let started = program::start(runs.words(), Some(memory).filter(|bytes| *bytes > 0), runs.is_try());
    started.map_err(|error| Fault::new(NO_PROGRAM, format_args!("{}: {}", runs.words()[0].to_string_lossy(), error)))
}

/// Whether a program that has ended is run again; then why and when is said, and it is paused until then.
fn pauses(server: &mut Server, runs: &mut Runs, child: &mut Child) -> bool {
    if server.is_stopping() {
        return false;
    }
    let served = server.served();
    let status = wait(child, server.patience());
    let again = match runs.again(status, served) {
        Some(again) => again,
        None => return false,
    };
    if !again.is_known {
        server.take_held().into_iter().for_each(Held::end);
        tell_again(again, status);
    }
    server.pause(again.pause, again.is_try);
    true
}

/// Says why, and when, a program is run again that has ended so.
fn tell_again(again: Again, status: Option<ExitStatus>) {
    if again.is_try {
        return say(format_args!("{}: waiting for it", again.why));
    }
    let status = status.map_or("ended".into(), |it| it.to_string());
    let when = match again.pause / 1000 {
        0 => "at once".into(),
        1 => "in 1 second".into(),
        seconds => format!("in {} seconds", seconds),
    };
    say(format_args!("the program {} ({}); all connections are ended, and it is run again {}", again.why, status, when));
}

fn half_of_memory() -> u64 {
    let told = read_to_string("/proc/meminfo").unwrap_or_default();
    let kilobytes = told.split_whitespace().nth(1).and_then(|word| word.parse::<u64>().ok());
    kilobytes.map_or(0, |count| count * 512)
}

/// Waits for the program to end, and kills it behind so many milliseconds; its status, if that is known.
fn wait(child: &mut Child, most: u64) -> Option<ExitStatus> {
    let latest = Instant::now() + Duration::from_millis(most);
    loop {
        match child.try_wait() {
            Ok(None) if Instant::now() < latest => sleep(Duration::from_millis(5)),
            Ok(None) => {
                let _ = child.kill();
                return child.wait().ok();
            }
            result => return result.ok().flatten(),
        }
    }
}

/// Waits for the program to end, and tells what it was.
fn end_of(child: &mut Child, held: Option<Held>, why: End, patience: u64) -> i32 {
    let status = wait(child, if matches!(why, End::Killed) { 0 } else { patience });
    held.into_iter().for_each(Held::end);
    let told = status.map_or("ended".into(), |it| it.to_string());
    let code = status.and_then(|it| it.code());
    match why {
        End::Stopped if code.map_or(true, |it| it <= ALL_KEPT) => return STOPPED,
        End::Killed | End::Due | End::LeaseOver => return STOPPED,
        End::Stopped | End::Program => say(format_args!("the program has ended: {}", told)),
        End::BadFrame => {
            say(format_args!("the program tells what is no frame ({})", told));
            return WRONG_FRAME;
        }
        End::NoAddress(fault) => {
            say(format_args!("{}", fault));
            return fault.status();
        }
        End::Failed(what, error) => {
            say(format_args!("{}: {}", what, error));
            return FAILED;
        }
    }
    match (status, code) {
        (None, _) => FAILED,
        (_, Some(code)) => (PROGRAM_ENDED + code).min(LAST_OF_PROGRAM),
        _ => PROGRAM_KILLED,
    }
}
