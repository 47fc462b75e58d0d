//! The system calls that std lacks. All that is unsafe stands here, but for TLS.
use std::ffi::CStr;
use std::os::raw::{c_char, c_int, c_uint, c_void};
use std::os::unix::io::{AsRawFd, FromRawFd, OwnedFd, RawFd};
use std::os::unix::process::CommandExt;
use std::{io, process::Command, ptr::null_mut};

#[cfg(not(all(target_os = "linux", any(target_arch = "x86_64", target_arch = "aarch64"))))]
compile_error!("the numbers below are those of Linux on x86-64 and on 64-bit ARM; for another system they have to be looked up first");

pub const IN: u32 = 1;
pub const OUT: u32 = 4;
pub const ERROR: u32 = 8;
pub const HANG_UP: u32 = 16;
/// What is done to a poll.
pub const ADD: c_int = 1;
pub const REMOVE: c_int = 2;
pub const CHANGE: c_int = 3;

/// A hang-up. With an interrupt (2) and a request to terminate (15) it is one of the signals that are told in a file, and end neither this process nor the program.
pub const HUNG_UP: u32 = 1;
const SIGNALS: [u64; 16] = [1 | 1 << 1 | 1 << 14, 0, 0, 0, 0, 0, 0, 0, 0, 0, 0, 0, 0, 0, 0, 0];
/// The signal of a file that becomes longer than a process may make it, SIGXFSZ; and that a signal is ignored.
const TOO_LONG: c_int = 25;
const IGNORED: isize = 1;

/// Families of sockets.
pub const UNIX: c_int = 1;
pub const INTERNET_4: c_int = 2;
pub const INTERNET_6: c_int = 10;
pub const STREAM: c_int = 1;
pub const DATAGRAM: c_int = 2;
const CLOSED_ON_EXEC: c_int = 0o2000000;
pub const NON_BLOCKING: c_int = 0o4000;
pub const PIPE_SIZE: c_int = 1031;
pub const BEHAVIOUR: c_int = 4;
const SET_CLOSED_ON_EXEC: c_int = 2;
const IS_CLOSED_ON_EXEC: c_int = 1;
/// So many clients wait at most to be let in.
const WAITING: c_int = 4096;
/// No signal where nobody reads.
const NO_SIGNAL: c_int = 0x4000;
/// Pages are moved, and no call blocks.
const MOVED: c_uint = 1 | 2;
const BLOCK: c_int = 0;
/// A file is locked for this process alone, or the call fails.
const LOCKED_ALONE: c_int = 2 | 4;
/// ENOMEM, ENFILE, EMFILE and ENOBUFS.
pub const WANTS: [i32; 4] = [12, 23, 24, 105];

/// An option of a socket: its level and its name.
type SocketOption = (c_int, c_int);
pub const REUSE_ADDRESS: SocketOption = (1, 2);
pub const ONLY_IPV6: SocketOption = (41, 26);
pub const USER_TIMEOUT: SocketOption = (6, 18);
pub const UNSENT_AT_MOST: SocketOption = (6, 25);
pub const FILES: c_int = 7;
const ADDRESS_SPACE: c_int = 9;
/// The clock that goes on while the machine sleeps.
const SINCE_BOOT: c_int = 7;

/// An event, as the kernel lays it out.
#[cfg_attr(target_arch = "x86_64", repr(packed))]
#[repr(C)]
#[derive(Clone, Copy, Default)]
pub struct Event {
    pub events: u32,
    pub key: u64,
}

extern "C" {
    fn epoll_create1(flags: c_int) -> c_int;
    fn epoll_ctl(poll: c_int, what: c_int, file: c_int, event: *mut Event) -> c_int;
    fn epoll_wait(poll: c_int, events: *mut Event, most: c_int, milliseconds: c_int) -> c_int;
    fn socket(family: c_int, kind: c_int, protocol: c_int) -> c_int;
    fn bind(socket: c_int, address: *const u8, length: c_uint) -> c_int;
    fn listen(socket: c_int, waiting: c_int) -> c_int;
    fn sendto(socket: c_int, bytes: *const u8, length: usize, flags: c_int, to: *const u8, size: c_uint) -> isize;
    fn setsockopt(socket: c_int, level: c_int, name: c_int, value: *const c_int, length: c_uint) -> c_int;
    fn fcntl(file: c_int, command: c_int, ...) -> c_int;
    fn flock(file: c_int, how: c_int) -> c_int;
    fn splice(from: c_int, at: *mut c_void, to: c_int, place: *mut c_void, most: usize, flags: c_uint) -> isize;
    fn signalfd(file: c_int, signals: *const [u64; 16], flags: c_int) -> c_int;
    fn sigprocmask(how: c_int, signals: *const [u64; 16], before: *mut c_void) -> c_int;
    fn signal(number: c_int, action: isize) -> isize;
    fn getrlimit(what: c_int, limit: *mut [u64; 2]) -> c_int;
    fn setrlimit(what: c_int, limit: *const [u64; 2]) -> c_int;
    fn setsid() -> c_int;
    fn statvfs(path: *const c_char, told: *mut [u64; 16]) -> c_int;
    fn clock_gettime(clock: c_int, moment: *mut [i64; 2]) -> c_int;
}

fn checked<T: Default + PartialOrd>(result: T) -> io::Result<T> {
    let error = io::Error::last_os_error();
    Some(result).filter(|it| *it >= T::default()).ok_or(error)
}

fn owned(result: c_int) -> io::Result<OwnedFd> {
    // SAFETY: a file that a call just made, or that was handed over, is nobody else's.
    checked(result).map(|file| unsafe { OwnedFd::from_raw_fd(file) })
}

pub fn poll() -> io::Result<OwnedFd> {
    // SAFETY: it takes no pointer.
    owned(unsafe { epoll_create1(CLOSED_ON_EXEC) })
}

/// Adds a file to a poll, changes what is waited for, or removes it.
pub fn change_poll(poll: &OwnedFd, what: c_int, file: RawFd, events: u32, key: u64) -> io::Result<()> {
    let mut event = Event { events, key };
    // SAFETY: the event is laid out as the kernel has it, and is read within the call.
    checked(unsafe { epoll_ctl(poll.as_raw_fd(), what, file, &mut event) }).map(drop)
}

pub fn wait(poll: &OwnedFd, events: &mut [Event], milliseconds: c_int) -> io::Result<usize> {
    let most = events.len() as c_int;
    // SAFETY: there is room for so many events, and any bits are one.
    checked(unsafe { epoll_wait(poll.as_raw_fd(), events.as_mut_ptr(), most, milliseconds) }).map(|count| count as usize)
}

pub fn new_socket(family: c_int, kind: c_int) -> io::Result<OwnedFd> {
    // SAFETY: it takes no pointer.
    owned(unsafe { socket(family, kind | CLOSED_ON_EXEC | NON_BLOCKING, 0) })
}

pub fn bind_to(socket: &OwnedFd, address: &[u8]) -> io::Result<()> {
    // SAFETY: the address has so many bytes.
    checked(unsafe { bind(socket.as_raw_fd(), address.as_ptr(), address.len() as c_uint) }).map(drop)
}

pub fn listen_on(socket: &OwnedFd) -> io::Result<()> {
    // SAFETY: it takes no pointer.
    checked(unsafe { listen(socket.as_raw_fd(), WAITING) }).map(drop)
}

pub fn send_to(socket: &OwnedFd, bytes: &[u8], to: &[u8]) -> io::Result<()> {
    // SAFETY: both have so many bytes.
    checked(unsafe { sendto(socket.as_raw_fd(), bytes.as_ptr(), bytes.len(), NO_SIGNAL, to.as_ptr(), to.len() as c_uint) }).map(drop)
}

pub fn set_option(socket: &impl AsRawFd, option: SocketOption, value: c_int) -> io::Result<()> {
    // SAFETY: a c_int has four bytes.
    checked(unsafe { setsockopt(socket.as_raw_fd(), option.0, option.1, &value, 4) }).map(drop)
}

/// Sets how long a pipe is, or how a file behaves.
pub fn control(file: &impl AsRawFd, command: c_int, value: c_int) -> io::Result<()> {
    // SAFETY: these commands take a c_int.
    checked(unsafe { fcntl(file.as_raw_fd(), command, value) }).map(drop)
}

/// Locks a file until it is closed; an Err of WouldBlock where another process has it locked.
pub fn lock(file: &impl AsRawFd) -> io::Result<()> {
    // SAFETY: it takes no pointer.
    checked(unsafe { flock(file.as_raw_fd(), LOCKED_ALONE) }).map(drop)
}

/// A socket that whoever started this process left open for it; nobody else here may take it.
pub fn handed_over(file: RawFd) -> io::Result<OwnedFd> {
    // SAFETY: this command takes a c_int.
    checked(unsafe { fcntl(file, SET_CLOSED_ON_EXEC, IS_CLOSED_ON_EXEC) })?;
    owned(file)
}

/// Moves bytes from a pipe to a socket within the kernel.
pub fn move_bytes(from: &impl AsRawFd, to: &impl AsRawFd, most: usize) -> io::Result<usize> {
    // SAFETY: null stands for no place, as pipes and sockets have none.
    let count = unsafe { splice(from.as_raw_fd(), null_mut(), to.as_raw_fd(), null_mut(), most, MOVED) };
    checked(count).map(|count| count as usize)
}

fn block_signals() -> io::Result<c_int> {
    // SAFETY: a set of signals has 1024 bits, and null stands for no place.
    checked(unsafe { sigprocmask(BLOCK, &SIGNALS, null_mut()) })
}

/// A file in which the signals are told from now on.
pub fn signals() -> io::Result<OwnedFd> {
    block_signals()?;
    // SAFETY: as above; -1 stands for a new file.
    owned(unsafe { signalfd(-1, &SIGNALS, CLOSED_ON_EXEC | NON_BLOCKING) })
}

/// The milliseconds since the machine began, those in which it slept among them. Where the system doesn't tell it, none will ever come.
pub fn boot_time() -> u64 {
    let mut moment = [0; 2];
    // SAFETY: a moment is two numbers.
    let told = checked(unsafe { clock_gettime(SINCE_BOOT, &mut moment) });
    told.map_or(u64::MAX, |_| moment[0] as u64 * 1000 + moment[1] as u64 / 1_000_000)
}

/// How many bytes a user who isn't root may still write where the file of this path stands.
pub fn free_bytes(path: &CStr) -> io::Result<u64> {
    let mut told = [0; 16];
    // SAFETY: the path ends with a zero, and of what is told there are 112 bytes.
    checked(unsafe { statvfs(path.as_ptr(), &mut told) })?;
    // How long a block is, and how many are free.
    Ok(told[1].saturating_mul(told[4]))
}

/// Sets a limit of this process, not beyond the hardest, and tells what it is now.
pub fn limit(what: c_int, wanted: u64) -> io::Result<u64> {
    let mut limit = [0; 2];
    // SAFETY: a limit is two numbers.
    checked(unsafe { getrlimit(what, &mut limit) })?;
    limit[0] = wanted.min(limit[1]);
    // SAFETY: as above.
    checked(unsafe { setrlimit(what, &limit) }).map(|_| limit[0])
}

/// The command will run in a session of its own, and with so much memory at most. The end of its input ends it, and no signal that is told here; a file that becomes too long fails its write alone.
pub fn set_apart(command: &mut Command, memory: Option<u64>) {
    let apart = move || {
        // SAFETY: it takes nothing.
        checked(unsafe { setsid() })?;
        block_signals()?;
        // SAFETY: no function is set: the signal is ignored.
        checked(unsafe { signal(TOO_LONG, IGNORED) })?;
        memory.map_or(Ok(0), |bytes| limit(ADDRESS_SPACE, bytes)).map(drop)
    };
    // SAFETY: these calls may be made between fork and exec.
    unsafe { command.pre_exec(apart) };
}
