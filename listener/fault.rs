//! What keeps the listener from going on, and the status with which it ends for it.
use std::fmt::{self, Arguments, Display, Formatter};
use std::io;

/// A signal has ended it.
pub const STOPPED: i32 = 0;
/// No client can come.
pub const NO_ADDRESS: i32 = 1;
pub const WRONG_WORDS: i32 = 2;
/// The program can't be run.
pub const NO_PROGRAM: i32 = 3;
pub const TOO_FEW_FILES: i32 = 4;
/// The program tells what is no frame.
pub const WRONG_FRAME: i32 = 5;
/// The system fails it.
pub const FAILED: i32 = 6;
/// The users can't be read.
pub const NO_USERS: i32 = 7;
/// TLS can't be spoken: certificates or keys can't be read, or there is no library.
pub const NO_TLS: i32 = 8;
/// The lease of the store's file is over.
pub const LEASE_OVER: i32 = 9;
/// Where the program has ended by itself: its own status behind this, or the last of these; and where a signal has ended it.
pub const PROGRAM_ENDED: i32 = 20;
pub const LAST_OF_PROGRAM: i32 = 39;
pub const PROGRAM_KILLED: i32 = 40;

/// Why something can't be done. Where that is at the start, it ends with this status.
#[derive(Debug, PartialEq)]
pub struct Fault {
    status: i32,
    why: String,
}

impl Fault {
    pub fn new(status: i32, why: Arguments) -> Fault {
        Fault { status, why: why.to_string() }
    }

    pub fn words(why: Arguments) -> Fault {
        Fault::new(WRONG_WORDS, why)
    }

    pub fn tls(why: Arguments) -> Fault {
        Fault::new(NO_TLS, why)
    }

    pub fn status(&self) -> i32 {
        self.status
    }
}

impl Display for Fault {
    fn fmt(&self, to: &mut Formatter) -> fmt::Result {
        to.write_str(&self.why)
    }
}

/// For what there is no remedy.
impl From<io::Error> for Fault {
    fn from(error: io::Error) -> Fault {
        Fault::new(FAILED, format_args!("the system fails: {}", error))
    }
}
