//! Tells whoever started this process how far it is, as systemd wants it: one datagram to the socket NOTIFY_SOCKET.
use crate::{addresses, say, system};
use std::env;
use std::path::Path;

const TOLD: &str = "NOTIFY_SOCKET";

/// Nobody is told where nobody asks. One that can't be told doesn't matter.
pub fn notify(state: &str) {
    let told = env::var_os(TOLD).map(|path| {
        let to = addresses::unix_bytes(Path::new(&path))?;
        let socket = system::new_socket(system::UNIX, system::DATAGRAM)?;
        system::send_to(&socket, state.as_bytes(), &to)
    });
    if let Some(Err(error)) = told {
        say(format_args!("{}: {}", TOLD, error));
    }
}
