//! Certificates and their keys: read at the start and on a hang-up, and the keys of tickets, which are made anew in time.
use crate::fault::Fault;
use crate::openssl::{Contexts, Library, TICKET_KEYS};
use crate::say;
use std::fs::File;
use std::io::{self, Read};
use std::os::unix::fs::PermissionsExt;
use std::path::{Path, PathBuf};
use std::rc::Rc;

/// For so many milliseconds a key seals tickets. What it sealed opens nothing behind that.
const TURNS: u64 = 12 * 60 * 60 * 1000;
/// A file has so many bytes at most.
const LARGEST: u64 = 1 << 20;
/// The end of a certificate is told each day, from so many days before.
const DAY: u64 = 24 * 60 * 60 * 1000;
const SECONDS_OF_DAY: i64 = 24 * 60 * 60;
const TOLD_BEFORE: i64 = 14;
/// Whoever is neither the owner nor of the group may read.
const OTHERS_READ: u32 = 0o004;

pub struct Certificates {
    library: &'static Library,
    /// Files of certificates, with those of their keys.
    pairs: Vec<(PathBuf, PathBuf)>,
    keys: [u8; TICKET_KEYS],
    turns: u64,
    /// When it is told next what is to be known of them.
    tells: u64,
    contexts: Rc<Contexts>,
}

impl Certificates {
    /// None where there is no pair: then no library is opened.
    pub fn open(pairs: &[(PathBuf, PathBuf)]) -> Result<Option<Certificates>, Fault> {
        if pairs.is_empty() {
            return Ok(None);
        }
        let library = Library::open()?;
        let mut keys = new_keys().map_err(|error| Fault::tls(format_args!("keys of tickets: {}", error)))?;
        let contexts = read(library, pairs, &mut keys)?;
        let it = Certificates { library, pairs: pairs.to_vec(), keys, turns: TURNS, tells: DAY, contexts };
        it.tell_remarks();
        Ok(Some(it))
    }

    pub fn contexts(&self) -> Rc<Contexts> {
        self.contexts.clone()
    }

    /// Where something is wrong, all stays. Connections that have begun go on with what they have.
    pub fn read_again(&mut self) -> Result<(), Fault> {
        self.contexts = read(self.library, &self.pairs, &mut self.keys)?;
        self.tell_remarks();
        Ok(())
    }

    /// When something is to be done next without a client, by a clock in milliseconds.
    pub fn due(&self) -> u64 {
        self.turns.min(self.tells)
    }

    /// Does what is due.
    pub fn look(&mut self, now: u64) {
        if now >= self.turns {
            self.turn_keys();
            self.turns = now + TURNS;
        }
        if now >= self.tells {
            self.tell_remarks();
            self.tells = now + DAY;
        }
    }

    /// Makes the keys of tickets anew.
    fn turn_keys(&mut self) {
        if let Ok(keys) = new_keys() {
            self.keys = keys;
            self.contexts.set_ticket_keys(&mut self.keys);
        }
    }

    /// Says what whoever runs this has to know: certificates that end soon or are over, and keys that everyone may read.
    fn tell_remarks(&self) {
        self.remarks().iter().for_each(|it| say(format_args!("{}", it)));
    }

    fn remarks(&self) -> Vec<String> {
        let left = self.contexts.seconds_left();
        let ends = self.pairs.iter().zip(left).filter_map(|((path, _), left)| end_of(path, left?));
        let is_open = |path: &Path| path.metadata().map_or(false, |it| it.permissions().mode() & OTHERS_READ != 0);
        let open = self.pairs.iter().filter(|(_, key)| is_open(key));
        ends.chain(open.map(|(_, key)| format!("everyone on this machine may read the key {}: chmod o-r", key.display()))).collect()
    }
}

/// What is to be told of a certificate that is still valid for so many seconds.
fn end_of(path: &Path, left: i64) -> Option<String> {
    match left.div_euclid(SECONDS_OF_DAY) {
        days if days < 0 => Some(format!("the certificate of {} is no longer valid", path.display())),
        0 => Some(format!("the certificate of {} ends within a day", path.display())),
        1 => Some(format!("the certificate of {} ends in 1 day", path.display())),
        days if days < TOLD_BEFORE => Some(format!("the certificate of {} ends in {} days", path.display(), days)),
        _ => None,
    }
}

fn new_keys() -> io::Result<[u8; TICKET_KEYS]> {
    let mut keys = [0; TICKET_KEYS];
    File::open("/dev/urandom")?.read_exact(&mut keys)?;
    Ok(keys)
}

fn read(library: &'static Library, pairs: &[(PathBuf, PathBuf)], keys: &mut [u8; TICKET_KEYS]) -> Result<Rc<Contexts>, Fault> {
    pairs.iter().flat_map(|(certificate, key)| [certificate, key]).try_for_each(|path| look_at(path))?;
    Contexts::read(library, pairs, keys)
}

/// Whether the library can read a file: it would wait for a pipe, and doesn't say why a file can't be opened.
fn look_at(path: &Path) -> Result<(), Fault> {
    let fault = |error| Fault::tls(format_args!("{}: {}", path.display(), error));
    let about = path.metadata().map_err(fault)?;
    if !about.is_file() || about.len() > LARGEST {
        return Err(Fault::tls(format_args!("{} is no file of {} bytes at most", path.display(), LARGEST)));
    }
    File::open(path).map(drop).map_err(fault)
}

#[cfg(test)]
mod tests {
    use super::*;

    #[test]
    fn ends_are_told_in_time() {
        for (left, wanted) in [
            (-1, Some("is no longer valid")),
            (0, Some("ends within a day")),
            (SECONDS_OF_DAY - 1, Some("ends within a day")),
            (SECONDS_OF_DAY, Some("ends in 1 day")),
            (13 * SECONDS_OF_DAY, Some("ends in 13 days")),
            (14 * SECONDS_OF_DAY - 1, Some("ends in 13 days")),
            (14 * SECONDS_OF_DAY, None),
        ] {
            assert_eq!(end_of(Path::new("a"), left), wanted.map(|it| format!("the certificate of a {}", it)), "{}", left);
        }
    }
}
