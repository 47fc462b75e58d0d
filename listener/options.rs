//! The words of the command line.
use crate::fault::Fault;
use crate::lease;
use crate::proxied::Proxies;
use crate::times::Limits;
use std::ffi::OsString;
use std::path::PathBuf;

pub const USAGE: &str = "\
usage: listen [OPTION VALUE].. [--wait] [PORT] PROGRAM [WORD..]

Listens for clients, runs the program, and moves their bytes to it and back, in frames. Prints a URL for each address once the program is ready.

  --listen ADDRESS:PORT           where to listen, several times: IPv4, [IPv6], a name, unix:PATH or unix:PATH,mode=660
                                  (600 without it); 127.0.0.1 at PORT, else 8080, where nothing is said or handed over
  --connections COUNT             how many clients are served at a time; 1000 without it
  --connections-per-address COUNT how many of them from one address, or one network of IPv6; a quarter without it
  --idle SECONDS                  how long a client may rest between requests; 120 without it
  --head SECONDS                  how long it may take to send a request; 20 without it
  --rate BYTES                    each so many bytes of a request give it a second more; 500 without it
  --stall SECONDS                 how long it may take nothing of an answer; 60 without it
  --linger SECONDS                how long a connection that is over is still read, so that its last answer is seen; 5
  --grace SECONDS                 how long what has begun goes on behind a first SIGTERM; 10 without it
  --memory BYTES                  how much the program may take, 0 for no limit; half of the machine's without it
  --window BYTES                  the window of the program; 262144 without it
  --users FILE                    who may log in, where the program has --login: it is told the text of the file first of all, and again
                                  on SIGHUP; not over 1 MiB
  --tls-cert FILE                 TLS is spoken at all addresses but unix sockets and those with ,plain behind them: a certificate with its
                                  chain, in PEM; several times, each with a --tls-key; a client gets the first one with the name that it
                                  asks for, else the first. Read again on SIGHUP
  --tls-key FILE                  its key, in PEM, without a password
  --proxy-protocol ADDRESSES      each connection from there (addresses, networks as 10.0.0.0/8, or unix, with commas between) begins with a
                                  header of the PROXY protocol, version 2, which tells where its client is
  --wait                          for a standby: while the file of the program's --store is in use, or can't be opened or read, the program
                                  is run again each half second; clients get in only while it serves. Not with sockets that are handed over
";

/// One address has such a part of all places, where nothing else is said.
const PLACES_OF_ONE: usize = 4;

pub fn is_numeral(word: &str) -> bool {
    !word.is_empty() && word.bytes().all(|byte| byte.is_ascii_digit())
}

/// An Err says what a port is.
pub fn read_port(word: &str) -> Result<u16, Fault> {
    let port = Some(word).filter(|word| is_numeral(word)).and_then(|word| word.parse().ok());
    port.ok_or_else(|| Fault::words(format_args!("{} is no port: a port is a number from 0, for any that is free, to 65535", word)))
}

#[derive(Debug)]
pub struct Options {
    pub addresses: Vec<String>,
    pub connections: usize,
    pub connections_per_address: usize,
    pub limits: Limits,
    pub grace: u64,
    /// None where nothing was said.
    pub memory: Option<u64>,
    pub window: u64,
    /// The file of users, where there is one.
    pub users: Option<PathBuf>,
    /// Files of certificates, with those of their keys.
    pub certificates: Vec<(PathBuf, PathBuf)>,
    pub proxies: Proxies,
    /// Whether the program's store is waited for.
    pub waits: bool,
    pub program: Vec<OsString>,
}

impl Options {
    fn new() -> Options {
        let limits = Limits { idle: 120_000, head: 20_000, rate: 500, stall: 60_000, linger: 5_000 };
        Options {
            addresses: Vec::new(),
            connections: 1000,
            connections_per_address: 0,
            limits,
            grace: 10_000,
            memory: None,
            window: 262_144,
            users: None,
            certificates: Vec::new(),
            proxies: Proxies::default(),
            waits: false,
            program: Vec::new(),
        }
    }

    /// An Err is why the words are wrong.
    pub fn read(words: impl Iterator<Item = OsString>) -> Result<Options, Fault> {
        let (mut options, mut words) = (Options::new(), words.peekable());
        let mut keys = Vec::new();
        while let Some(name) = words.next_if(|word| word.to_str().map_or(false, |it| it.starts_with("--"))) {
            let name = name.to_string_lossy().into_owned();
            if name == "--wait" {
                options.waits = true;
                continue;
            }
            let value = words.next().ok_or_else(|| Fault::words(format_args!("{} has no value", name)))?;
            match name.as_str() {
                "--tls-cert" | "--tls-key" if value.is_empty() => return Err(Fault::words(format_args!("{} names no file", name))),
                "--tls-cert" => options.certificates.push((value.into(), PathBuf::new())),
                "--tls-key" => keys.push(value.into()),
                _ => options.set(&name, value.to_str().unwrap_or(""))?,
            }
        }
        if let Some(port) = words.next_if(|word| is_numeral(&word.to_string_lossy())) {
            options.addresses.push(format!("127.0.0.1:{}", read_port(&port.to_string_lossy())?));
        }
        if keys.len() != options.certificates.len() {
            return Err(Fault::words(format_args!("each --tls-cert needs a --tls-key, in the same order")));
        }
        options.certificates.iter_mut().zip(keys).for_each(|(pair, key)| pair.1 = key);
        if options.connections_per_address == 0 {
            options.connections_per_address = (options.connections / PLACES_OF_ONE).max(1);
        }
        options.program = words.collect();
        options.check_program()?;
        Ok(options)
    }

    /// Whether the program has this word.
    pub fn program_has(&self, name: &str) -> bool {
        self.program.iter().any(|word| word == name)
    }

    /// The lease that the program has of its store's file, in seconds.
    pub fn lease(&self) -> Option<u64> {
        let pair = self.program.windows(2).find(|pair| pair[0] == "--lease")?;
        pair[1].to_str()?.parse().ok().filter(|seconds| (1..=lease::LONGEST).contains(seconds))
    }

    /// Whether clients get in only while the program serves.
    pub fn lets_in_late(&self) -> bool {
        self.waits || self.lease().is_some()
    }

    fn check_program(&self) -> Result<(), Fault> {
        if self.program.is_empty() {
            return Err(Fault::words(format_args!("there is no program")));
        }
        if self.users.is_some() && !self.program_has("--login") {
            return Err(Fault::words(format_args!("--users: the program has no --login, and so would let in whoever comes")));
        }
        if self.waits && !self.program.windows(2).any(|pair| pair[0] == "--store") {
            return Err(Fault::words(format_args!("--wait: the program has no --store FILE to wait for")));
        }
        let written = ["--address-header", "--user-header"].into_iter().find(|name| self.program_has(name));
        match written {
            Some(name) if !self.proxies.is_empty() => {
                Err(Fault::words(format_args!("--proxy-protocol: not with {}, which clients then write themselves", name)))
            }
            _ => Ok(()),
        }
    }

    fn set(&mut self, name: &str, value: &str) -> Result<(), Fault> {
        if name == "--listen" {
            self.addresses.push(value.into());
            return Ok(());
        }
        if name == "--proxy-protocol" {
            return self.proxies.add(value);
        }
        if name == "--users" && !value.is_empty() {
            self.users = Some(value.into());
            return Ok(());
        }
        let number = value.parse::<u32>().ok().map(u64::from);
        let (least, wanted) = match name {
            "--connections" | "--connections-per-address" | "--rate" | "--window" => (1, number),
            "--idle" | "--head" | "--stall" => (1, number),
            "--linger" | "--grace" => (0, number),
            "--memory" => (0, value.parse().ok()),
            "--users" => return Err(Fault::words(format_args!("--users names no file"))),
            _ => return Err(Fault::words(format_args!("there is no option {}", name))),
        };
        let number = wanted.filter(|it| *it >= least).ok_or_else(|| Fault::words(format_args!("{} {}: not such a number", name, value)))?;
        match name {
            "--connections" => self.connections = number as usize,
            "--connections-per-address" => self.connections_per_address = number as usize,
            "--rate" => self.limits.rate = number,
            "--idle" => self.limits.idle = number * 1000,
            "--head" => self.limits.head = number * 1000,
            "--stall" => self.limits.stall = number * 1000,
            "--linger" => self.limits.linger = number * 1000,
            "--grace" => self.grace = number * 1000,
            "--memory" => self.memory = Some(number),
            _ => self.window = number,
        }
        Ok(())
    }
}

#[cfg(test)]
mod tests {
    use super::*;

    fn read(words: &str) -> Result<Options, Fault> {
        Options::read(words.split_whitespace().map(OsString::from))
    }

    #[test]
    fn words_are_read() {
        let options = read("--idle 3 --listen a:1 --connections 10 --listen b:2 80 program --idle 4").unwrap();
        assert_eq!(options.addresses, ["a:1", "b:2", "127.0.0.1:80"]);
        assert_eq!((options.limits.idle, options.connections_per_address), (3000, 2));
        assert_eq!(options.program, ["program", "--idle", "4"]);
        assert_eq!(read("program 80").unwrap().addresses.len(), 0);
        let pairs = read("--tls-cert a --tls-cert b --tls-key c --tls-key d p").unwrap().certificates;
        assert_eq!(pairs, [("a".into(), "c".into()), ("b".into(), "d".into())]);
        assert_eq!(read("--users a --users b program --login").unwrap().users, Some(PathBuf::from("b")));
        let waiting = read("--wait --idle 3 80 program --store a").unwrap();
        assert_eq!((waiting.waits, waiting.limits.idle, waiting.addresses.len(), options.waits), (true, 3000, 1, false));
        for (words, lease) in [
            ("p --lease 4", Some(4)),
            ("p --lease 60", Some(60)),
            ("p --lease 61", None),
            ("p --lease 0", None),
            ("p --lease", None),
            ("p", None),
        ] {
            let read = read(words).unwrap();
            assert_eq!((read.lease(), read.lets_in_late()), (lease, lease.is_some()), "{}", words);
        }
    }

    #[test]
    fn wrong_words_are_refused() {
        for words in
            ["", "80", "--idle 3", "--idle x program", "--idle 0 program", "--idle", "--none 1 program", "--rate -1 p", "--users a p"]
                .into_iter()
                .chain(["--tls-cert a p", "--tls-key a p", "--tls-cert a --tls-cert b --tls-key c p"])
                .chain(["--wait p", "--wait p --store", "--wait"])
                .chain(["--proxy-protocol x p", "--proxy-protocol unix p --user-header a", "--proxy-protocol unix p --address-header a"])
        {
            assert!(read(words).is_err(), "{}", words);
        }
        for port in ["65536", "99999999999999999999"] {
            assert!(read(&format!("{} program", port)).unwrap_err().to_string().starts_with(&format!("{} is no port: ", port)));
        }
    }
}
