//! Where clients are let in: addresses of IPv4 and IPv6, sockets of Unix, and sockets that whoever started this process hands over.
use crate::fault::{Fault, NO_ADDRESS};
use crate::options::read_port;
use crate::sockets::{open_unix, OwnFile};
use crate::system;
use std::env;
use std::io;
use std::iter::repeat;
use std::net::{IpAddr, SocketAddr, TcpListener, TcpStream, ToSocketAddrs};
use std::os::unix::ffi::OsStrExt;
use std::os::unix::io::{AsRawFd, OwnedFd, RawFd};
use std::os::unix::net::UnixListener;
use std::path::{Path, PathBuf};

#[derive(Clone, Debug, PartialEq)]
pub enum Address {
    Internet(SocketAddr),
    /// A path, and the mode of the file there.
    Unix(PathBuf, u32),
}

/// A word without `,tls` or `,plain` behind it, and whether TLS is spoken there: unless it says so, at all but unix sockets where there are certificates.
pub fn spoken(word: &str, has_certificates: bool) -> (&str, bool) {
    match (word.strip_suffix(",tls"), word.strip_suffix(",plain")) {
        (Some(rest), _) => (rest, true),
        (_, Some(rest)) => (rest, false),
        _ => (word, has_certificates && !word.starts_with("unix:")),
    }
}

/// What `ADDRESS:PORT`, `[ADDRESS]:PORT`, `NAME:PORT`, `unix:PATH` or `unix:PATH,mode=OCTAL` stands for.
pub fn read(word: &str) -> Result<Vec<Address>, Fault> {
    if let Some(rest) = word.strip_prefix("unix:") {
        let (path, mode) = rest.split_once(",mode=").unwrap_or((rest, "600"));
        let mode = u32::from_str_radix(mode, 8).ok().filter(|mode| *mode <= 0o777);
        return match mode {
            Some(mode) if !path.is_empty() => Ok(vec![Address::Unix(PathBuf::from(path), mode)]),
            _ => Err(Fault::words(format_args!("{} is no address: unix:PATH, or unix:PATH,mode=660", word))),
        };
    }
    let port = word.rsplit_once(':').map(|(_, port)| port);
    let port = port.ok_or_else(|| Fault::words(format_args!("{} is no address: it has no port, as in 127.0.0.1:8080", word)))?;
    read_port(port).map_err(|why| Fault::words(format_args!("{} is no address: {}", word, why)))?;
    let found = word.to_socket_addrs().map_err(|error| Fault::words(format_args!("{} is no address: {}", word, error)))?;
    Ok(found.map(Address::Internet).collect())
}

/// An address as `bind` takes it.
fn internet_bytes(address: &SocketAddr) -> Vec<u8> {
    let port = address.port().to_be_bytes();
    match address {
        SocketAddr::V4(it) => [&(system::INTERNET_4 as u16).to_ne_bytes()[..], &port, &it.ip().octets(), &[0; 8]].concat(),
        SocketAddr::V6(it) => {
            let (flow, scope) = (it.flowinfo().to_be_bytes(), it.scope_id().to_ne_bytes());
            [&(system::INTERNET_6 as u16).to_ne_bytes()[..], &port, &flow, &it.ip().octets(), &scope].concat()
        }
    }
}

/// The path of a socket has so many bytes at most.
const LONGEST_PATH: usize = 107;

/// The same of a path. An `@` in front stands for a name that is no file's.
pub fn unix_bytes(path: &Path) -> io::Result<Vec<u8>> {
    let mut name = path.as_os_str().as_bytes().to_vec();
    if name.is_empty() || name.len() > LONGEST_PATH || name.contains(&0) {
        return Err(io::Error::new(io::ErrorKind::InvalidInput, "the path has more than 107 bytes"));
    }
    match name[0] {
        b'@' => name[0] = 0,
        _ => name.push(0),
    }
    Ok([&(system::UNIX as u16).to_ne_bytes()[..], &name].concat())
}

/// A client of IPv4 that comes to a socket of IPv6, as a handed one may be, has its own address all the same.
pub fn plain(address: IpAddr) -> IpAddr {
    match address {
        IpAddr::V6(it) => it.to_ipv4_mapped().map_or(address, IpAddr::V4),
        IpAddr::V4(_) => address,
    }
}

enum Socket {
    Internet(TcpListener),
    Unix(UnixListener),
}

/// An address at which clients are to come, the word that asks for it, and whether TLS is spoken there.
pub struct Asked {
    pub word: String,
    pub address: Address,
    pub speaks_tls: bool,
}

impl Asked {
    /// Where any port will do, it is the same one the next time.
    pub fn open(&mut self) -> Result<Listener, Fault> {
        let listener = Listener::open(&self.word, &self.address, self.speaks_tls)?;
        if let Socket::Internet(socket) = &listener.socket {
            self.address = socket.local_addr().map_or(self.address.clone(), Address::Internet);
        }
        Ok(listener)
    }
}

pub struct Listener {
    socket: Socket,
    /// The file of a socket of Unix, where it was made here. It goes with this.
    _file: Option<OwnFile>,
    pub speaks_tls: bool,
}

impl Listener {
    /// An Err names the word that asks for it.
    fn open(word: &str, address: &Address, speaks_tls: bool) -> Result<Listener, Fault> {
        let opened = match address {
            Address::Internet(address) => open_internet(address).map(|socket| (socket, None)),
            Address::Unix(path, mode) => open_unix(path, *mode).map(|(listener, file)| (Socket::Unix(listener), Some(file))),
        };
        let (socket, file) = opened.map_err(|error| match (error.kind(), address) {
            (io::ErrorKind::AddrInUse, Address::Internet(it)) => {
                Fault::new(NO_ADDRESS, format_args!("port {} is in use; take another one, or 0 for any that is free", it.port()))
            }
            _ => Fault::new(NO_ADDRESS, format_args!("{}: {}", word, error)),
        })?;
        Ok(Listener { socket, _file: file, speaks_tls })
    }

    /// A socket of either kind.
    fn of(socket: OwnedFd, speaks_tls: bool) -> io::Result<Listener> {
        system::control(&socket, system::BEHAVIOUR, system::NON_BLOCKING)?;
        let listener = TcpListener::from(socket);
        let (socket, speaks_tls) = match listener.local_addr() {
            Ok(_) => (Socket::Internet(listener), speaks_tls),
            Err(_) => (Socket::Unix(UnixListener::from(OwnedFd::from(listener))), false),
        };
        Ok(Listener { socket, _file: None, speaks_tls })
    }

    /// The next client, and its address; none where it comes by a socket of Unix. Neither of its calls blocks.
    pub fn accept(&self) -> io::Result<(TcpStream, Option<IpAddr>)> {
        let (socket, place) = match &self.socket {
            Socket::Internet(listener) => listener.accept().map(|(socket, place)| (socket, Some(plain(place.ip()))))?,
            Socket::Unix(listener) => (TcpStream::from(OwnedFd::from(listener.accept()?.0)), None),
        };
        socket.set_nonblocking(true)?;
        Ok((socket, place))
    }

    pub fn file(&self) -> RawFd {
        match &self.socket {
            Socket::Internet(listener) => listener.as_raw_fd(),
            Socket::Unix(listener) => listener.as_raw_fd(),
        }
    }

    /// Its URL, or its path.
    pub fn name(&self) -> String {
        let scheme = if self.speaks_tls { "https" } else { "http" };
        match &self.socket {
            Socket::Internet(listener) => listener.local_addr().map_or_else(|_| "?".into(), |at| format!("{}://{}/", scheme, at)),
            Socket::Unix(listener) => {
                let address = listener.local_addr();
                let path = address.as_ref().ok().and_then(|it| it.as_pathname());
                format!("unix:{}", path.map_or("?".into(), |it| it.to_string_lossy()))
            }
        }
    }

    /// Whether clients of other machines get there.
    pub fn is_open(&self) -> bool {
        match &self.socket {
            Socket::Internet(listener) => listener.local_addr().map_or(true, |at| !at.ip().is_loopback()),
            Socket::Unix(..) => false,
        }
    }
}

fn open_internet(address: &SocketAddr) -> io::Result<Socket> {
    let family = if address.is_ipv4() { system::INTERNET_4 } else { system::INTERNET_6 };
    let socket = system::new_socket(family, system::STREAM)?;
    system::set_option(&socket, system::REUSE_ADDRESS, 1)?;
    if address.is_ipv6() {
        system::set_option(&socket, system::ONLY_IPV6, 1)?;
    }
    system::bind_to(&socket, &internet_bytes(address))?;
    system::listen_on(&socket)?;
    Ok(Socket::Internet(TcpListener::from(socket)))
}

/// The first one that is handed over.
const FIRST_HANDED: RawFd = 3;

/// TLS is not spoken where it has this name.
const PLAIN: &str = "plain";

/// The sockets that are handed over, as systemd does it: LISTEN_FDS of them for the process LISTEN_PID, with the names LISTEN_FDNAMES.
pub fn handed_over(has_certificates: bool) -> Result<Vec<Listener>, Fault> {
    let number = |name| env::var(name).ok().and_then(|word| word.parse::<RawFd>().ok());
    if number("LISTEN_PID") != Some(std::process::id() as RawFd) {
        return Ok(Vec::new());
    }
    let count = number("LISTEN_FDS").unwrap_or(0);
    let names = env::var("LISTEN_FDNAMES").unwrap_or_default();
    let is_plain = names.split(':').map(|name| name == PLAIN).chain(repeat(false));
    let files = (FIRST_HANDED..FIRST_HANDED + count).zip(is_plain);
    let taken = files.map(|(file, is_plain)| Listener::of(system::handed_over(file)?, has_certificates && !is_plain));
    let all: io::Result<Vec<_>> = taken.collect();
    all.map_err(|error| Fault::new(NO_ADDRESS, format_args!("a socket that is handed over: {}", error)))
}

#[cfg(test)]
mod tests {
    use super::*;

    #[test]
    fn addresses_are_read() {
        assert_eq!(read("127.0.0.1:80"), Ok(vec![Address::Internet("127.0.0.1:80".parse().unwrap())]));
        assert_eq!(read("[::1]:80"), Ok(vec![Address::Internet("[::1]:80".parse().unwrap())]));
        assert_eq!(read("unix:/a"), Ok(vec![Address::Unix("/a".into(), 0o600)]));
        assert_eq!(read("unix:/a,mode=666"), Ok(vec![Address::Unix("/a".into(), 0o666)]));
        for word in ["", "80", "127.0.0.1", "127.0.0.1:65536", "unix:", "unix:/a,mode=8", "unix:/a,mode=1777"] {
            assert!(read(word).is_err(), "{}", word);
        }
    }

    #[test]
    fn words_say_where_tls_is_spoken() {
        for (word, has, wanted) in [
            ("a:1", false, ("a:1", false)),
            ("a:1", true, ("a:1", true)),
            ("a:1,plain", true, ("a:1", false)),
            ("unix:/a,mode=660", true, ("unix:/a,mode=660", false)),
            ("unix:/a,mode=660,tls", true, ("unix:/a,mode=660", true)),
            ("a:1,tls", false, ("a:1", true)),
        ] {
            assert_eq!(spoken(word, has), wanted, "{}", word);
        }
    }

    #[test]
    fn addresses_of_clients_are_plain() {
        for (address, wanted) in
            [("192.0.2.1", "192.0.2.1"), ("::ffff:192.0.2.1", "192.0.2.1"), ("2001:db8::1", "2001:db8::1"), ("::1", "::1")]
        {
            assert_eq!(plain(address.parse().unwrap()).to_string(), wanted);
        }
    }

    #[test]
    fn addresses_are_as_the_kernel_has_them() {
        assert_eq!(internet_bytes(&"1.2.3.4:258".parse().unwrap())[2..], [1, 2, 1, 2, 3, 4, 0, 0, 0, 0, 0, 0, 0, 0]);
        assert_eq!(internet_bytes(&"[::1]:258".parse().unwrap()).len(), 28);
        assert_eq!(unix_bytes(Path::new("/a")).unwrap()[2..], *b"/a\0");
        assert_eq!(unix_bytes(Path::new("@a")).unwrap()[2..], *b"\0a");
    }
}
