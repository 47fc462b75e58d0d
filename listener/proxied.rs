//! The header of the PROXY protocol, version 2, by which a proxy tells the address of its client (https://www.haproxy.org/download/2.6/doc/proxy-protocol.txt), and who is such a proxy.
use crate::addresses::plain;
use crate::fault::Fault;
use crate::options::is_numeral;
use std::fmt::{self, Display, Formatter};
use std::io::{self, Error, ErrorKind, Read};
use std::net::IpAddr;

const SIGNATURE: [u8; 12] = *b"\r\n\r\n\0\r\nQUIT\n";
/// The signature, the version with a command, the family, and the length of the rest.
const FIRST: usize = 16;
/// A longer header is refused. Addresses take 216 bytes at most; behind them come what proxies add.
const LONGEST: usize = FIRST + 2048;
const VERSION: u8 = 2;
const LOCAL: u8 = 0;
const PROXIED: u8 = 1;
const INTERNET_4: u8 = 1;
const INTERNET_6: u8 = 2;

/// Whom a header tells.
#[derive(Clone, Copy, Debug, PartialEq)]
pub enum Told {
    /// The proxy itself, as where it looks whether someone is there.
    Proxy,
    /// A client of the proxy; none where it has no address of IPv4 or IPv6.
    Client(Option<IpAddr>),
}

/// A header, as far as it has come.
#[derive(Default)]
pub struct Header {
    bytes: Vec<u8>,
}

impl Header {
    /// Whether nothing has come of it.
    pub fn is_empty(&self) -> bool {
        self.bytes.is_empty()
    }

    /// Reads of it what has come, and nothing beyond it. None where more is to come; an Err where it is none.
    pub fn read(&mut self, from: &mut impl Read) -> io::Result<Option<Told>> {
        loop {
            let wanted = self.wanted()?;
            let count = self.bytes.len();
            if count == wanted {
                return Ok(Some(self.told()));
            }
            self.bytes.resize(wanted, 0);
            let read = from.read(&mut self.bytes[count..]);
            self.bytes.truncate(count + *read.as_ref().unwrap_or(&0));
            match read {
                Ok(0) => return Err(ErrorKind::UnexpectedEof.into()),
                Ok(_) => {}
                Err(error) if error.kind() == ErrorKind::WouldBlock => return Ok(None),
                Err(error) if error.kind() == ErrorKind::Interrupted => {}
                Err(error) => return Err(error),
            }
        }
    }

    /// How many bytes it has, as far as that is known.
    fn wanted(&self) -> io::Result<usize> {
        let wrong = |why: &str| Err(Error::new(ErrorKind::InvalidData, why));
        let there = self.bytes.len().min(SIGNATURE.len());
        if self.bytes[..there] != SIGNATURE[..there] {
            return wrong("it begins with no header of PROXY, version 2");
        }
        if self.bytes.len() < FIRST {
            return Ok(FIRST);
        }
        let wanted = FIRST + usize::from(u16::from_be_bytes([self.bytes[14], self.bytes[15]]));
        match (self.bytes[12] >> 4, self.bytes[12] & 15, self.bytes[13] >> 4) {
            (VERSION, LOCAL, _) if wanted <= LONGEST => Ok(wanted),
            (VERSION, PROXIED, INTERNET_4) if wanted < FIRST + 12 => wrong("its header has no addresses"),
            (VERSION, PROXIED, INTERNET_6) if wanted < FIRST + 36 => wrong("its header has no addresses"),
            (VERSION, PROXIED, _) if wanted <= LONGEST => Ok(wanted),
            (VERSION, LOCAL | PROXIED, _) => wrong("its header is too long"),
            _ => wrong("its header has another version or command"),
        }
    }

    fn told(&self) -> Told {
        match (self.bytes[12] & 15, self.bytes[13] >> 4) {
            (LOCAL, _) => Told::Proxy,
            (_, INTERNET_4) => Told::Client(address::<4>(&self.bytes)),
            (_, INTERNET_6) => Told::Client(address::<16>(&self.bytes)),
            _ => Told::Client(None),
        }
    }
}

/// The first address of a header, which is that of the client.
fn address<const LENGTH: usize>(bytes: &[u8]) -> Option<IpAddr>
where
    [u8; LENGTH]: Into<IpAddr>,
{
    let there = <[u8; LENGTH]>::try_from(&bytes[FIRST..FIRST + LENGTH]).ok();
    there.map(|it| plain(it.into()))
}

/// The addresses that begin with so many bits of one.
#[derive(Clone, Debug, PartialEq)]
struct Network {
    address: IpAddr,
    bits: u32,
}

/// An address as a number, and how many bits it has.
fn number_of(address: IpAddr) -> (u128, u32) {
    match address {
        IpAddr::V4(it) => (u32::from(it).into(), 32),
        IpAddr::V6(it) => (it.into(), 128),
    }
}

impl Network {
    fn read(word: &str) -> Result<Network, Fault> {
        let (address, bits) = word.split_once('/').map_or((word, None), |(address, bits)| (address, Some(bits)));
        let address: IpAddr =
            address.parse().map_err(|_| Fault::words(format_args!("{} is no address of a proxy: 127.0.0.1, 10.0.0.0/8, or unix", word)))?;
        let (_, most) = number_of(address);
        let bits =
            bits.map_or(Some(most), |it| Some(it).filter(|it| is_numeral(it)).and_then(|it| it.parse().ok()).filter(|it| *it <= most));
        bits.map(|bits| Network { address, bits }).ok_or_else(|| Fault::words(format_args!("{} is no network", word)))
    }

    fn has(&self, address: IpAddr) -> bool {
        let ((one, length), (other, size)) = (number_of(self.address), number_of(address));
        // A number can't be shifted by all of its bits.
        length == size && (self.bits == 0 || (one ^ other) >> (length - self.bits) == 0)
    }

    /// Whether all of it is of this machine.
    fn is_loopback(&self) -> bool {
        self.address.is_loopback() && self.bits >= if self.address.is_ipv4() { 8 } else { 128 }
    }
}

impl Display for Network {
    fn fmt(&self, to: &mut Formatter) -> fmt::Result {
        write!(to, "{}/{}", self.address, self.bits)
    }
}

/// Proxies: addresses, networks, and whether all of unix sockets are some.
#[derive(Clone, Debug, Default, PartialEq)]
pub struct Proxies {
    networks: Vec<Network>,
    unix: bool,
}

impl Proxies {
    /// Words with commas between: `127.0.0.1`, `10.0.0.0/8`, `2001:db8::/32`, `unix`. An Err is why they are wrong.
    pub fn add(&mut self, words: &str) -> Result<(), Fault> {
        for word in words.split(',') {
            match word {
                "unix" => self.unix = true,
                _ => self.networks.push(Network::read(word)?),
            }
        }
        Ok(())
    }

    pub fn is_empty(&self) -> bool {
        self.networks.is_empty() && !self.unix
    }

    /// Those that are not of this machine alone.
    pub fn elsewhere(&self) -> Vec<String> {
        let is_elsewhere = |it: &&Network| !it.is_loopback();
        self.networks.iter().filter(is_elsewhere).map(Network::to_string).collect()
    }

    /// Whether whoever comes from there is one; none is a unix socket.
    pub fn has(&self, address: Option<IpAddr>) -> bool {
        address.map_or(self.unix, |it| self.networks.iter().any(|network| network.has(it)))
    }
}

#[cfg(test)]
mod tests {
    use super::*;

    fn header(command: u8, family: u8, rest: &[u8]) -> Vec<u8> {
        [&SIGNATURE[..], &[command, family], &(rest.len() as u16).to_be_bytes(), rest].concat()
    }

    /// Gives a byte at a time, and says in between that there is none.
    struct Slow<'a>(&'a [u8], bool);

    impl Read for Slow<'_> {
        fn read(&mut self, room: &mut [u8]) -> io::Result<usize> {
            self.1 = !self.1;
            if self.1 {
                return Err(ErrorKind::WouldBlock.into());
            }
            let count = room.len().min(self.0.len()).min(1);
            room[..count].copy_from_slice(&self.0[..count]);
            self.0 = &self.0[count..];
            Ok(count)
        }
    }

    fn told(bytes: &[u8]) -> io::Result<(Told, usize)> {
        let (mut slow, mut it) = (Slow(bytes, false), Header::default());
        loop {
            if let Some(told) = it.read(&mut slow)? {
                return Ok((told, slow.0.len()));
            }
        }
    }

    #[test]
    fn headers_are_read_and_nothing_beyond_them() {
        let four = [&[192, 0, 2, 7, 10, 0, 0, 1][..], &[1, 2, 3, 4]].concat();
        let six = [&[0x20, 1, 0xd, 0xb8, 0, 0, 0, 0, 0, 0, 0, 0, 0, 0, 0, 9][..], &[0; 20], &[3, 0, 1, 7]].concat();
        let mapped = [&[0; 10][..], &[255, 255, 192, 0, 2, 7], &[0; 20]].concat();
        for (bytes, wanted) in [
            (header(0x21, 0x11, &four), Told::Client("192.0.2.7".parse().ok())),
            (header(0x21, 0x21, &six), Told::Client("2001:db8::9".parse().ok())),
            (header(0x21, 0x21, &mapped), Told::Client("192.0.2.7".parse().ok())),
            (header(0x21, 0x31, &[0; 216]), Told::Client(None)),
            (header(0x21, 0, &[]), Told::Client(None)),
            (header(0x20, 0, &[]), Told::Proxy),
            (header(0x20, 0x11, &four), Told::Proxy),
        ] {
            assert_eq!(told(&[&bytes[..], b"GET"].concat()).unwrap(), (wanted, 3));
        }
    }

    #[test]
    fn what_is_no_header_is_refused() {
        for bytes in [
            b"GET / HTTP/1.1\r\n\r\n".to_vec(),
            b"PROXY TCP4 1.2.3.4 1.2.3.4 1 2\r\n".to_vec(),
            b"\r\n\r\n\0\r\nQUIX\n".to_vec(),
            header(0x11, 0x11, &[0; 12]),
            header(0x22, 0x11, &[0; 12]),
            header(0x21, 0x11, &[0; 11]),
            header(0x21, 0x21, &[0; 35]),
            header(0x21, 0x11, &[0; 2049]),
            header(0x20, 0, &[0; 2049]),
            header(0x21, 0x11, &[0; 12])[..20].to_vec(),
        ] {
            assert!(told(&bytes).is_err(), "{:?}", bytes);
        }
    }

    #[test]
    fn proxies_are_known_by_their_networks() {
        let mut it = Proxies::default();
        it.add("127.0.0.1,10.0.0.0/8").unwrap();
        it.add("2001:db8::/32").unwrap();
        for (address, wanted) in
            [("127.0.0.1", true), ("127.0.0.2", false), ("10.9.8.7", true), ("11.0.0.0", false), ("2001:db8:1::", true), ("::1", false)]
        {
            assert_eq!(it.has(address.parse().ok()), wanted, "{}", address);
        }
        assert!(!it.has(None));
        assert_eq!(it.elsewhere(), ["10.0.0.0/8", "2001:db8::/32"]);
        it.add("unix").unwrap();
        it.add("0.0.0.0/0").unwrap();
        assert!(it.has(None) && it.has("8.8.8.8".parse().ok()) && !it.has("::1".parse().ok()));
        for words in ["", "x", "1.2.3.4/33", "1.2.3.4/-1", "1.2.3.4/+8", "::/129", "1.2.3.4,", "1.2.3.4/", "localhost"] {
            assert!(it.add(words).is_err(), "{}", words);
        }
    }
}
