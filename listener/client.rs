//! One client: its socket, what waits for it, and how far it may send.
use crate::frames;
use crate::openssl::Contexts;
use crate::places::Place;
use crate::program::{ToProgram, PIECE};
use crate::proxied::{Header, Told};
use crate::system::{IN, OUT};
use crate::times::{Late, Limits, Times, Turn};
use crate::wire::Wire;
use std::io::{self, ErrorKind, Read};
use std::net::{IpAddr, TcpStream};
use std::rc::Rc;

/// So much of a connection that is over is read before it is closed.
const DRAINED: usize = 1 << 20;

pub struct Client {
    pub wire: Wire,
    /// Where it comes from; none where that is a unix socket.
    address: Option<IpAddr>,
    /// The place that it counts for, once that is known.
    place: Option<Place>,
    /// What its proxy tells of it, until that is whole.
    header: Option<Box<Header>>,
    /// Whether a user was let in.
    is_known: bool,
    /// Of its frames; none before the first.
    number: Option<u64>,
    /// Whether it may still send: its end has not come, nor was it given one.
    hears: bool,
    /// Whether its end has come.
    has_ended: bool,
    /// Whether the program has closed it.
    is_over: bool,
    /// Once all was sent to it: how much more it is drained of.
    drained: Option<usize>,
    /// How much more it may send, and how much it has sent.
    granted: u64,
    sent: u64,
    /// What waits for it is from `from` on.
    unsent: Vec<u8>,
    from: usize,
    /// What it has taken and the program wasn't told.
    taken: u64,
    times: Times,
    /// What is waited for of its socket, and whether that waits for the program.
    armed: u32,
    is_paused: bool,
    /// Whether it is heard again though its socket tells nothing.
    is_ready: bool,
    /// Whether its end is still to be said to it.
    is_ending: bool,
}

/// What a client has sent.
pub enum Sent {
    Bytes,
    Nothing,
    End,
}

fn is_passing(error: &io::Error) -> bool {
    matches!(error.kind(), ErrorKind::WouldBlock | ErrorKind::Interrupted)
}

impl Client {
    /// Its socket is waited for from now on.
    pub fn new(socket: TcpStream, contexts: Option<Rc<Contexts>>, address: Option<IpAddr>, window: u64, now: u64) -> Client {
        Client {
            wire: Wire::new(socket, contexts),
            address,
            place: None,
            header: None,
            is_known: false,
            number: None,
            hears: true,
            has_ended: false,
            is_over: false,
            drained: None,
            granted: window,
            sent: 0,
            unsent: Vec::new(),
            from: 0,
            taken: 0,
            times: Times::new(now),
            armed: IN,
            is_paused: false,
            is_ready: false,
            is_ending: false,
        }
    }

    // ---- Who it is.

    /// It counts for a place, or its proxy will tell of it first.
    pub fn placed(mut self, place: Option<Place>, is_proxied: bool) -> Client {
        self.place = place;
        self.header = Some(Box::<Header>::default()).filter(|_| is_proxied);
        self
    }

    pub fn address(&self) -> Option<IpAddr> {
        self.address
    }

    pub fn place(&self) -> Option<Place> {
        self.place
    }

    /// Of its frames; none before the first.
    pub fn number(&self) -> Option<u64> {
        self.number
    }

    /// Whether its proxy still has to tell of it.
    pub fn is_proxied(&self) -> bool {
        self.header.is_some()
    }

    /// Reads what has come of what its proxy tells; none where that is not whole.
    pub fn read_header(&mut self) -> io::Result<Option<Told>> {
        match &mut self.header {
            Some(header) => header.read(&mut self.wire.socket),
            None => Ok(None),
        }
    }

    /// Whether its proxy has said nothing yet.
    pub fn has_no_header(&self) -> bool {
        self.header.as_ref().map_or(false, |it| it.is_empty())
    }

    /// Its proxy has told of it.
    pub fn introduce(&mut self, told: Told, place: Option<Place>) {
        self.header = None;
        if let Told::Client(address) = told {
            (self.address, self.place) = (address, place);
        }
    }

    /// A user was let in.
    pub fn know(&mut self) {
        self.is_known = true;
    }

    pub fn is_known(&self) -> bool {
        self.is_known
    }

    // ---- How far it is.

    pub fn is_over(&self) -> bool {
        self.is_over
    }

    /// The program has closed it, or is asked nothing of it: it gets what waits for it.
    pub fn close(&mut self) {
        self.is_over = true;
        self.hears = false;
    }

    /// The program that knew it is gone.
    pub fn forget(&mut self) {
        self.number = None;
        self.close();
    }

    /// It isn't heard until the program takes more.
    pub fn pause(&mut self) {
        self.is_paused = true;
    }

    pub fn go_on(&mut self) {
        self.is_paused = false;
    }

    /// Whether there is more to be heard than its socket tells, which wasn't known before.
    pub fn becomes_ready(&mut self) -> bool {
        let is_new = !self.is_ready && self.is_read() && self.wire.has_more();
        self.is_ready |= is_new;
        is_new
    }

    /// It is heard now.
    pub fn is_looked_at(&mut self) {
        self.is_ready = false;
    }

    /// What is waited for of its socket, where that was something else before.
    pub fn newly_wanted(&mut self) -> Option<u32> {
        let wanted = self.wanted();
        let before = std::mem::replace(&mut self.armed, wanted);
        Some(wanted).filter(|it| *it != before)
    }

    /// The program waits for it, if it has taken all: so many bytes. Whether that is so.
    pub fn waits(&mut self, turn: Turn, bytes: u64, now: u64) -> bool {
        let is_all = self.sent == bytes;
        if is_all {
            self.times.waits(turn, now);
        }
        is_all
    }

    pub fn waits_for_nothing(&self) -> bool {
        self.has_all() && !self.is_ending
    }

    /// Whether all bytes were sent to it.
    pub fn has_all(&self) -> bool {
        self.from == self.unsent.len()
    }

    pub fn lingers(&self) -> bool {
        self.drained.is_some()
    }

    /// Whether it is read: while it may send, or is drained.
    pub fn is_read(&self) -> bool {
        self.lingers() || (self.hears && self.granted > 0 && !self.is_paused)
    }

    pub fn grant(&mut self, bytes: u64) {
        self.granted = self.granted.saturating_add(bytes);
    }

    /// Passes on what it has sent.
    pub fn hear(&mut self, to: &mut ToProgram, now: u64) -> io::Result<Sent> {
        let most = self.granted.min(PIECE as u64) as usize;
        match to.pass_on(&mut self.number, self.address, &mut self.wire, most) {
            Ok(0) => Ok(Sent::End),
            Ok(count) => {
                self.granted -= count as u64;
                self.sent += count as u64;
                self.times.sent(count as u64, now);
                Ok(Sent::Bytes)
            }
            Err(error) if is_passing(&error) => Ok(Sent::Nothing),
            Err(error) => Err(error),
        }
    }

    /// Its end has come, and the program is told so.
    pub fn end_itself(&mut self, to: &mut ToProgram) {
        self.has_ended = true;
        self.end(to);
    }

    /// Nothing more is heard of it, and the program is told so.
    pub fn end(&mut self, to: &mut ToProgram) {
        if self.hears {
            self.hears = false;
            if let (Some(number), false) = (self.number, self.is_over) {
                to.say(&frames::frame(number, 0));
            }
        }
    }

    /// Sends it some bytes, and keeps what it doesn't take yet.
    pub fn tell(&mut self, bytes: &[u8], now: u64) -> io::Result<()> {
        self.times.told();
        let mut rest = bytes;
        if self.waits_for_nothing() {
            rest = &rest[self.send(bytes)?..];
            self.times.took(now);
        }
        self.unsent.extend_from_slice(rest);
        Ok(())
    }

    /// How much of it is taken at once.
    fn send(&mut self, bytes: &[u8]) -> io::Result<usize> {
        let count = match self.wire.write(bytes) {
            Err(error) if is_passing(&error) => 0,
            result => result?,
        };
        self.taken += count as u64;
        Ok(count)
    }

    /// So many bytes went to it past `tell`.
    pub fn was_sent(&mut self, count: usize, now: u64) {
        self.times.told();
        self.times.took(now);
        self.taken += count as u64;
    }

    /// Sends what waits for it.
    pub fn send_more(&mut self, now: u64) -> io::Result<()> {
        let mut waiting = std::mem::take(&mut self.unsent);
        let count = if self.from == waiting.len() { 0 } else { self.send(&waiting[self.from..])? };
        self.from += count;
        if count > 0 {
            self.times.took(now);
        }
        if self.from == waiting.len() {
            self.from = 0;
        } else {
            if self.from > waiting.len() / 2 {
                waiting.drain(..self.from);
                self.from = 0;
            }
            self.unsent = waiting;
        }
        Ok(())
    }

    /// Tells the program what it has taken, if that is as much as this.
    pub fn tell_taken(&mut self, least: u64, to: &mut ToProgram) {
        if let (Some(number), false) = (self.number, self.is_over) {
            if self.taken >= least {
                to.say(&frames::taken(number, self.taken));
                self.taken = 0;
            }
        }
    }

    /// Once all was sent to a connection that is over: whether it is to be closed. Else it is shut for writing, and drained.
    pub fn finish(&mut self, now: u64) -> bool {
        let said = if self.has_ended { self.wire.say_end() } else { self.wire.shut() };
        self.is_ending = matches!(&said, Err(error) if is_passing(error));
        if said.is_ok() && !self.has_ended {
            self.drained = Some(DRAINED);
            self.times = Times::new(now);
        }
        !self.is_ending && !self.lingers()
    }

    /// Drops what it sends behind its end; whether it is to be closed.
    pub fn drain(&mut self) -> bool {
        let mut room = [0; PIECE];
        match self.wire.socket.read(&mut room) {
            Ok(count) => {
                let left = self.drained.unwrap_or(0).saturating_sub(count);
                self.drained = Some(left);
                count == 0 || left == 0
            }
            Err(error) => !is_passing(&error),
        }
    }

    /// What is waited for of its socket.
    fn wanted(&self) -> u32 {
        let reads = match self.wire.wants() {
            _ if !self.is_read() => 0,
            0 => IN,
            wants => wants,
        };
        reads | if self.waits_for_nothing() { 0 } else { OUT }
    }

    /// Whether nothing was begun that is to be answered.
    pub fn is_at_rest(&self) -> bool {
        self.hears && self.waits_for_nothing() && matches!(self.times.turn, Turn::Silent | Turn::Rests)
    }

    /// Since when it may be closed to let another in, where it may: first those that are over, then those that never sent anything.
    pub fn rests_since(&self) -> Option<(u8, u64)> {
        let rank = match self.times.turn {
            _ if self.lingers() => 0,
            Turn::Silent => 1,
            _ => 2,
        };
        Some((rank, self.times.since)).filter(|_| self.lingers() || self.is_at_rest())
    }

    /// How long it has owed a request, where it does so for long, and sends little though it is heard.
    pub fn lags(&self, limits: &Limits, now: u64) -> Option<u64> {
        self.times.lags(limits, now).filter(|_| self.is_read() && !self.lingers())
    }

    /// Whether it is late. Where it isn't read, it can be so with taking alone.
    pub fn late(&self, limits: &Limits, now: u64) -> Option<Late> {
        if self.lingers() {
            return Some(Late::Takes).filter(|_| now - self.times.since >= limits.linger);
        }
        self.times.late(limits, !self.waits_for_nothing(), now).filter(|late| *late == Late::Takes || self.is_read())
    }
}
