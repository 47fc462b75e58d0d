//! All clients: who is let in, what they are told, and who is late.
use crate::client::{Client, Sent};
use crate::frames::{self, Line};
use crate::lease;
use crate::openssl::Contexts;
use crate::places::{Place, Places};
use crate::poll::Poll;
use crate::program::{FromProgram, ToProgram, Told};
use crate::proxied::{Proxies, Told as Introduced};
use crate::refusals::Refusals;
use crate::system::{self, ERROR, HANG_UP, IN, OUT};
use crate::times::{Late, Limits, Turn};
use std::collections::HashMap;
use std::io;
use std::net::{IpAddr, TcpStream};
use std::os::unix::io::AsRawFd;
use std::rc::Rc;

const CROWDED: &str = "it has as many as one address may (--connections-per-address)";
/// The keys of clients begin here; those below are of other files.
pub const FIRST_KEY: u64 = 1024;
/// A client that has rested for so many milliseconds may be closed to let another in.
const RESTED: u64 = 1000;
/// So many steps of handshakes are made in a turn, each of which may take a millisecond: whoever has done theirs waits no longer than that.
const SHAKES: usize = 4;
/// So much lies unsent in the kernel at most, beyond what is on its way.
const UNSENT: i32 = 128 * 1024;

pub struct Clients {
    pub poll: Poll,
    pub to: ToProgram,
    limits: Limits,
    /// How many there may be.
    most: usize,
    places: Places,
    proxies: Proxies,
    window: u64,
    by_key: HashMap<u64, Client>,
    /// The keys of those that have begun and aren't over, by their numbers; and who waits until the program takes more.
    by_number: HashMap<u64, u64>,
    paused: Vec<u64>,
    /// Who is heard again in the next turn, though no socket tells of it; and how many steps of handshakes are still made in this one.
    ready: Vec<u64>,
    shakes: usize,
    refusals: Refusals,
    next_key: u64,
    is_stopping: bool,
    /// Whether the program has asked for more.
    is_asked: bool,
    /// By the clock of the listener, in milliseconds.
    now: u64,
}

impl Clients {
    pub fn new(poll: Poll, limits: Limits, most: (usize, usize), window: u64, proxies: Proxies) -> Clients {
        Clients {
            poll,
            to: ToProgram::new(),
            limits,
            most: most.0,
            places: Places::new(most.0, most.1),
            proxies,
            window,
            by_key: HashMap::new(),
            by_number: HashMap::new(),
            paused: Vec::new(),
            ready: Vec::new(),
            shakes: SHAKES,
            refusals: Refusals::default(),
            next_key: FIRST_KEY,
            is_stopping: false,
            is_asked: false,
            now: 0,
        }
    }

    pub fn now(&self) -> u64 {
        self.now
    }

    pub fn set_now(&mut self, now: u64) {
        self.now = now;
    }

    /// Whether the program has asked for more.
    pub fn is_asked(&self) -> bool {
        self.is_asked
    }

    /// Whether refusals are still to be told.
    pub fn has_refusals(&self) -> bool {
        !self.refusals.is_empty()
    }

    pub fn is_empty(&self) -> bool {
        self.by_key.is_empty()
    }

    pub fn is_full(&self) -> bool {
        self.by_key.len() >= self.most
    }

    // ---- Who comes and goes.

    /// With certificates it speaks TLS.
    pub fn admit(&mut self, socket: TcpStream, address: Option<IpAddr>, contexts: Option<Rc<Contexts>>) {
        let is_proxy = self.proxies.has(address);
        let place = address.map(Place::of).filter(|_| !is_proxy);
        if self.places.is_full(place) {
            return self.refusals.turn_away(address, CROWDED, self.now);
        }
        let key = self.next_key;
        if address.is_some() {
            // These make it quicker, and take less memory; it works without them.
            let _ = socket.set_nodelay(true);
            let _ = system::set_option(&socket, system::USER_TIMEOUT, self.limits.stall.min(1 << 30) as i32);
            let _ = system::set_option(&socket, system::UNSENT_AT_MOST, UNSENT);
        }
        if self.poll.add(socket.as_raw_fd(), IN, key).is_err() {
            return;
        }
        self.next_key += 1;
        self.places.enter(place);
        let client = Client::new(socket, contexts, address, self.window, self.now);
        self.by_key.insert(key, client.placed(place, is_proxy));
    }

    /// Reads what a proxy tells of a client; whether that is whole.
    fn is_introduced(&mut self, key: u64) -> bool {
        let client = match self.by_key.get_mut(&key) {
            Some(client) => client,
            None => return false,
        };
        match client.read_header() {
            Ok(None) => return false,
            Ok(Some(told)) => {
                let address = if let Introduced::Client(address) = told { address } else { None };
                let place = address.map(Place::of);
                if !self.places.is_full(place) {
                    client.introduce(told, place);
                    self.places.enter(place);
                    return true;
                }
                self.refusals.turn_away(address, CROWDED, self.now);
            }
            // A proxy that only looks whether someone is there.
            Err(_) if client.has_no_header() => {}
            Err(error) => self.refusals.note(client.address(), &format!("a proxy: {} (--proxy-protocol)", error), self.now),
        }
        self.lose(key);
        false
    }

    /// Closes one to let another in. Whether there was one.
    pub fn evict(&mut self) -> bool {
        if let Some(key) = self.longest_at_rest() {
            self.lose(key);
            return true;
        }
        self.longest_lagging().map(|key| self.lose_late(key)).is_some()
    }

    /// Who has rested longest, and long enough; first those that are over, then those that never sent anything.
    fn longest_at_rest(&self) -> Option<u64> {
        let resting = self.by_key.iter().filter_map(|(key, client)| Some((client.rests_since()?, *key)));
        resting.filter(|((_, since), _)| since + RESTED <= self.now).min().map(|(_, key)| key)
    }

    /// Who has owed a request longest, and sends little: first of a crowd, then of those that are not known. None where a connection that is over makes room soon.
    fn longest_lagging(&mut self) -> Option<u64> {
        if self.by_key.values().any(Client::lingers) {
            return None;
        }
        let lagging = self.by_key.iter().filter_map(|(key, client)| {
            let time = client.lags(&self.limits, self.now)?;
            let is_of_crowd = self.places.is_crowd(client.place());
            let is_known = client.is_known() || self.places.is_known(client.place());
            Some((is_of_crowd, time, *key)).filter(|_| is_of_crowd || !is_known)
        });
        let (_, _, key) = lagging.max()?;
        let address = self.by_key.get(&key).and_then(Client::address);
        self.refusals.note(address, "all places were taken, and it owed a request and sent little", self.now);
        Some(key)
    }

    fn close(&mut self, key: u64) {
        if let Some(mut client) = self.by_key.remove(&key) {
            let _ = client.wire.say_end();
            client.number().map(|number| self.by_number.remove(&number));
            self.places.leave(client.place());
        }
    }

    /// It is gone, or is sent away.
    fn lose(&mut self, key: u64) {
        if let Some(client) = self.by_key.get(&key) {
            if let (Some(number), false) = (client.number(), client.is_over()) {
                self.to.say(&frames::gone(number));
            }
            self.close(key);
        }
    }

    /// It is sent away since it was too slow, which the log of the program has, too.
    fn lose_late(&mut self, key: u64) {
        if let Some(client) = self.by_key.get(&key) {
            if let (Some(number), false) = (client.number(), client.is_over()) {
                self.to.say(&frames::late(number));
            }
        }
        self.lose(key);
    }

    /// Nothing more is heard of it: it is closed once what it asked for is answered.
    fn end(&mut self, key: u64) {
        match self.by_key.get_mut(&key) {
            Some(client) if client.number().is_some() => client.end(&mut self.to),
            _ => return self.lose(key),
        }
        self.arm(key);
    }

    /// Another program will come, which knows of no client: those that have begun are over, and get what was handed out to them. Those that have said nothing may stay.
    pub fn begin_again(&mut self, keeps_silent: bool) {
        (self.to, self.is_asked) = (ToProgram::new(), false);
        self.by_number.clear();
        let keys: Vec<_> = self.by_key.keys().copied().collect();
        for key in keys {
            match self.by_key.get_mut(&key) {
                Some(client) if client.number().is_some() => {
                    client.forget();
                    self.settle(key);
                }
                Some(client) if !keeps_silent && !client.is_over() => self.lose(key),
                _ => {}
            }
        }
    }

    // ---- What their sockets have.

    pub fn handle(&mut self, key: u64, events: u32) {
        if events & ERROR != 0 {
            return self.lose(key);
        }
        // TLS may have to write before it can read on.
        let writes = events & OUT != 0 && self.by_key.get(&key).map_or(false, |client| client.wire.wants() & OUT != 0);
        if events & OUT != 0 {
            self.send(key);
        }
        if events & (IN | HANG_UP) != 0 || writes {
            self.hear(key, events & HANG_UP != 0);
        }
    }

    /// Begins a turn; whether something is to be heard that no socket tells of.
    pub fn begin_turn(&mut self) -> bool {
        self.shakes = SHAKES;
        !self.ready.is_empty()
    }

    /// Hears those of whom more has come than their sockets tell.
    pub fn hear_ready(&mut self) {
        for key in std::mem::take(&mut self.ready) {
            if let Some(client) = self.by_key.get_mut(&key) {
                client.is_looked_at();
                self.hear(key, false);
            }
        }
    }

    /// Whether it may be heard: its proxy has told of it, and its handshake is done, or may go on in this turn.
    fn is_let_through(&mut self, key: u64) -> bool {
        let is_proxied = self.by_key.get(&key).map_or(false, Client::is_proxied);
        if is_proxied && !self.is_introduced(key) {
            return false;
        }
        let client = match self.by_key.get_mut(&key) {
            Some(client) if client.wire.is_shaking() && !client.lingers() => client,
            found => return found.is_some(),
        };
        if client.wire.refuses_http() {
            self.refusals.note(client.address(), "it speaks HTTP without TLS", self.now);
            client.close();
            self.settle(key);
            return false;
        }
        // Where none is left the poll tells of it again.
        let may_shake = self.shakes > 0;
        self.shakes -= usize::from(may_shake);
        may_shake
    }

    fn hear(&mut self, key: u64, has_hung_up: bool) {
        let client = match self.is_let_through(key) {
            true => self.by_key.get_mut(&key),
            false => None,
        };
        let client = match client {
            Some(client) => client,
            None => return,
        };
        if client.lingers() {
            if client.drain() || has_hung_up {
                self.close(key);
            }
            return;
        }
        if client.is_read() && self.to.is_full() {
            client.pause();
            self.paused.push(key);
        }
        let has_begun = client.number().is_some();
        let sent = if client.is_read() { client.hear(&mut self.to, self.now) } else { Ok(Sent::Nothing) };
        match (sent, client.number()) {
            (Ok(Sent::End), Some(_)) if !has_hung_up => {
                client.end_itself(&mut self.to);
            }
            (Ok(Sent::Bytes), Some(number)) if !has_begun => drop(self.by_number.insert(number, key)),
            (Ok(Sent::Bytes), _) => {}
            (Ok(Sent::Nothing), _) if !has_hung_up => {}
            (Err(error), None) if !client.wire.is_plain() => {
                self.refusals.note(client.address(), &format!("TLS: {}", error), self.now);
                return self.lose(key);
            }
            _ => return self.lose(key),
        }
        self.arm(key);
    }

    fn send(&mut self, key: u64) {
        if let Some(client) = self.by_key.get_mut(&key) {
            if client.send_more(self.now).is_err() {
                return self.lose(key);
            }
            client.tell_taken(self.window / 2, &mut self.to);
            self.settle(key);
        }
    }

    /// Once all was sent to a connection that is over, it is finished.
    fn settle(&mut self, key: u64) {
        if let Some(client) = self.by_key.get_mut(&key) {
            if client.is_over() && !client.lingers() && client.has_all() && client.finish(self.now) {
                return self.close(key);
            }
            self.arm(key);
        }
    }

    fn arm(&mut self, key: u64) {
        if let Some(client) = self.by_key.get_mut(&key) {
            if client.becomes_ready() {
                self.ready.push(key);
            }
            if let Some(wanted) = client.newly_wanted() {
                if self.poll.change(client.wire.socket.as_raw_fd(), wanted, key).is_err() {
                    self.lose(key);
                }
            }
        }
    }

    // ---- What the program tells.

    pub fn told(&mut self, told: Told) {
        match told {
            Told::Bytes(number, bytes) => self.tell(number, bytes),
            Told::Line(Line::More) => self.is_asked = true,
            Told::Line(Line::Over(number)) => self.over(number),
            Told::Line(Line::Grant(number, bytes)) => {
                if let Some(key) = self.by_number.get(&number).copied() {
                    self.by_key.get_mut(&key).into_iter().for_each(|client| client.grant(bytes));
                    self.arm(key);
                }
            }
            Told::Line(Line::Known(number)) => self.know(number),
            Told::Line(Line::Rests(number, bytes)) => self.waits(number, Turn::Rests, bytes),
            Told::Line(Line::Owes(number, bytes)) => self.waits(number, Turn::Owes, bytes),
            // Its bytes come behind it; and that the program is ready is no client's matter.
            Told::Line(Line::Bytes(..) | Line::Ready | Line::Locked(_) | Line::Touched) => {}
        }
    }

    fn tell(&mut self, number: u64, bytes: &[u8]) {
        if let Some(key) = self.by_number.get(&number).copied() {
            if let Some(client) = self.by_key.get_mut(&key) {
                if client.tell(bytes, self.now).is_err() {
                    return self.lose(key);
                }
                client.tell_taken(self.window / 2, &mut self.to);
                self.arm(key);
            }
        }
    }

    /// Moves a long piece from the program to its client within the kernel, where nothing waits for that one. Whether that moved something.
    pub fn move_piece(&mut self, from: &mut FromProgram) -> bool {
        let key = from.long_piece().and_then(|number| self.by_number.get(&number).copied());
        let found = key.and_then(|key| Some((key, self.by_key.get_mut(&key)?)));
        let (key, client) = match found {
            Some((key, client)) if client.waits_for_nothing() && client.wire.is_plain() && !lease::is_there() => (key, client),
            _ => return false,
        };
        match from.move_to(&client.wire.socket) {
            Ok(count) if count > 0 => client.was_sent(count, self.now),
            // What doesn't go this way is read: then it is known why.
            _ => return false,
        }
        client.tell_taken(self.window / 2, &mut self.to);
        self.arm(key);
        true
    }

    fn over(&mut self, number: u64) {
        if let Some(key) = self.by_number.remove(&number) {
            if let Some(client) = self.by_key.get_mut(&key) {
                client.close();
            }
            self.settle(key);
        }
    }

    /// A user was let in: whoever comes from there makes no room for others from now on.
    fn know(&mut self, number: u64) {
        let key = self.by_number.get(&number);
        if let Some(client) = key.and_then(|key| self.by_key.get_mut(key)) {
            client.know();
            client.place().into_iter().for_each(|place| self.places.know(place));
        }
    }

    /// What the program says is true only where it has taken all that was sent.
    fn waits(&mut self, number: u64, turn: Turn, bytes: u64) {
        if let Some(key) = self.by_number.get(&number).copied() {
            let now = self.now;
            let found = self.by_key.get_mut(&key);
            if found.map_or(false, |client| client.waits(turn, bytes, now) && self.is_stopping && client.is_at_rest()) {
                self.end(key);
            }
        }
    }

    /// Nothing more has come.
    pub fn say_none(&mut self) {
        self.is_asked = false;
        self.to.say(&frames::none());
    }

    /// Writes to the program what it takes, and hears those again that waited for that. Whether something is left.
    pub fn write_out(&mut self) -> io::Result<bool> {
        self.to.write_out()?;
        if self.to.has_room() {
            for key in std::mem::take(&mut self.paused) {
                self.by_key.get_mut(&key).into_iter().for_each(Client::go_on);
                self.arm(key);
            }
        }
        Ok(!self.to.is_empty())
    }

    // ---- Who is late.

    /// Sends away who is late; and those that rest, once the listener is to stop.
    pub fn look_at_times(&mut self) {
        self.refusals.tell(self.now);
        for (address, count) in self.refusals.take_due() {
            self.to.say(&frames::turned(address, count));
        }
        let late = |client: &Client| {
            let ends = self.is_stopping && client.is_at_rest();
            client.late(&self.limits, self.now).or_else(|| Some(Late::Sends).filter(|_| ends))
        };
        let found: Vec<_> = self.by_key.iter().filter_map(|(key, client)| Some((*key, late(client)?))).collect();
        for (key, late) in found {
            match late {
                Late::Sends => self.end(key),
                Late::Takes => self.lose_late(key),
            }
        }
        for client in self.by_key.values_mut() {
            client.tell_taken(1, &mut self.to);
        }
    }

    /// Ends all connections once what has begun is answered.
    pub fn stop(&mut self) {
        self.is_stopping = true;
        self.look_at_times();
    }
}

/// A failed call that has no remedy but to wait: there are too many files, or there is no memory.
pub fn is_want(error: &io::Error) -> bool {
    error.raw_os_error().map_or(false, |it| system::WANTS.contains(&it))
}
