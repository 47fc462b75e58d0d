//! The loop: whatever comes, from clients, the program or a signal, is looked at in turn.
use crate::addresses::Listener;
use crate::certificates::Certificates;
use crate::clients::{is_want, Clients, FIRST_KEY};
use crate::fault::Fault;
use crate::frames::{self, Line};
use crate::held::Held;
use crate::lease::{Lease, Word};
use crate::notify::notify;
use crate::program::{FromProgram, Pipes, Told};
use crate::say;
use crate::space::Space;
use crate::standby::Standby;
use crate::system::{self, Event, IN, OUT};
use crate::telling::Telling;
use crate::users::Users;
use std::fs::File;
use std::io::{self, ErrorKind, Read};
use std::os::unix::io::AsRawFd;
use std::time::{Instant, SystemTime, UNIX_EPOCH};

const TO_PROGRAM: u64 = 0;
const FROM_PROGRAM: u64 = 1;
const SIGNALS: u64 = 2;
const FIRST_LISTENER: u64 = 3;

/// In milliseconds: how often times are looked at, and how long nobody is let in where there was no file or no memory for one.
const TICK: u64 = 250;
const PAUSE: u64 = 1000;
/// So long behind what the program was sent it is told the moment, where that makes it keep what it has changed.
const KEEPS: u64 = 1000;
/// So many clients are let in at a time, and so often the program is read.
const AT_ONCE: usize = 64;

/// Why the loop ended.
pub enum End {
    /// All is answered behind a signal, or its grace is over.
    Stopped,
    /// A second signal came.
    Killed,
    /// The program has ended, or tells what is no frame; or it is time to run the next one.
    Program,
    BadFrame,
    Due,
    /// Clients can't get in where they are to, once the program serves.
    NoAddress(Fault),
    /// The lease of the store is over.
    LeaseOver,
    Failed(&'static str, io::Error),
}

pub struct Server<'a> {
    clients: Clients,
    /// What the program tells. While none runs, when the next one is due.
    from: Option<FromProgram>,
    due: u64,
    /// What it says on standard error, where that is held back.
    held: Option<Held>,
    /// Since when the program is ready; and what is told once the first one is.
    ready: Option<u64>,
    telling: Option<Telling<'a>>,
    standby: Option<Standby>,
    listeners: Vec<Listener>,
    signals: File,
    users: Option<Users>,
    /// Whether their file is to be read again, once the program has taken most of what waits for it.
    reads_users: bool,
    certificates: Option<Certificates>,
    grace: u64,
    began: Instant,
    /// Whether clients are let in, and from when on again; when times are looked at next; when a stop has no more grace.
    listens: bool,
    listens_again: u64,
    ticks: u64,
    stops: Option<u64>,
    /// Whether the program keeps what it has changed once it is told the moment, and when it is told.
    keeps_late: bool,
    keeps: Option<u64>,
    /// What is free on the disk of the store.
    space: Option<Space>,
    /// The lease of the store's file, where the program has one.
    lease: Option<Lease>,
    /// Whether the pipe to the program is waited for.
    is_writing: bool,
}

/// What is read at the start, and again on a hang-up.
pub struct Files {
    pub users: Option<Users>,
    pub certificates: Option<Certificates>,
}

/// How it serves, by its words.
pub struct Manner {
    pub grace: u64,
    /// Whether the program keeps what it has changed once it is told the moment.
    pub keeps_late: bool,
    /// What is free on the disk of the store, where the program has one.
    pub space: Option<Space>,
    pub lease: Option<Lease>,
    /// With --wait or --lease. There are no listeners then before the program serves.
    pub standby: Option<Standby>,
}

impl<'a> Server<'a> {
    /// Without a program, which is to begin next.
    pub fn new(
        clients: Clients,
        listeners: Vec<Listener>,
        signals: File,
        files: Files,
        telling: Telling<'a>,
        manner: Manner,
    ) -> io::Result<Server<'a>> {
        clients.poll.add(signals.as_raw_fd(), IN, SIGNALS)?;
        let mut server = Server {
            clients,
            from: None,
            due: 0,
            held: None,
            ready: None,
            telling: Some(telling),
            standby: manner.standby,
            listeners: Vec::new(),
            signals,
            users: files.users,
            certificates: files.certificates,
            reads_users: false,
            grace: manner.grace,
            began: Instant::now(),
            listens: true,
            listens_again: 0,
            ticks: TICK,
            stops: None,
            keeps_late: manner.keeps_late,
            keeps: None,
            space: manner.space,
            lease: manner.lease,
            is_writing: false,
        };
        server.let_in(listeners)?;
        server.tell_users();
        Ok(server)
    }

    /// Clients may come here from now on.
    fn let_in(&mut self, listeners: Vec<Listener>) -> io::Result<()> {
        for (listener, key) in listeners.iter().zip(FIRST_LISTENER..FIRST_KEY) {
            self.clients.poll.add(listener.file(), IN, key)?;
        }
        (self.listeners, self.listens) = (listeners, true);
        Ok(())
    }

    /// Goes on with a program.
    pub fn begin(&mut self, pipes: Pipes) -> io::Result<()> {
        self.clients.poll.add(pipes.to.as_raw_fd(), 0, TO_PROGRAM)?;
        self.clients.poll.add(pipes.from.as_raw_fd(), IN, FROM_PROGRAM)?;
        self.clients.to.begin(pipes.to);
        self.from = Some(FromProgram::new(pipes.from));
        self.held = pipes.held;
        Ok(())
    }

    /// Waits so many milliseconds for the next program, behind one that has ended; that one may be a try to have the store.
    pub fn pause(&mut self, milliseconds: u64, is_try: bool) {
        // The pipes of that one are closed, and so the poll knows them no more.
        self.from = None;
        self.held = None;
        self.ready = None;
        self.clients.begin_again(self.standby.is_none());
        self.is_writing = false;
        self.space.iter_mut().for_each(Space::forget);
        self.lease.iter_mut().for_each(Lease::begin);
        self.tell_users();
        self.clients.set_now(self.began.elapsed().as_millis() as u64);
        self.due = self.clients.now() + milliseconds;
        if let Some(standby) = &mut self.standby {
            // Another machine may serve.
            self.listeners.clear();
            standby.wait(is_try, self.clients.now());
        }
    }

    /// What the program says on standard error, where that is held back.
    pub fn take_held(&mut self) -> Option<Held> {
        self.held.take()
    }

    /// For how many milliseconds the program has served; none where it wasn't ready.
    pub fn served(&self) -> Option<u64> {
        let now = self.began.elapsed().as_millis() as u64;
        self.ready.map(|since| now - since)
    }

    /// How many milliseconds the program has to end, once its input does. One that isn't ready has nothing to keep: what is left of the grace is enough.
    pub fn patience(&self) -> u64 {
        let now = self.began.elapsed().as_millis() as u64;
        match (self.ready, self.stops) {
            (None, Some(stops)) => stops.saturating_sub(now),
            _ => self.grace.max(1000),
        }
    }

    pub fn has_program(&self) -> bool {
        self.from.is_some()
    }

    pub fn is_stopping(&self) -> bool {
        self.stops.is_some()
    }

    /// Serves until something ends it.
    pub fn run(&mut self) -> End {
        let mut events = [Event::default(); 256];
        // The program is told the users before anything else comes.
        let mut went_on = self.write_out();
        loop {
            match went_on {
                Ok(()) => went_on = self.turn(&mut events),
                Err(end) => return end,
            }
        }
    }

    fn turn(&mut self, events: &mut [Event]) -> Result<(), End> {
        // Where the program asks for more, all that has come by now is looked at first.
        let is_asked = self.clients.is_asked();
        let hears = self.clients.begin_turn();
        let time = if is_asked || hears { 0 } else { self.time_with_lease(self.time_to_wait()) };
        let count = self.clients.poll.wait(events, time).map_err(|error| End::Failed("waiting", error))?;
        self.clients.set_now(self.began.elapsed().as_millis() as u64);
        if count > 0 {
            self.tell_free();
        }
        for event in &events[..count] {
            self.handle(event.key, event.events)?;
        }
        if hears {
            self.clients.hear_ready();
        }
        if is_asked {
            self.clients.say_none();
        }
        if self.reads_users && self.takes_frames() && self.clients.to.has_room() {
            self.read_users();
        }
        self.tell_moment(count);
        self.look_at_lease()?;
        self.write_out()?;
        if self.clients.now() >= self.ticks {
            self.ticks = self.clients.now() + TICK;
            self.clients.look_at_times();
            self.write_out()?;
        }
        let now = self.clients.now();
        self.certificates.iter_mut().for_each(|it| it.look(now));
        if !self.listens && self.stops.is_none() && self.clients.now() >= self.listens_again {
            self.listen(true)?;
        }
        match self.stops {
            Some(stops) if self.clients.is_empty() || self.clients.now() >= stops => Err(End::Stopped),
            None if self.from.is_none() && self.clients.now() >= self.due => Err(End::Due),
            _ => Ok(()),
        }
    }

    /// For how many milliseconds nothing has to be done; less than none where that is without end.
    fn time_to_wait(&self) -> i32 {
        let next = match self.from {
            Some(_) if self.is_idle() => return self.certificates.as_ref().map_or(-1, |it| self.until(it.due())),
            Some(_) => self.ticks,
            None => self.ticks.min(self.due),
        };
        self.until(next)
    }

    fn until(&self, moment: u64) -> i32 {
        moment.saturating_sub(self.clients.now()) as i32
    }

    /// Whether nothing has a time.
    fn is_idle(&self) -> bool {
        let is_told = self.clients.is_empty() && !self.clients.has_refusals();
        is_told && self.listens && self.stops.is_none() && self.keeps.is_none()
    }

    fn handle(&mut self, key: u64, events: u32) -> Result<(), End> {
        match key {
            // It is written to behind all events, and its end is seen where it is read.
            TO_PROGRAM => Ok(()),
            FROM_PROGRAM => self.read_program(),
            SIGNALS => self.take_signals(),
            FIRST_KEY.. => {
                self.clients.handle(key, events);
                Ok(())
            }
            _ => self.accept((key - FIRST_LISTENER) as usize),
        }
    }

    fn write_out(&mut self) -> Result<(), End> {
        let is_left = self.clients.write_out().map_err(|error| End::Failed("writing to the program", error))?;
        match self.clients.to.file() {
            Some(file) if is_left != self.is_writing => {
                self.is_writing = is_left;
                let events = if is_left { OUT } else { 0 };
                let changed = self.clients.poll.change(file.as_raw_fd(), events, TO_PROGRAM);
                changed.map_err(|error| End::Failed("waiting for the program", error))
            }
            _ => Ok(()),
        }
    }

    fn read_program(&mut self) -> Result<(), End> {
        for _ in 0..AT_ONCE {
            let from = match &mut self.from {
                Some(from) => from,
                None => return Ok(()),
            };
            if self.clients.move_piece(from) {
                continue;
            }
            match from.read() {
                Ok(0) => return Err(End::Program),
                Ok(_) => {}
                Err(error) if error.kind() == ErrorKind::WouldBlock => return Ok(()),
                Err(error) if error.kind() == ErrorKind::Interrupted => return Ok(()),
                Err(error) => return Err(End::Failed("reading of the program", error)),
            }
            let was_filled = from.was_filled();
            let mut is_ready = false;
            while let Some(told) = from.next().map_err(|()| End::BadFrame)? {
                if let Told::Line(line) = &told {
                    check_lease(&mut self.lease, *line)?;
                }
                is_ready |= matches!(told, Told::Line(Line::Ready));
                self.clients.told(told);
            }
            if is_ready {
                self.go_on_ready()?;
            }
            if !was_filled {
                return Ok(());
            }
        }
        Ok(())
    }

    /// The program serves from now on. Whoever started this is told so the first time.
    fn go_on_ready(&mut self) -> Result<(), End> {
        let now = self.clients.now();
        self.ready = Some(now);
        self.held.iter().for_each(Held::pass_on);
        if let Some(standby) = &mut self.standby {
            let listeners = standby.open().map_err(End::NoAddress)?;
            self.let_in(listeners).map_err(|error| End::Failed("waiting for clients", error))?;
        }
        if let (Some(telling), None) = (self.telling.take(), self.stops) {
            telling.tell(&self.listeners);
        }
        self.standby.iter_mut().for_each(|it| it.serves(now));
        Ok(())
    }

    // ---- Clients that come.

    fn accept(&mut self, at: usize) -> Result<(), End> {
        for count in 0..AT_ONCE {
            if self.clients.is_full() && (count > 0 || !self.clients.evict()) {
                // Whoever waits is let in once another goes.
                self.listens_again = self.clients.now() + if count > 0 { 0 } else { TICK / 10 };
                return if count > 0 { Ok(()) } else { self.listen(false) };
            }
            let listener = self.listeners.get(at);
            match listener.map(Listener::accept) {
                Some(Ok((socket, place))) => {
                    let speaks_tls = listener.map_or(false, |it| it.speaks_tls);
                    let contexts = self.certificates.as_ref().filter(|_| speaks_tls).map(Certificates::contexts);
                    self.clients.admit(socket, place, contexts)
                }
                Some(Err(error)) if error.kind() == ErrorKind::WouldBlock => return Ok(()),
                Some(Err(error)) if is_want(&error) => {
                    say(format_args!("nobody is let in for a second: {}", error));
                    self.listens_again = self.clients.now() + PAUSE;
                    return self.listen(false);
                }
                // It has gone again.
                Some(Err(_)) => {}
                None => return Ok(()),
            }
        }
        Ok(())
    }

    fn listen(&mut self, listens: bool) -> Result<(), End> {
        self.listens = listens;
        let events = if listens { IN } else { 0 };
        for (listener, key) in self.listeners.iter().zip(FIRST_LISTENER..) {
            let changed = self.clients.poll.change(listener.file(), events, key);
            changed.map_err(|error| End::Failed("waiting for clients", error))?;
        }
        Ok(())
    }

    // ---- What is kept late.

    /// Tells the program the moment a second behind what came for it, where that is what it waits for.
    fn tell_moment(&mut self, count: usize) {
        if self.keeps_late && count > 0 && self.keeps.is_none() && self.takes_frames() {
            self.keeps = Some(self.clients.now() + KEEPS);
        }
        if self.keeps.map_or(false, |at| self.clients.now() >= at) && self.clients.to.has_room() {
            let since = SystemTime::now().duration_since(UNIX_EPOCH).unwrap_or_default();
            self.clients.to.say(&frames::clock(since.as_nanos() as u64));
            self.keeps = None;
        }
    }

    // ---- What is free on the disk.

    /// Tells the program what was found last, and has the system asked again.
    fn tell_free(&mut self) {
        let now = self.clients.now();
        if let (Some(space), Some(_), true) = (&mut self.space, self.ready, self.clients.to.has_room()) {
            space.news().into_iter().for_each(|bytes| self.clients.to.say(&frames::free(bytes)));
            space.ask(now);
        }
    }

    // ---- A lease.

    /// Whether the program takes any frame: before it is ready it takes none but those of its lease.
    fn takes_frames(&self) -> bool {
        self.ready.is_some() || self.lease.is_none()
    }

    /// Tells the program what is due, unless the lease is over.
    fn look_at_lease(&mut self) -> Result<(), End> {
        let lease = match (&mut self.lease, &self.from) {
            (Some(lease), Some(_)) => lease,
            _ => return Ok(()),
        };
        let now = system::boot_time();
        if lease.is_over(now) {
            return Err(End::LeaseOver);
        }
        while let Some(word) = lease.word(now) {
            self.clients.to.say(&match word {
                Word::Go => frames::go(),
                Word::Touch => frames::touch(),
            });
        }
        Ok(())
    }

    /// As long at most as the lease lets it wait.
    fn time_with_lease(&self, time: i32) -> i32 {
        let left = self.lease.as_ref().filter(|_| self.from.is_some()).and_then(|it| it.time_left(system::boot_time()));
        match left {
            Some(left) if time < 0 => left as i32,
            Some(left) => time.min(left as i32),
            None => time,
        }
    }

    // ---- Signals.

    fn take_signals(&mut self) -> Result<(), End> {
        // The kernel tells each in 128 bytes.
        let mut told = [0; 128];
        while matches!(self.signals.read(&mut told), Ok(128)) {
            if told[..4] == system::HUNG_UP.to_ne_bytes() {
                self.reads_users = true;
                self.read_certificates();
                continue;
            }
            if self.stops.is_some() {
                return Err(End::Killed);
            }
            notify("STOPPING=1");
            if self.from.is_none() || (self.standby.is_some() && self.ready.is_none()) {
                // Nobody can be answered, and what a try has said tells nothing.
                self.held = None;
                return Err(End::Killed);
            }
            for listener in self.listeners.drain(..) {
                // Who has handed it over may still have it, and then the poll would go on telling of it.
                let _ = self.clients.poll.remove(listener.file());
            }
            self.stops = Some(self.clients.now() + self.grace);
            self.clients.stop();
        }
        Ok(())
    }

    // ---- Certificates.

    /// Reads them again. Where something is wrong, that is said, and they stay.
    fn read_certificates(&mut self) {
        if let Some(it) = &mut self.certificates {
            match it.read_again() {
                Ok(()) => say(format_args!("the certificates are read again")),
                Err(error) => say(format_args!("the certificates stay: {}", error)),
            }
        }
    }

    // ---- The users.

    /// What was read of them last, where there is a file.
    fn tell_users(&mut self) {
        if let Some(users) = &self.users {
            self.clients.to.say_users(users.text());
        }
    }

    /// Tells the program a file that was read again, where it has another text. Where it can't be read, that is said, and the users stay.
    fn read_users(&mut self) {
        self.reads_users = false;
        let users = match &mut self.users {
            Some(users) => users,
            None if self.certificates.is_some() => return,
            None => return say(format_args!("a hang-up has changed nothing: there is no --users")),
        };
        let read = users.read_again();
        let path = users.path().display();
        match read {
            Ok(true) => say(format_args!("the users of {} are read again", path)),
            Ok(false) => return say(format_args!("a hang-up has changed nothing: the users of {} are the same", path)),
            Err(error) => return say(format_args!("the users stay: {}: {}", path, error)),
        }
        self.tell_users();
    }
}

/// Takes what a line says of a lease. The program may serve only with one, where there is to be one.
fn check_lease(lease: &mut Option<Lease>, line: Line) -> Result<(), End> {
    let is_right = match (lease, line) {
        (Some(lease), Line::Locked(seconds)) => lease.locked(seconds, system::boot_time()),
        (Some(lease), Line::Touched) => match lease.touched(system::boot_time()) {
            Some(time) => {
                lease.apply();
                if lease.is_long(time) {
                    say(format_args!("the file of the store was touched behind {} milliseconds, which is long for its lease", time));
                }
                true
            }
            None => false,
        },
        (None, Line::Locked(_) | Line::Touched) => false,
        (Some(lease), Line::Ready) => lease.is_held(),
        _ => true,
    };
    if is_right {
        Ok(())
    } else {
        Err(End::BadFrame)
    }
}
