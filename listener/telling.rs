//! What is told once the program is ready: where clients come, and what whoever starts this has to know.
use crate::addresses::Listener;
use crate::notify::notify;
use crate::options::Options;
use crate::say;
use std::io::{self, Write};

pub struct Telling<'a> {
    pub options: &'a Options,
    /// How much the program may take.
    pub memory: u64,
}

impl Telling<'_> {
    fn lines(&self, listeners: &[Listener]) -> Vec<String> {
        let mut lines = Vec::new();
        if self.memory > 0 {
            lines.push(format!("the program may take {} MB of memory (--memory)", self.memory / 1_000_000));
        }
        lines.extend(dangers(self.options, &names(listeners, Listener::is_open), &names(listeners, |it| it.is_open() && !it.speaks_tls)));
        let elsewhere = self.options.proxies.elsewhere();
        if !elsewhere.is_empty() {
            lines.push(format!("whoever is at {} can say to be at any address (--proxy-protocol)", elsewhere.join(" ")));
        }
        lines
    }

    pub fn tell(&self, listeners: &[Listener]) {
        let mut out = io::stdout();
        for listener in listeners {
            let _ = writeln!(out, "{}", listener.name());
        }
        let _ = out.flush();
        for line in self.lines(listeners) {
            say(format_args!("{}", line));
        }
        // A standby tells it itself.
        if !self.options.lets_in_late() {
            notify("READY=1");
        }
    }
}

/// The names of those of which something holds.
fn names(listeners: &[Listener], is_told: fn(&Listener) -> bool) -> String {
    listeners.iter().filter(|it| is_told(it)).map(Listener::name).collect::<Vec<_>>().join(" ")
}

/// What everyone can do who reaches the open addresses, of which some speak no TLS.
fn dangers(options: &Options, open: &str, plain: &str) -> Vec<String> {
    let has = |name: &str| options.program_has(name);
    let mut lines = Vec::new();
    if open.is_empty() {
        return lines;
    }
    if options.users.is_some() || has("--users") {
        if !plain.is_empty() {
            lines.push(format!(
                "whoever stands between a client and {plain} can read passwords, unless only a proxy gets there: no TLS is spoken"
            ));
        }
    } else {
        let what = match (has("--user-header"), has("--read-only")) {
            (true, _) => "name itself any user, unless only a proxy gets there",
            (false, true) => "read everything",
            (false, false) => "read and change everything",
        };
        lines.push(format!("whoever reaches {open} can {what}"));
    }
    if has("--address-header") {
        lines.push(format!("whoever reaches {open} can say to be at any address, unless only a proxy gets there"));
    }
    lines
}
