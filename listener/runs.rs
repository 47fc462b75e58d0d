//! How a program is run again that has ended: why, and when.
use std::ffi::OsString;
use std::process::ExitStatus;

/// The statuses by which a program says that it had no memory, and that it could not keep what was changed.
const NO_MEMORY: i32 = 3;
const NOT_KEPT: i32 = 5;
/// Those by which it says that another one has its store in use, and that the store can't be opened or read.
const IN_USE: i32 = 9;
const NOT_REACHED: i32 = 11;

/// In milliseconds: the pauses double between these, and a program that has served for so long counts as new.
const SHORTEST: u64 = 1000;
const LONGEST: u64 = 60_000;
const LONG: u64 = 60_000;
/// The pause behind a try to have the store.
const TRY: u64 = 500;

/// The words of the program, and the pause before the next run.
pub struct Runs {
    words: Vec<OsString>,
    pause: u64,
    /// Whether its store is waited for; and the status of the last try, where it didn't have it.
    waits: bool,
    lacked: Option<i32>,
}

/// How a program is run again: why, and behind how many milliseconds.
#[derive(Clone, Copy, Debug, PartialEq)]
pub struct Again {
    pub why: &'static str,
    pub pause: u64,
    /// Whether that is one more try to have its store; and whether the try before has ended in the same way.
    pub is_try: bool,
    pub is_known: bool,
}

impl Runs {
    pub fn new(words: &[OsString], waits: bool) -> Runs {
        Runs { words: words.to_vec(), pause: 0, waits, lacked: None }
    }

    pub fn words(&self) -> &[OsString] {
        &self.words
    }

    fn has(&self, word: &str) -> bool {
        self.words.iter().any(|it| it == word)
    }

    /// Whether the next run is one more try to have its store.
    pub fn is_try(&self) -> bool {
        self.lacked.is_some()
    }

    /// Behind a program that has ended so, and had served for so many milliseconds: how it is run again; none where it isn't.
    pub fn again(&mut self, status: Option<ExitStatus>, served: Option<u64>) -> Option<Again> {
        let before = self.lacked.take().filter(|_| served.is_none());
        let status = status?;
        let keeps = self.has("--store");
        let (why, is_try) = match (status.code(), served) {
            (Some(IN_USE), _) if self.waits => ("the store is in use", true),
            (Some(NOT_REACHED), _) if self.waits => ("the store can't be reached", true),
            (Some(NO_MEMORY), Some(_)) => ("had no memory left", false),
            (Some(NOT_KEPT), Some(_)) => ("could not keep what was changed", false),
            (None, Some(_)) if keeps => ("was ended from outside", false),
            _ => return None,
        };
        if keeps && !self.has("--existing") {
            // A store that is gone by now is not made anew.
            self.words.push("--existing".into());
        }
        if is_try {
            self.lacked = status.code();
            return Some(Again { why, pause: TRY, is_try, is_known: self.lacked == before });
        }
        let pause = if served >= Some(LONG) { 0 } else { self.pause };
        self.pause = (2 * pause).clamp(SHORTEST, LONGEST);
        Some(Again { why, pause, is_try, is_known: false })
    }
}

#[cfg(test)]
mod tests {
    use super::*;
    use std::os::unix::process::ExitStatusExt;

    fn runs(words: &[&str]) -> Runs {
        Runs::new(&words.iter().map(OsString::from).collect::<Vec<_>>(), false)
    }

    fn ended(code: i32) -> Option<ExitStatus> {
        Some(ExitStatus::from_raw(code << 8))
    }

    #[test]
    fn pauses_double() {
        let mut it = runs(&["program"]);
        let mut pauses = |served| it.again(ended(5), served).map(|again| again.pause);
        let found: Vec<_> = (0..9).filter_map(|_| pauses(Some(59_999))).collect();
        assert_eq!(found, [0, 1000, 2000, 4000, 8000, 16_000, 32_000, 60_000, 60_000]);
        assert_eq!((pauses(Some(60_000)), pauses(Some(0)), pauses(Some(0))), (Some(0), Some(1000), Some(2000)));
        assert_eq!(pauses(None), None);
    }

    #[test]
    fn statuses_decide() {
        for (code, wanted) in [(0, false), (1, false), (2, false), (3, true), (4, false), (5, true), (6, false), (9, false), (11, false)] {
            let found = runs(&["program", "--store", "a"]).again(ended(code), Some(0));
            assert_eq!(found.is_some(), wanted, "{}", code);
        }
        for (words, wanted) in [(&["program"][..], false), (&["program", "--store", "a"][..], true)] {
            assert_eq!(runs(words).again(Some(ExitStatus::from_raw(9)), Some(0)).is_some(), wanted);
        }
        assert!(runs(&["program", "--store", "a"]).again(None, Some(0)).is_none());
    }

    #[test]
    fn a_store_has_to_be_there() {
        for (words, wanted) in [
            (&["program", "--seed", "1"][..], &["program", "--seed", "1"][..]),
            (&["program", "--store", "a"][..], &["program", "--store", "a", "--existing"][..]),
            (&["program", "--existing", "--store", "a"][..], &["program", "--existing", "--store", "a"][..]),
        ] {
            let mut it = runs(words);
            for _ in 0..2 {
                assert!(it.again(ended(3), Some(0)).is_some());
                assert_eq!(it.words(), wanted);
            }
        }
    }

    fn waiting() -> Runs {
        Runs::new(&["program", "--store", "a"].map(OsString::from), true)
    }

    #[test]
    fn a_store_is_waited_for() {
        let mut it = waiting();
        let ends = [(9, None, false), (9, None, true), (11, None, false), (11, None, true), (11, Some(5), false), (9, None, false)];
        for (code, served, is_known) in ends {
            let again = it.again(ended(code), served).unwrap();
            assert_eq!((again.pause, again.is_try, again.is_known, it.is_try()), (500, true, is_known, true), "{} {:?}", code, served);
        }
        assert_eq!(it.words(), ["program", "--store", "a", "--existing"]);
    }

    #[test]
    fn nothing_else_is_waited_for() {
        let pause = |it: &mut Runs, status, served| it.again(status, served).map(|again| (again.pause, again.is_try));
        for status in [ended(3), ended(5), Some(ExitStatus::from_raw(9))] {
            let mut it = waiting();
            assert_eq!(pause(&mut it, status, Some(5)), Some((0, false)));
            assert_eq!(pause(&mut it, ended(9), None), Some((500, true)));
            // The tries change no pause.
            assert_eq!((pause(&mut it, status, Some(5)), it.is_try()), (Some((1000, false)), false));
            assert_eq!(pause(&mut it, status, None), None);
        }
        for code in [0, 1, 2, 4, 6, 7, 8, 10, 12] {
            let mut it = waiting();
            assert_eq!(pause(&mut it, ended(9), None), Some((500, true)));
            assert_eq!((pause(&mut it, ended(code), None), pause(&mut it, ended(code), Some(5))), (None, None), "{}", code);
        }
    }
}
