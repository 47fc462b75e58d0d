//! TLS by the system's own library, libssl.so.3, which is looked for only where TLS is asked for. All that is unsafe of TLS stands here.
//!
//! The types are those of openssl/ssl.h. Debian and others keep them for as long as the library has the name libssl.so.3.
use crate::fault::Fault;
use crate::system::OUT;
use std::ffi::{CStr, CString};
use std::io::{self, ErrorKind};
use std::net::TcpStream;
use std::os::raw::{c_char, c_int, c_long, c_uchar, c_uint, c_ulong, c_void};
use std::os::unix::ffi::OsStrExt;
use std::os::unix::io::AsRawFd;
use std::path::{Path, PathBuf};
use std::ptr::{null_mut, NonNull};
use std::rc::Rc;

const LIBRARY: &[u8] = b"libssl.so.3\0";
const RTLD_NOW: c_int = 2;

/// Of openssl/ssl.h.
const ERROR_SSL: c_int = 1;
const WANT_READ: c_int = 2;
const WANT_WRITE: c_int = 3;
const ERROR_SYSCALL: c_int = 5;
const ZERO_RETURN: c_int = 6;
const CTRL_MODE: c_int = 33;
const CTRL_SET_READ_AHEAD: c_int = 41;
const CTRL_CLEAR_MODE: c_int = 78;
const CTRL_SET_SESS_CACHE_MODE: c_int = 44;
const CTRL_SET_SERVERNAME_CB: c_int = 53;
const CTRL_SET_SERVERNAME_ARG: c_int = 54;
const CTRL_SET_TICKET_KEYS: c_int = 59;
const CTRL_SET_GROUPS_LIST: c_int = 92;
const CTRL_SET_MIN_PROTO_VERSION: c_int = 123;
const TLS_1_2: c_long = 0x0303;
/// Writes may be partial, come again from another place, and buffers are given back while nothing is in them.
const MODES: c_long = 0x1 | 0x2 | 0x10;
/// A read would go on for as long as records without bytes come, as those that change keys: one client could hold up all.
const AUTO_RETRY: c_long = 0x4;
/// An end without a close_notify is an end (each request tells its length); no compression, no renegotiation; the server's order of ciphers, but ChaCha20 for who has no AES.
const OPTIONS: u64 = 1 << 7 | 1 << 17 | 1 << 21 | 1 << 22 | 1 << 30;
const CIPHERS_1_2: &[u8] = b"ECDHE+AESGCM:ECDHE+CHACHA20\0";
/// Others cost much: a client that chooses ffdhe8192 takes some hundredths of a second for itself.
const GROUPS: &[u8] = b"X25519:P-256:P-384\0";
const FILE_OF_PEM: c_int = 1;
const OK: c_int = 0;
const ALERT_FATAL: c_int = 2;
const NO_ACK: c_int = 3;
/// The protocols that are spoken, as ALPN has them; the first one that a client speaks is chosen.
const PROTOCOLS: [&[u8]; 2] = [b"http/1.1", b"http/1.0"];

const SECONDS_OF_DAY: i64 = 24 * 60 * 60;

/// So many bytes are the keys of tickets.
pub const TICKET_KEYS: usize = 80;

type Pointer = *mut c_void;

extern "C" {
    fn dlopen(name: *const c_char, flags: c_int) -> Pointer;
    fn dlsym(library: Pointer, name: *const c_char) -> Pointer;
}

macro_rules! library {
    ($($name:ident: fn($($argument:ty),*) $(-> $result:ty)?;)*) => {
        /// What is used of the library, and of libcrypto.so.3, on which it stands.
        #[allow(non_snake_case)]
        pub struct Library { $($name: unsafe extern "C" fn($($argument),*) $(-> $result)?,)* }

        impl Library {
            /// It stays for as long as this process lives. An Err where it isn't there, or lacks something.
            pub fn open() -> Result<&'static Library, Fault> {
                // SAFETY: the name ends by a null byte. The library's own initialisation is what any program that is linked with it runs.
                let file = unsafe { dlopen(LIBRARY.as_ptr().cast(), RTLD_NOW) };
                let file = NonNull::new(file).ok_or_else(|| Fault::tls(format_args!("TLS needs libssl.so.3: install the package libssl3")))?;
                Ok(Box::leak(Box::new(Library { $($name: {
                    let name = concat!(stringify!($name), "\0");
                    // SAFETY: the name ends by a null byte.
                    let found = NonNull::new(unsafe { dlsym(file.as_ptr(), name.as_ptr().cast()) });
                    let found = found.ok_or_else(|| Fault::tls(format_args!("libssl.so.3 has no {}", stringify!($name))))?;
                    // SAFETY: a function of this name has this type in each libssl.so.3.
                    unsafe { std::mem::transmute::<Pointer, unsafe extern "C" fn($($argument),*) $(-> $result)?>(found.as_ptr()) }
                },)* })))
            }
        }
    };
}

library! {
    TLS_server_method: fn() -> Pointer;
    SSL_CTX_new: fn(Pointer) -> Pointer;
    SSL_CTX_free: fn(Pointer);
    SSL_CTX_ctrl: fn(Pointer, c_int, c_long, Pointer) -> c_long;
    SSL_CTX_callback_ctrl: fn(Pointer, c_int, unsafe extern "C" fn(Pointer, *mut c_int, Pointer) -> c_int) -> c_long;
    SSL_CTX_set_options: fn(Pointer, u64) -> u64;
    SSL_CTX_set_cipher_list: fn(Pointer, *const c_char) -> c_int;
    SSL_CTX_set_num_tickets: fn(Pointer, usize) -> c_int;
    SSL_CTX_set_alpn_select_cb: fn(Pointer, unsafe extern "C" fn(Pointer, *mut *const c_uchar, *mut c_uchar, *const c_uchar, c_uint, Pointer) -> c_int, Pointer);
    SSL_CTX_set_default_passwd_cb: fn(Pointer, unsafe extern "C" fn(*mut c_char, c_int, c_int, Pointer) -> c_int);
    SSL_CTX_use_certificate_chain_file: fn(Pointer, *const c_char) -> c_int;
    SSL_CTX_use_PrivateKey_file: fn(Pointer, *const c_char, c_int) -> c_int;
    SSL_CTX_check_private_key: fn(Pointer) -> c_int;
    SSL_CTX_get0_certificate: fn(Pointer) -> Pointer;
    SSL_new: fn(Pointer) -> Pointer;
    SSL_free: fn(Pointer);
    SSL_set_fd: fn(Pointer, c_int) -> c_int;
    SSL_set_accept_state: fn(Pointer);
    SSL_set_SSL_CTX: fn(Pointer, Pointer) -> Pointer;
    SSL_get_servername: fn(Pointer, c_int) -> *const c_char;
    SSL_is_init_finished: fn(Pointer) -> c_int;
    SSL_has_pending: fn(Pointer) -> c_int;
    SSL_read: fn(Pointer, *mut u8, c_int) -> c_int;
    SSL_write: fn(Pointer, *const u8, c_int) -> c_int;
    SSL_shutdown: fn(Pointer) -> c_int;
    SSL_get_error: fn(Pointer, c_int) -> c_int;
    ERR_clear_error: fn();
    ERR_get_error: fn() -> c_ulong;
    ERR_reason_error_string: fn(c_ulong) -> *const c_char;
    X509_check_host: fn(Pointer, *const c_char, usize, c_uint, *mut *mut c_char) -> c_int;
    X509_get0_notAfter: fn(Pointer) -> Pointer;
    ASN1_TIME_diff: fn(*mut c_int, *mut c_int, Pointer, Pointer) -> c_int;
}

impl Library {
    fn clear(&self) {
        // SAFETY: it takes nothing.
        unsafe { (self.ERR_clear_error)() }
    }

    /// Why the last call failed; all that it said is forgotten then.
    fn reason(&self) -> String {
        // SAFETY: the text is the library's own, ends by a null byte, and stays.
        let text = unsafe { (self.ERR_reason_error_string)((self.ERR_get_error)()) };
        self.clear();
        if text.is_null() {
            return "it fails without a reason".into();
        }
        // SAFETY: as above.
        unsafe { CStr::from_ptr(text) }.to_string_lossy().into_owned()
    }

    fn fault(&self) -> Fault {
        Fault::tls(format_args!("libssl.so.3: {}", self.reason()))
    }
}

fn path_bytes(path: &Path) -> Result<CString, Fault> {
    CString::new(path.as_os_str().as_bytes()).map_err(|_| Fault::tls(format_args!("the path has a null byte")))
}

// ---- Certificates.

/// A certificate with its chain and its key, and how TLS is spoken.
struct Context {
    library: &'static Library,
    context: NonNull<c_void>,
}

impl Drop for Context {
    fn drop(&mut self) {
        // SAFETY: it is this one's own; sessions that are still of it count for themselves.
        unsafe { (self.library.SSL_CTX_free)(self.context.as_ptr()) }
    }
}

impl Context {
    fn new(library: &'static Library, certificate: &Path, key: &Path) -> Result<Context, Fault> {
        library.clear();
        // SAFETY: a method is the library's own, and stays.
        let context = NonNull::new(unsafe { (library.SSL_CTX_new)((library.TLS_server_method)()) }).ok_or_else(|| library.fault())?;
        let it = Context { library, context };
        it.set_up()?;
        it.take(certificate, key)?;
        Ok(it)
    }

    fn control(&self, what: c_int, number: c_long, pointer: Pointer) -> c_long {
        // SAFETY: callers give what `what` takes: a number, and a pointer or null.
        unsafe { (self.library.SSL_CTX_ctrl)(self.context.as_ptr(), what, number, pointer) }
    }

    fn set_up(&self) -> Result<(), Fault> {
        let (library, context) = (self.library, self.context.as_ptr());
        self.control(CTRL_MODE, MODES, null_mut());
        self.control(CTRL_CLEAR_MODE, AUTO_RETRY, null_mut());
        self.control(CTRL_SET_READ_AHEAD, 1, null_mut());
        // Sessions are kept by clients alone, in tickets.
        self.control(CTRL_SET_SESS_CACHE_MODE, 0, null_mut());
        let is_new = self.control(CTRL_SET_MIN_PROTO_VERSION, TLS_1_2, null_mut()) == 1;
        let is_new = is_new && self.control(CTRL_SET_GROUPS_LIST, 0, GROUPS.as_ptr() as Pointer) == 1;
        // SAFETY: the context is there, the text ends by a null byte, and the functions have the types that are asked for. They use no state.
        let is_set = unsafe {
            (library.SSL_CTX_set_options)(context, OPTIONS);
            (library.SSL_CTX_set_alpn_select_cb)(context, choose_protocol, self.library as *const Library as Pointer);
            (library.SSL_CTX_set_default_passwd_cb)(context, no_password);
            (library.SSL_CTX_set_num_tickets)(context, 1) == 1
                && (library.SSL_CTX_set_cipher_list)(context, CIPHERS_1_2.as_ptr().cast()) == 1
        };
        if is_new && is_set {
            Ok(())
        } else {
            Err(library.fault())
        }
    }

    fn take(&self, certificate: &Path, key: &Path) -> Result<(), Fault> {
        let (library, context) = (self.library, self.context.as_ptr());
        let (certificate_bytes, key_bytes) = (path_bytes(certificate)?, path_bytes(key)?);
        // SAFETY: both paths end by a null byte.
        if unsafe { (library.SSL_CTX_use_certificate_chain_file)(context, certificate_bytes.as_ptr()) } != 1 {
            return Err(Fault::tls(format_args!("{} has no certificate in PEM: {}", certificate.display(), library.reason())));
        }
        // SAFETY: as above.
        if unsafe { (library.SSL_CTX_use_PrivateKey_file)(context, key_bytes.as_ptr(), FILE_OF_PEM) } != 1 {
            return Err(Fault::tls(format_args!(
                "{} has no key in PEM of that certificate, without a password: {}",
                key.display(),
                library.reason()
            )));
        }
        // SAFETY: the context is there.
        if unsafe { (library.SSL_CTX_check_private_key)(context) } != 1 {
            return Err(Fault::tls(format_args!(
                "the key of {} is not that of {}: {}",
                key.display(),
                certificate.display(),
                library.reason()
            )));
        }
        Ok(())
    }

    fn seconds_left(&self) -> Option<i64> {
        let (mut days, mut seconds) = (0, 0);
        // SAFETY: `take` gave it a certificate, whose times are its own. Null stands for this moment, and both numbers are written within the call.
        let is_told = unsafe {
            let certificate = (self.library.SSL_CTX_get0_certificate)(self.context.as_ptr());
            (self.library.ASN1_TIME_diff)(&mut days, &mut seconds, null_mut(), (self.library.X509_get0_notAfter)(certificate)) == 1
        };
        self.library.clear();
        Some(i64::from(days) * SECONDS_OF_DAY + i64::from(seconds)).filter(|_| is_told)
    }
}

/// All certificates. A client gets the first one that has the name which it asks for, else the first.
pub struct Contexts {
    library: &'static Library,
    all: Vec<Context>,
}

impl Contexts {
    /// Reads certificates and keys, files of PEM. An Err says what is wrong.
    pub fn read(library: &'static Library, pairs: &[(PathBuf, PathBuf)], keys: &mut [u8; TICKET_KEYS]) -> Result<Rc<Contexts>, Fault> {
        let all = pairs.iter().map(|(certificate, key)| Context::new(library, certificate, key)).collect::<Result<Vec<_>, _>>()?;
        let it = Rc::new(Contexts { library, all });
        let first = it.all.first().ok_or_else(|| Fault::tls(format_args!("there is no certificate")))?;
        // SAFETY: `choose` has the type that is asked for. What it is given lies where it is for as long as a session is there: each holds the Rc.
        unsafe { (library.SSL_CTX_callback_ctrl)(first.context.as_ptr(), CTRL_SET_SERVERNAME_CB, choose) };
        first.control(CTRL_SET_SERVERNAME_ARG, 0, Rc::as_ptr(&it) as Pointer);
        it.set_ticket_keys(keys);
        Ok(it)
    }

    /// The keys by which tickets are sealed from now on, and none other.
    pub fn set_ticket_keys(&self, keys: &mut [u8; TICKET_KEYS]) {
        // The library copies them.
        self.all[0].control(CTRL_SET_TICKET_KEYS, TICKET_KEYS as c_long, keys.as_mut_ptr().cast());
    }

    /// For how many seconds each certificate is still valid, where that can be said.
    pub fn seconds_left(&self) -> Vec<Option<i64>> {
        self.all.iter().map(Context::seconds_left).collect()
    }
}

/// Chooses the certificate of a client by the name that it asks for.
unsafe extern "C" fn choose(session: Pointer, _alert: *mut c_int, contexts: Pointer) -> c_int {
    // SAFETY: it is what `read` set, and the session holds it.
    let contexts = unsafe { &*(contexts as *const Contexts) };
    let library = contexts.library;
    // SAFETY: the session is the one that calls; its name ends by a null byte, and stays within this call.
    let name = unsafe { (library.SSL_get_servername)(session, 0) };
    if name.is_null() {
        return NO_ACK;
    }
    // SAFETY: as above; each context has a certificate.
    let is_for = |it: &&Context| unsafe {
        let certificate = (library.SSL_CTX_get0_certificate)(it.context.as_ptr());
        (library.X509_check_host)(certificate, name, CStr::from_ptr(name).to_bytes().len(), 0, null_mut()) == 1
    };
    if let Some(found) = contexts.all.iter().find(is_for) {
        // SAFETY: both are there; the library counts who holds a context.
        unsafe { (library.SSL_set_SSL_CTX)(session, found.context.as_ptr()) };
    }
    OK
}

/// Of what a client speaks by ALPN one that is spoken here is chosen; one that speaks other things alone is refused.
unsafe extern "C" fn choose_protocol(
    _: Pointer,
    chosen: *mut *const c_uchar,
    length: *mut c_uchar,
    offered: *const c_uchar,
    size: c_uint,
    _: Pointer,
) -> c_int {
    // SAFETY: the library gives as many bytes.
    let offered = unsafe { std::slice::from_raw_parts(offered, size as usize) };
    match PROTOCOLS.iter().find(|it| is_offered(it, offered)) {
        Some(found) => {
            // SAFETY: the library takes both within this call, and the text stays.
            unsafe { (*chosen, *length) = (found.as_ptr(), found.len() as c_uchar) };
            OK
        }
        None => ALERT_FATAL,
    }
}

/// Whether a name is one of these, each of which has its length before it.
fn is_offered(name: &[u8], mut offered: &[u8]) -> bool {
    while let Some((count, behind)) = offered.split_first() {
        let other = behind.get(..usize::from(*count)).unwrap_or(behind);
        if other == name {
            return true;
        }
        offered = &behind[other.len()..];
    }
    false
}

/// A key that needs a password is refused: nobody is asked.
unsafe extern "C" fn no_password(_: *mut c_char, _: c_int, _: c_int, _: Pointer) -> c_int {
    0
}

// ---- Sessions.

/// TLS with one client.
pub struct Session {
    session: NonNull<c_void>,
    contexts: Rc<Contexts>,
    /// What is waited for beside what can be read.
    wants: u32,
    /// Whether there may be more than the socket tells.
    has_more: bool,
    has_failed: bool,
}

impl Drop for Session {
    fn drop(&mut self) {
        // SAFETY: it is this one's own. It closes no file.
        unsafe { (self.contexts.library.SSL_free)(self.session.as_ptr()) }
    }
}

impl Session {
    /// The socket has to stay for as long as the session does.
    pub fn new(contexts: &Rc<Contexts>, socket: &TcpStream) -> io::Result<Session> {
        let library = contexts.library;
        library.clear();
        // SAFETY: the context is there.
        let session = NonNull::new(unsafe { (library.SSL_new)(contexts.all[0].context.as_ptr()) }).ok_or(ErrorKind::OutOfMemory)?;
        let it = Session { session, contexts: contexts.clone(), wants: 0, has_more: false, has_failed: false };
        // SAFETY: the session is there, and the file is open.
        let is_set = unsafe {
            (library.SSL_set_accept_state)(session.as_ptr());
            (library.SSL_set_fd)(session.as_ptr(), socket.as_raw_fd()) == 1
        };
        if is_set {
            Ok(it)
        } else {
            Err(ErrorKind::OutOfMemory.into())
        }
    }

    /// Whether its handshake isn't done.
    pub fn is_shaking(&self) -> bool {
        // SAFETY: the session is there.
        unsafe { (self.contexts.library.SSL_is_init_finished)(self.session.as_ptr()) == 0 }
    }

    pub fn has_more(&self) -> bool {
        self.has_more
    }

    pub fn wants(&self) -> u32 {
        self.wants
    }

    /// Reads as much as there is; 0 at the end. Where nothing is there it goes on with the handshake.
    pub fn read(&mut self, room: &mut [u8]) -> io::Result<usize> {
        let library = self.contexts.library;
        let mut count = 0;
        (self.wants, self.has_more) = (0, false);
        while count < room.len() {
            let rest = &mut room[count..];
            let most = rest.len().min(c_int::MAX as usize) as c_int;
            library.clear();
            // SAFETY: there is so much room.
            let result = unsafe { (library.SSL_read)(self.session.as_ptr(), rest.as_mut_ptr(), most) };
            match self.checked(result) {
                Ok(0) if count == 0 => return Ok(0),
                Ok(read) if read > 0 => count += read,
                Err(error) if count == 0 => return Err(error),
                Err(error) if error.kind() == ErrorKind::WouldBlock => return Ok(count),
                // An end, or what is wrong, comes again.
                _ => {
                    self.has_more = true;
                    return Ok(count);
                }
            }
            // SAFETY: the session is there.
            self.has_more = unsafe { (library.SSL_has_pending)(self.session.as_ptr()) == 1 };
            if !self.has_more {
                break;
            }
        }
        Ok(count)
    }

    /// How much of it is taken. What isn't has to come again, and maybe more behind it.
    pub fn write(&mut self, bytes: &[u8]) -> io::Result<usize> {
        let library = self.contexts.library;
        let mut count = 0;
        while count < bytes.len() {
            let rest = &bytes[count..];
            let most = rest.len().min(c_int::MAX as usize) as c_int;
            library.clear();
            // SAFETY: there are so many bytes.
            let result = unsafe { (library.SSL_write)(self.session.as_ptr(), rest.as_ptr(), most) };
            match self.checked(result) {
                // So it is told where a client has said its end, and is gone.
                Ok(0) => return Err(ErrorKind::BrokenPipe.into()),
                Ok(taken) => count += taken,
                Err(error) if error.kind() == ErrorKind::WouldBlock => {
                    // It waits until it can be written: the caller keeps what is left.
                    self.wants = 0;
                    break;
                }
                Err(error) => return Err(error),
            }
        }
        Ok(count)
    }

    /// Says that no more comes, where that can be said. An Err of WouldBlock where the socket takes nothing.
    pub fn say_end(&mut self) -> io::Result<()> {
        self.wants = 0;
        if self.has_failed || self.is_shaking() {
            return Ok(());
        }
        let library = self.contexts.library;
        library.clear();
        // SAFETY: the session is there, and nothing failed in it.
        let result = unsafe { (library.SSL_shutdown)(self.session.as_ptr()) };
        if result >= 0 {
            Ok(())
        } else {
            self.checked(result).map(drop)
        }
    }

    fn checked(&mut self, result: c_int) -> io::Result<usize> {
        if result > 0 {
            return Ok(result as usize);
        }
        let error = io::Error::last_os_error();
        // SAFETY: the session is there; nothing else was called since.
        match unsafe { (self.contexts.library.SSL_get_error)(self.session.as_ptr(), result) } {
            ZERO_RETURN => Ok(0),
            WANT_READ => Err(ErrorKind::WouldBlock.into()),
            WANT_WRITE => {
                self.wants = OUT;
                Err(ErrorKind::WouldBlock.into())
            }
            kind => {
                self.has_failed = true;
                match kind {
                    // What the system says of another call, as that something has to wait, is no reason here.
                    ERROR_SYSCALL if error.raw_os_error() != Some(0) && error.kind() != ErrorKind::WouldBlock => Err(error),
                    ERROR_SSL | ERROR_SYSCALL => Err(io::Error::new(ErrorKind::InvalidData, self.contexts.library.reason())),
                    _ => Err(ErrorKind::InvalidData.into()),
                }
            }
        }
    }
}
