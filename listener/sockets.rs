//! Sockets of Unix, each with a file in a folder. Two listeners that begin or end at once take turns there.
use crate::addresses::unix_bytes;
use crate::system;
use std::fs::{remove_file, set_permissions, symlink_metadata, File, Metadata, Permissions};
use std::io::{self, ErrorKind};
use std::os::unix::fs::{MetadataExt, PermissionsExt};
use std::os::unix::net::{UnixListener, UnixStream};
use std::path::{Path, PathBuf};
use std::thread::sleep;
use std::time::Duration;

/// So often a folder is tried that another one has locked, with so long a pause.
const TRIES: usize = 200;
const PAUSE: Duration = Duration::from_millis(5);

/// Locks the folder of a file, until what is given is dropped.
fn locked_folder(path: &Path) -> io::Result<File> {
    let folder = path.parent().filter(|it| !it.as_os_str().is_empty()).unwrap_or_else(|| Path::new("."));
    let folder = File::open(folder)?;
    for _ in 1..TRIES {
        match system::lock(&folder) {
            Err(error) if matches!(error.kind(), ErrorKind::WouldBlock | ErrorKind::Interrupted) => sleep(PAUSE),
            result => return result.map(|()| folder),
        }
    }
    system::lock(&folder).map(|()| folder)
}

/// The file of a socket, which is removed at the end, unless another one stands there by then.
pub struct OwnFile {
    path: PathBuf,
    number: (u64, u64),
}

fn number_of(file: &Metadata) -> (u64, u64) {
    (file.dev(), file.ino())
}

impl Drop for OwnFile {
    fn drop(&mut self) {
        // Where it can't be locked the file is left: the next one sees that nobody listens there.
        let locked = locked_folder(&self.path);
        if locked.is_ok() && symlink_metadata(&self.path).map_or(false, |it| number_of(&it) == self.number) {
            let _ = remove_file(&self.path);
        }
    }
}

/// Listens at a path, and gives its file this mode. An Err of AddrInUse where somebody listens there.
pub fn open_unix(path: &Path, mode: u32) -> io::Result<(UnixListener, OwnFile)> {
    let bytes = unix_bytes(path)?;
    let socket = system::new_socket(system::UNIX, system::STREAM)?;
    let locked = locked_folder(path)?;
    if let Err(error) = system::bind_to(&socket, &bytes) {
        // A socket at which nobody listens was left over.
        let is_left = UnixStream::connect(path).map_or_else(|it| it.kind() == ErrorKind::ConnectionRefused, |_| false);
        if error.kind() != ErrorKind::AddrInUse || !is_left {
            return Err(error);
        }
        remove_file(path)?;
        system::bind_to(&socket, &bytes)?;
    }
    let file = OwnFile { path: path.to_path_buf(), number: number_of(&symlink_metadata(path)?) };
    // Nobody gets in before this.
    let listens = set_permissions(path, Permissions::from_mode(mode)).and_then(|()| system::listen_on(&socket));
    drop(locked);
    listens?;
    Ok((UnixListener::from(socket), file))
}
