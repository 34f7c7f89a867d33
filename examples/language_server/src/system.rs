//! What the server asks of the system, beside what Rust has.
use std::ffi::OsString;
use std::fs::File;
use std::io::{self, BufReader, Read};
use std::os::unix::ffi::OsStringExt;
use std::path::PathBuf;
use std::process;
use std::thread;
use std::time::Duration;

/// How often it is looked whether the client lives.
const WATCH: Duration = Duration::from_secs(5);

/// Whether standard input has something to be read, or its end.
pub fn has_input() -> bool {
    let mut input = libc::pollfd {
        fd: libc::STDIN_FILENO,
        events: libc::POLLIN,
        revents: 0,
    };
    // SAFETY: it is one descriptor, as is said, and it is there until the call returns.
    unsafe { libc::poll(&mut input, 1, 0) != 0 }
}

/// Gives memory that is free back to the system, where the C library can.
pub fn give_memory_back() {
    // SAFETY: it moves nothing that is in use.
    #[cfg(target_env = "gnu")]
    unsafe {
        libc::malloc_trim(0);
    }
}

/// Ends the program when a process has ended. One that cannot be seen, as from a container, is not watched.
pub fn end_with(process: i64) {
    let place = PathBuf::from(format!("/proc/{process}"));
    if place.exists() {
        thread::spawn(move || {
            while place.exists() {
                thread::sleep(WATCH);
            }
            process::exit(1)
        });
    }
}

/// Whether the file of a URI has a text, and no more: as it is, or with CR LF for each LF. A file that cannot be read has none.
pub fn file_has(uri: &str, text: &str) -> bool {
    // Of a text that begins with CR LF, and has no other break, the part after the CR would be told as the whole.
    let may_be_part = text.strip_prefix('\n').is_some_and(|rest| !rest.contains('\n'));
    let with_returns = text.bytes().flat_map(|byte| {
        let added = (byte == b'\n').then_some(b'\r');
        added.into_iter().chain([byte])
    });
    let is_in = |path: &PathBuf| has(path, text.bytes()) || (!may_be_part && has(path, with_returns));
    // A pipe would be waited for.
    path_of(uri).filter(|path| path.is_file()).as_ref().is_some_and(is_in)
}

fn has(path: &PathBuf, mut wanted: impl Iterator<Item = u8>) -> bool {
    let Ok(file) = File::open(path) else {
        return false;
    };
    let is_next = |byte: io::Result<u8>| byte.is_ok_and(|byte| wanted.next() == Some(byte));
    BufReader::new(file).bytes().all(is_next) && wanted.next().is_none()
}

/// The path of a file by its URI, where it is one of this machine.
fn path_of(uri: &str) -> Option<PathBuf> {
    let path = uri.strip_prefix("file://")?;
    let path = path.strip_prefix("localhost").unwrap_or(path);
    let mut parts = path.split('%');
    let mut bytes = parts.next()?.as_bytes().to_vec();
    for part in parts {
        bytes.push(u8::from_str_radix(part.get(..2)?, 16).ok()?);
        bytes.extend_from_slice(&part.as_bytes()[2..]);
    }
    let path = PathBuf::from(OsString::from_vec(bytes));
    path.is_absolute().then_some(path)
}

#[cfg(test)]
mod tests {
    use super::*;

    #[test]
    fn a_uri_has_a_path() {
        assert_eq!(path_of("file:///a%20b/%c3%A9"), Some(PathBuf::from("/a b/é")));
        assert_eq!(path_of("file://localhost/a"), Some(PathBuf::from("/a")));
        for uri in [
            "untitled:a",
            "file://host/a",
            "file:///%",
            "file:///%g0",
            "file:///%é",
            "file:a",
            "",
        ] {
            assert_eq!(path_of(uri), None, "{uri}");
        }
    }
}
