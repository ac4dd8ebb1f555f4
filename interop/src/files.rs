//! The files of a folder, as servers give them out.

use crate::streams::Body;
use nix::dir::{Dir, OwningIter, Type};
use nix::errno::Errno;
use std::ffi::{CString, OsStr, c_int};
use std::fs::{File, OpenOptions};
use std::io::{self, ErrorKind, Seek, SeekFrom};
use std::ops::Range;
use std::os::fd::{AsRawFd, FromRawFd, IntoRawFd};
use std::os::unix::ffi::OsStrExt;
use std::os::unix::fs::OpenOptionsExt;
use std::path::{Path, PathBuf};
use std::sync::Arc;
use std::time::SystemTime;

/// As servers of pages have it.
const INDEX: &str = "index.html";

/// More names aren't sorted, and are read as they go.
const MOST_SORTED: usize = 1000;

#[derive(Clone, Debug)]
pub struct Folder {
    root: Arc<File>,
    path: Arc<PathBuf>,
}

#[derive(Debug)]
pub struct Found {
    file: File,
    pub len: u64,
    pub modified: SystemTime,
    pub kind: String,
}

#[derive(Debug, PartialEq, Eq, PartialOrd, Ord)]
pub struct Listed {
    pub name: Vec<u8>,
    pub is_folder: bool,
}

/// What stands in a folder; not what is hidden, nor what can't be given out.
#[derive(Debug)]
pub struct Names {
    folder: Folder,
    path: PathBuf,
    entries: OwningIter,
}

#[derive(Debug)]
pub enum Named {
    File(Found),
    /// A folder whose path lacks its last slash, so that relative links on its page would lead elsewhere: the reference to it.
    Folder(String),
    /// A folder without a page: its names in order, or the first ones, and those behind them.
    Listing(Vec<Listed>, Option<Names>),
}

impl Folder {
    /// # Errors
    pub fn open(root: &str) -> io::Result<Folder> {
        let path = Path::new(root).canonicalize()?;
        let root = File::open(&path)?;
        match root.metadata()?.is_dir() {
            true => Ok(Folder {
                root: Arc::new(root),
                path: Arc::new(path),
            }),
            false => Err(ErrorKind::NotADirectory.into()),
        }
    }

    /// What the path of a URL names, a query behind it or not (RFC 3986, sections 2.1 and 3.3).
    ///
    /// # Errors
    ///
    /// Where there is nothing, or the path leads out of the folder; [`is_exhausted`] tells those of the system.
    pub fn named(&self, path: &[u8]) -> io::Result<Named> {
        let path = path.split(|byte| b"?#".contains(byte)).next();
        let (mut within, mut last) = (PathBuf::new(), &[][..]);
        for part in path.unwrap_or_default().split(|byte| *byte == b'/') {
            let name = decoded(part).ok_or(ErrorKind::NotFound)?;
            let is_first = within.as_os_str().is_empty();
            if is_hidden(&name, is_first) || name.contains(&b'/') || name.contains(&0) {
                return Err(ErrorKind::NotFound.into());
            }
            within.push(OsStr::from_bytes(&name));
            last = part;
        }
        if last.is_empty() {
            return match self.file(&within.join(INDEX)) {
                Ok(Some(index)) => Ok(Named::File(index)),
                Ok(None) => self.list(within),
                Err(error) if is_absent(&error) => self.list(within),
                Err(error) => Err(error),
            };
        }
        let found = self.file(&within)?.map(Named::File);
        Ok(found.unwrap_or_else(|| Named::Folder(format!("./{}/", last.escape_ascii()))))
    }

    ///
    /// # Errors
    ///
    /// Those of [`Folder::named`].
    pub fn plain(&self, path: &str) -> io::Result<Found> {
        match self.named(path.as_bytes())? {
            Named::File(found) => Ok(found),
            _ => Err(ErrorKind::NotFound.into()),
        }
    }

    // `None` where it is a folder. Of a pipe or a device nothing is given out: that could wait, or not end.
    fn file(&self, path: &Path) -> io::Result<Option<Found>> {
        let file = self.within(path, libc::O_NONBLOCK)?;
        let about = file.metadata()?;
        match (about.is_file(), about.is_dir()) {
            (true, _) => Ok(Some(Found {
                file,
                len: about.len(),
                modified: about.modified()?,
                kind: kind(path),
            })),
            (_, true) => Ok(None),
            _ => Err(ErrorKind::NotFound.into()),
        }
    }

    // Links are followed only while they stay in the folder: what is given out is the folder's. Where the kernel doesn't look after that, or
    // finds a link that begins with `/`, or has no descriptor left, the path without links tells.
    fn within(&self, path: &Path, flags: c_int) -> io::Result<File> {
        let path = match path.as_os_str() {
            path if path.is_empty() => Path::new("."),
            _ => path,
        };
        let opened = open_beneath(&self.root, path, flags);
        let unsure = [
            libc::EXDEV,
            libc::ENOSYS,
            libc::EPERM,
            libc::EMFILE,
            libc::ENFILE,
        ];
        let is_unsure = |code| unsure.contains(&code);
        match opened {
            Err(error) if error.raw_os_error().is_some_and(is_unsure) => {
                let path = self.path.join(path).canonicalize()?;
                if !path.starts_with(&*self.path) {
                    return Err(ErrorKind::NotFound.into());
                }
                OpenOptions::new().read(true).custom_flags(flags).open(path)
            }
            opened => opened,
        }
    }

    fn list(&self, path: PathBuf) -> io::Result<Named> {
        let file = self.within(&path, libc::O_DIRECTORY)?;
        let mut names = Names {
            folder: self.clone(),
            path,
            entries: Dir::from_fd(file.into_raw_fd())?.into_iter(),
        };
        let mut first: Vec<Listed> = names.by_ref().take(MOST_SORTED + 1).collect();
        let is_all = first.len() <= MOST_SORTED;
        if is_all {
            first.sort();
        }
        Ok(Named::Listing(first, (!is_all).then_some(names)))
    }
}

impl Iterator for Names {
    type Item = Listed;

    fn next(&mut self) -> Option<Listed> {
        loop {
            let entry = self.entries.next()?.ok()?;
            let name = entry.file_name().to_bytes();
            let is_folder = match entry.file_type() {
                _ if name.starts_with(b".") => None,
                Some(Type::Directory) => Some(true),
                Some(Type::File) => Some(false),
                // (where a link leads to)
                Some(Type::Symlink) | None => {
                    let path = self.path.join(OsStr::from_bytes(name));
                    let about = self.folder.within(&path, libc::O_PATH);
                    let about = about.and_then(|file| file.metadata()).ok();
                    let about = about.filter(|about| about.is_dir() || about.is_file());
                    about.map(|about| about.is_dir())
                }
                Some(_) => None,
            };
            if let Some(is_folder) = is_folder {
                let name = name.to_vec();
                return Some(Listed { name, is_folder });
            }
        }
    }
}

impl Found {
    ///
    /// # Errors
    ///
    /// Of a file that has no such place.
    pub fn body(mut self, range: Range<u64>) -> io::Result<Body> {
        if range.start > 0 {
            self.file.seek(SeekFrom::Start(range.start))?;
        }
        Ok(Body::new(self.file, range.end - range.start))
    }
}

fn open_beneath(root: &File, path: &Path, flags: c_int) -> io::Result<File> {
    #[repr(C)]
    struct How {
        flags: u64,
        mode: u64,
        resolve: u64,
    }
    let how = How {
        flags: (flags | libc::O_RDONLY | libc::O_CLOEXEC | libc::O_NOCTTY) as u64,
        mode: 0,
        resolve: libc::RESOLVE_BENEATH,
    };
    let path = CString::new(path.as_os_str().as_bytes())?;
    let (root, len) = (root.as_raw_fd(), size_of::<How>());
    // Sound: the path ends with a zero, and the kernel reads so many bytes of what stands behind it.
    let opened =
        unsafe { libc::syscall(libc::SYS_openat2, root, path.as_ptr(), &raw const how, len) };
    let opened = Errno::result(opened)?;
    // Sound: no one else has it.
    Ok(unsafe { File::from_raw_fd(opened as c_int) })
}

/// Then the client may ask again, where "there is none" would be final.
pub fn is_exhausted(error: &io::Error) -> bool {
    matches!(
        error.raw_os_error(),
        Some(libc::EMFILE | libc::ENFILE | libc::ENOMEM)
    )
}

fn is_absent(error: &io::Error) -> bool {
    matches!(error.kind(), ErrorKind::NotFound | ErrorKind::NotADirectory)
}

// What begins with a dot isn't given out, but for what hosts are asked for (RFC 8615).
fn is_hidden(name: &[u8], is_first: bool) -> bool {
    name.starts_with(b".") && name != b"." && !(is_first && name == b".well-known")
}

// By the ending of the name. Texts are taken for UTF-8.
fn kind(path: &Path) -> String {
    let guess = mime_guess::from_path(path).first_or_octet_stream();
    match (guess.type_().as_str(), guess.subtype().as_str()) {
        (_, "javascript") => "text/javascript; charset=utf-8".to_owned(),
        ("text", _) => format!("{}; charset=utf-8", guess.essence_str()),
        _ => guess.essence_str().to_owned(),
    }
}

// A part of a path, with what stands there as % and two digits; `None` where no two digits follow.
fn decoded(part: &[u8]) -> Option<Vec<u8>> {
    let mut out = Vec::new();
    let mut rest = part;
    while let [first, after @ ..] = rest {
        rest = after;
        if *first != b'%' {
            out.push(*first);
            continue;
        }
        let (digits, after) = rest.split_first_chunk::<2>()?;
        let digits = digits.map(|digit| char::from(digit).to_digit(16));
        let [Some(high), Some(low)] = digits else {
            return None;
        };
        out.push((high * 16 + low) as u8);
        rest = after;
    }
    Some(out)
}

#[cfg(test)]
mod tests {
    use super::*;

    struct Room(PathBuf);

    impl Room {
        fn new(name: &str) -> Room {
            let room = std::env::temp_dir().join(format!("{name}-{}", std::process::id()));
            for folder in ["files/sub/.well-known", "files/.well-known"] {
                std::fs::create_dir_all(room.join(folder)).unwrap();
            }
            for (file, text) in [
                ("secret", "no"),
                ("files/a b%.SVG", "picture"),
                ("files/index.html", "top"),
                ("files/sub/index.html", "sub"),
                ("files/plain", "?"),
                ("files/.hidden", "no"),
                ("files/sub/.hidden", "no"),
                ("files/sub/.well-known/a", "no"),
                ("files/.well-known/.hidden", "no"),
                ("files/.well-known/a", "yes"),
            ] {
                std::fs::write(room.join(file), text).unwrap();
            }
            std::os::unix::fs::symlink(room.join("secret"), room.join("files/link")).unwrap();
            Room(room)
        }
    }

    impl Drop for Room {
        fn drop(&mut self) {
            _ = std::fs::remove_dir_all(&self.0);
        }
    }

    #[test]
    fn paths_name_files_with_their_types() {
        let room = Room::new("gotsavena-named");
        let folder = Folder::open(room.0.join("files").to_str().unwrap()).unwrap();
        let named = |path: &str| match folder.named(path.as_bytes()) {
            Ok(Named::File(found)) => Some((found.len, found.kind)),
            _ => None,
        };
        let html = "text/html; charset=utf-8".to_owned();
        let svg = "image/svg+xml".to_owned();
        assert_eq!(named("/a%20b%25.SVG?v=1"), Some((7, svg.clone())));
        assert_eq!(named("/a%20b%25.SVG#part"), Some((7, svg)));
        let other = "application/octet-stream".to_owned();
        assert_eq!(named("/plain"), Some((1, other)));
        assert_eq!(named("/"), Some((3, html.clone())));
        assert_eq!(named("/sub/"), Some((3, html.clone())));
        assert_eq!(named("/./sub/index.html"), Some((3, html)));
        let slash = folder.named(b"/sub?q");
        assert!(matches!(slash, Ok(Named::Folder(to)) if to == "./sub/"));
    }

    #[test]
    fn types_are_those_of_browsers() {
        for (name, wanted) in [
            ("a.html", "text/html; charset=utf-8"),
            ("a.js", "text/javascript; charset=utf-8"),
            ("a.mjs", "text/javascript; charset=utf-8"),
            ("a.css", "text/css; charset=utf-8"),
            ("a.json", "application/json"),
            ("a.wasm", "application/wasm"),
            ("a.woff2", "font/woff2"),
            ("a.webp", "image/webp"),
            ("a.mp4", "video/mp4"),
            ("a.m3u8", "audio/x-mpegurl"),
            ("a.gz", "application/gzip"),
            ("a.geojson", "application/geo+json"),
        ] {
            assert_eq!(kind(Path::new(name)), wanted, "{name}");
        }
    }

    #[test]
    fn a_folder_without_a_page_is_listed() {
        let room = Room::new("gotsavena-listed");
        let root = room.0.join("files");
        std::fs::remove_file(root.join("index.html")).unwrap();
        std::fs::write(root.join(".hidden"), "no").unwrap();
        let folder = Folder::open(root.to_str().unwrap()).unwrap();
        let Ok(Named::Listing(listed, None)) = folder.named(b"/") else {
            panic!();
        };
        let names: Vec<&[u8]> = listed.iter().map(|listed| listed.name.as_slice()).collect();
        // Neither the hidden file, nor the link that leads out.
        assert_eq!(names, [&b"a b%.SVG"[..], b"plain", b"sub"]);
        assert!(listed[2].is_folder && !listed[1].is_folder);
    }

    #[test]
    fn no_path_leads_out() {
        let room = Room::new("gotsavena-out");
        let folder = Folder::open(room.0.join("files").to_str().unwrap()).unwrap();
        for path in [
            "../secret",
            "/../secret",
            "/sub/../../secret",
            "/%2e%2e/secret",
            "/..%2fsecret",
            "/sub%2findex.html",
            "/link",
            "/plain%00",
            "/plain%2",
            "/plain%zz",
            "/plain/",
            "/none",
            "/.hidden",
            "/sub/.hidden",
            "/%2ehidden",
            "/sub/.well-known/a",
            "/.well-known/.hidden",
        ] {
            assert!(folder.named(path.as_bytes()).is_err(), "{path}");
            assert!(folder.plain(path).is_err(), "{path}");
        }
        assert!(folder.plain("/plain").is_ok());
        assert!(folder.plain("/.well-known/a").is_ok());
        assert!(Folder::open("/no/such/folder").is_err());
    }
}
