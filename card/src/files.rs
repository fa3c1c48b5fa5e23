//! Files: pictures read by their content, and results that stand whole or not at all.

use std::fs::{self, File};
use std::io::{self, ErrorKind, Read, Write};
use std::path::{Path, PathBuf};
use std::process;

use crate::picture::Picture;
use crate::{pam, png};

/// More than the largest picture of 16 bits a channel takes.
const PICTURE_LIMIT: u64 = 1 << 28;

/// How a file of another kind begins, and what it is.
const OTHERS: [(&[u8], &str); 8] = [
    (b"\xff\xd8\xff", "a JPEG"),
    (b"GIF8", "a GIF"),
    (b"RIFF", "a WebP or another RIFF file"),
    (b"BM", "a BMP"),
    (b"II*\0", "a TIFF"),
    (b"MM\0*", "a TIFF"),
    (b"\0\0\0\x0cJXL ", "a JPEG XL"),
    (b"<", "text, such as SVG"),
];

/// What a picture can be written as.
#[derive(Clone, Copy, Debug, PartialEq)]
pub enum Form {
    Png,
    Pam,
}

/// Whether a name has this ending, in either case of letters.
pub fn ends_in(name: &Path, ending: &str) -> bool {
    let own = name.extension();
    own.is_some_and(|own| own.eq_ignore_ascii_case(ending))
}

impl Form {
    /// By the ending of a result's name.
    pub fn of(name: &Path) -> Result<Form, String> {
        let folder = name.as_os_str().as_encoded_bytes().ends_with(b"/");
        match () {
            _ if folder => Err("a directory's name".to_string()),
            _ if ends_in(name, "png") => Ok(Form::Png),
            _ if ends_in(name, "pam") => Ok(Form::Pam),
            _ => Err("the result's name must end in .png or .pam".to_string()),
        }
    }

    /// The file of a picture.
    pub fn file(self, picture: &Picture) -> Vec<u8> {
        match self {
            Form::Png => png::write(picture),
            Form::Pam => pam::write(picture),
        }
    }
}

/// The bytes of a file, at most so many.
pub fn read(path: &Path, limit: u64) -> Result<Vec<u8>, String> {
    let mut bytes = Vec::new();
    let file = File::open(path).map_err(words)?;
    let told = file.metadata().map_err(words)?;
    if told.is_dir() {
        return Err("a directory".to_string());
    }
    file.take(limit + 1)
        .read_to_end(&mut bytes)
        .map_err(words)?;
    match bytes.len() as u64 <= limit {
        true => Ok(bytes),
        false => Err(format!("over {limit} bytes long")),
    }
}

/// The words for a failure.
fn words(error: io::Error) -> String {
    match error.kind() {
        ErrorKind::NotFound => "no such file".to_string(),
        ErrorKind::PermissionDenied => "no permission".to_string(),
        _ => error.to_string(),
    }
}

/// The picture in a file, PNG or PAM by its content.
pub fn read_picture(path: &Path) -> Result<Picture, String> {
    let bytes = read(path, PICTURE_LIMIT)?;
    if bytes.starts_with(&png::SIGNATURE) {
        return png::read(&bytes);
    }
    if bytes.starts_with(b"P7") {
        return pam::read(&bytes);
    }
    Err(other(&bytes, path))
}

/// What a file is that is neither, and what can be done about it.
fn other(bytes: &[u8], path: &Path) -> String {
    let takes = "card reads PNG and PAM";
    if bytes.is_empty() {
        return format!("an empty file; {takes}");
    }
    let known = OTHERS.iter().find(|(start, _)| bytes.starts_with(start));
    let name = match bytes {
        [b'P', b'1'..=b'6', ..] => Some("a picture of netpbm's older kinds"),
        [_, _, _, _, b'f', b't', b'y', b'p', ..] => Some("a HEIC, an AVIF or a film"),
        _ => known.map(|(_, name)| *name),
    };
    match name {
        Some(name) => {
            let (from, to) = (quoted(path), quoted(&path.with_extension("png")));
            format!("{name}; {takes} (ImageMagick makes one: convert {from} {to})")
        }
        None => format!("of no known kind; {takes}"),
    }
}

/// A path as a shell's word.
fn quoted(path: &Path) -> String {
    let path = shown(path);
    let plain = |letter: char| letter.is_alphanumeric() || "._-/".contains(letter);
    match path.chars().all(plain) {
        true => path,
        false => format!("'{}'", path.replace('\'', "'\\''")),
    }
}

/// A path as it is printed: in one line, whatever it holds.
pub fn shown(path: &Path) -> String {
    let one = |letter: char| match letter.is_control() {
        true => letter.escape_default().to_string(),
        false => letter.to_string(),
    };
    path.to_string_lossy().chars().map(one).collect()
}

/// Says so where no result can stand under this name.
pub fn test_place(path: &Path) -> Result<(), String> {
    if !folder(path).is_dir() {
        return Err("no such directory".to_string());
    }
    match fs::symlink_metadata(path) {
        Err(error) if error.kind() == ErrorKind::NotFound => Ok(()),
        Err(error) => Err(words(error)),
        Ok(there) if !there.is_file() => Err("not a plain file".to_string()),
        Ok(there) if there.permissions().readonly() => Err("write-protected".to_string()),
        Ok(_) => Ok(()),
    }
}

/// Where the file stands.
fn folder(path: &Path) -> PathBuf {
    match path.parent() {
        Some(parent) if parent != Path::new("") => parent.to_path_buf(),
        _ => PathBuf::from("."),
    }
}

/// A file beside the result, which goes unless it takes the result's place.
struct Part(PathBuf);

impl Drop for Part {
    fn drop(&mut self) {
        // It is gone already where it took the place.
        let _ = fs::remove_file(&self.0);
    }
}

/// A new file in the folder, under a name that nobody has.
fn part(folder: &Path) -> Result<(Part, File), String> {
    let mut tries = (0..100).map(|n| folder.join(format!(".card-{}-{n}.part", process::id())));
    loop {
        let path = tries.next().ok_or("no name is free beside it")?;
        match File::create_new(&path) {
            Ok(file) => return Ok((Part(path), file)),
            Err(error) if error.kind() == ErrorKind::AlreadyExists => {}
            Err(error) => return Err(words(error)),
        }
    }
}

/// Puts a file of these bytes under the name: all of them, on the disk, or what stood there stays.
pub fn write_whole(path: &Path, bytes: &[u8]) -> Result<(), String> {
    let (part, mut file) = part(&folder(path))?;
    file.write_all(bytes).map_err(words)?;
    file.sync_all().map_err(words)?;
    let written = fs::metadata(&part.0).map_err(words)?.len();
    if written != bytes.len() as u64 {
        return Err(format!("{written} bytes were written, not {}", bytes.len()));
    }
    if let Ok(there) = fs::metadata(path) {
        file.set_permissions(there.permissions()).map_err(words)?;
    }
    fs::rename(&part.0, path).map_err(words)
}

#[cfg(test)]
mod tests {
    use super::*;

    /// A folder of its own for a test, removed afterwards.
    struct Folder(PathBuf);

    impl Folder {
        fn new(name: &str) -> Folder {
            let folder = std::env::temp_dir().join(format!("card-{name}-{}", process::id()));
            fs::create_dir_all(&folder).expect("a folder");
            Folder(folder)
        }

        /// The names in it.
        fn names(&self) -> Vec<String> {
            let entries = fs::read_dir(&self.0).expect("a folder");
            let name = |entry: io::Result<fs::DirEntry>| entry.expect("an entry").file_name();
            let mut names: Vec<_> = entries
                .map(|e| name(e).into_string().expect("text"))
                .collect();
            names.sort();
            names
        }
    }

    impl Drop for Folder {
        fn drop(&mut self) {
            let _ = fs::remove_dir_all(&self.0);
        }
    }

    #[test]
    fn endings() {
        for name in ["a.png", "a.PNG", "-a.Png", "./a.b.png"] {
            assert_eq!(Form::of(Path::new(name)), Ok(Form::Png), "{name}");
        }
        assert_eq!(Form::of(Path::new("a.PAM")), Ok(Form::Pam));
        for name in ["a", "a.jpg", ".png", "png", "a.png/", "a.pngx", ""] {
            assert!(Form::of(Path::new(name)).is_err(), "{name}");
        }
    }

    #[test]
    fn a_result_stands_whole_and_alone() {
        let folder = Folder::new("whole");
        let path = folder.0.join("a.png");
        for bytes in [&b"first"[..], b"second one"] {
            write_whole(&path, bytes).expect("written");
            assert_eq!(fs::read(&path).expect("a file"), bytes);
        }
        assert_eq!(folder.names(), ["a.png"]);
    }

    #[test]
    fn what_cannot_take_the_place_goes() {
        let folder = Folder::new("goes");
        let path = folder.0.join("a.png");
        fs::create_dir(&path).expect("a folder");
        write_whole(&path, b"bytes").expect_err("a directory's place");
        assert_eq!(folder.names(), ["a.png"]);
        assert_eq!(test_place(&path), Err("not a plain file".to_string()));
        let told = test_place(&folder.0.join("none/a.png"));
        assert_eq!(told, Err("no such directory".to_string()));
    }

    #[test]
    fn too_long_a_file_is_told() {
        let folder = Folder::new("long");
        let path = folder.0.join("a");
        fs::write(&path, [7; 10]).expect("a file");
        assert_eq!(read(&path, 10), Ok(vec![7; 10]));
        assert_eq!(read(&path, 9), Err("over 9 bytes long".to_string()));
        assert_eq!(read(&folder.0, 9), Err("a directory".to_string()));
    }

    #[test]
    fn other_kinds_are_named() {
        let path = Path::new("my/photo.jpg");
        let told = other(b"\xff\xd8\xff\xe0", path);
        let said = "a JPEG; card reads PNG and PAM \
            (ImageMagick makes one: convert my/photo.jpg my/photo.png)";
        assert_eq!(told, said);
        let told = other(b"GIF89a", Path::new("a ship's.gif"));
        assert!(
            told.ends_with(r"(ImageMagick makes one: convert 'a ship'\''s.gif' 'a ship'\''s.png')")
        );
        assert!(other(b"P6\n1 1\n255\n", path).starts_with("a picture of netpbm's older kinds;"));
        assert!(other(b"\0\0\0\x18ftypheic", path).starts_with("a HEIC, an AVIF or a film;"));
        assert_eq!(other(b"", path), "an empty file; card reads PNG and PAM");
        assert_eq!(
            other(b"words", path),
            "of no known kind; card reads PNG and PAM"
        );
    }

    #[test]
    fn names_are_shown_in_one_line() {
        assert_eq!(shown(Path::new("a\nb.png")), "a\\nb.png");
    }
}
