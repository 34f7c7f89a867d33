//! A text that is read and written through `std::io`, in the crate with `std`.
#![cfg(feature = "std")]
use std::io::{self, Read, Write};
use str_rope::{NotUtf8, Rope};

/// How many bytes are read at once.
const PART: usize = 262_144;

/// Gives a few bytes at a time, and now and then that it was interrupted.
struct Slow<'a> {
    bytes: &'a [u8],
    most: usize,
    turn: usize,
}

impl Read for Slow<'_> {
    fn read(&mut self, room: &mut [u8]) -> io::Result<usize> {
        self.turn += 1;
        if self.turn % 5 == 0 {
            return Err(io::ErrorKind::Interrupted.into());
        }
        let len = room.len().min(self.most);
        self.bytes.read(&mut room[..len])
    }
}

/// Gives as many bytes as the number says, and then fails.
struct Failing(usize);

impl Read for Failing {
    fn read(&mut self, room: &mut [u8]) -> io::Result<usize> {
        let len = room.len().min(self.0);
        if len == 0 {
            return Err(io::ErrorKind::ConnectionReset.into());
        }
        room[..len].fill(b'a');
        self.0 -= len;
        Ok(len)
    }
}

impl Write for Failing {
    fn write(&mut self, bytes: &[u8]) -> io::Result<usize> {
        let len = bytes.len().min(self.0);
        self.0 -= len;
        Ok(len)
    }

    fn flush(&mut self) -> io::Result<()> {
        Ok(())
    }
}

fn slowly(bytes: &[u8], most: usize) -> io::Result<Rope> {
    Rope::from_reader(Slow { bytes, most, turn: 0 })
}

/// From where a reader's bytes are not UTF-8.
fn not_utf8(bytes: &[u8]) -> Option<usize> {
    let error = Rope::from_reader(bytes).unwrap_err();
    assert_eq!(error.kind(), io::ErrorKind::InvalidData);
    error.get_ref()?.downcast_ref().map(|error: &NotUtf8| error.byte_idx)
}

/// Texts around a part's length, where a char may lie across its end.
#[test]
fn reading_gives_the_text() {
    for len in [0, 1, PART - 3, PART - 1, PART, PART + 1, 2 * PART + 5] {
        let text = "a".repeat(len) + "🐸é\r\n" + &"せ".repeat(len / 3);
        assert_eq!(Rope::from_reader(text.as_bytes()).unwrap(), text);
        assert_eq!(slowly(text.as_bytes(), 60_001).unwrap(), text);
    }
    assert_eq!(slowly("aé🐸".as_bytes(), 1).unwrap(), "aé🐸");
    assert_eq!(Rope::from_reader(io::empty()).unwrap(), "");
}

#[test]
fn bytes_that_are_not_utf8_are_told_by_their_index() {
    assert_eq!(not_utf8(b"\xFF"), Some(0));
    assert_eq!(not_utf8(b"ab\x80c"), Some(2));
    assert_eq!(not_utf8("é🐸".as_bytes().split_last().unwrap().1), Some(2));
    for before in [PART - 2, PART - 1, PART, PART + 1, 3 * PART + 7] {
        let front = "a".repeat(before);
        assert_eq!(not_utf8(&[front.as_bytes(), b"\xC3("].concat()), Some(before));
        assert_eq!(not_utf8(&[front.as_bytes(), b"\xF0\x9F\x90"].concat()), Some(before));
    }
    let error = Rope::from_reader(&b"ab\x80"[..]).unwrap_err();
    assert_eq!(error.to_string(), "the bytes are not UTF-8 from byte 2 on");
}

#[test]
fn a_reader_that_fails_is_told() {
    for len in [0, 10, PART, 2 * PART + 1] {
        let error = Rope::from_reader(Failing(len)).unwrap_err();
        assert_eq!(error.kind(), io::ErrorKind::ConnectionReset);
    }
}

#[test]
fn writing_gives_the_text() {
    let text = "one\r\n🐸 せかい\n".repeat(5000);
    let rope = Rope::from(&text);
    let mut bytes = Vec::new();
    rope.write_to(&mut bytes).unwrap();
    assert!(bytes == text.as_bytes());
    bytes.clear();
    rope.slice(5..text.len() - 4).unwrap().write_to(&mut bytes).unwrap();
    assert!(bytes == text.as_bytes()[5..text.len() - 4]);
    assert!(Rope::new().write_to(Failing(0)).is_ok());
    let error = rope.write_to(Failing(3000)).unwrap_err();
    assert_eq!(error.kind(), io::ErrorKind::WriteZero);
}
