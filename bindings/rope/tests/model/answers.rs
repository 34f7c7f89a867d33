//! Every answer of a rope, or of a slice, beside that of a `str`.
use super::walks::{assert_both_ways, assert_walk};
use super::*;
use str_rope::{Error, LineType, Rope, RopeSlice, MAX_CHUNK};

/// Functions that ask a rope or a slice, which have the same methods.
macro_rules! answers {
    ($name:ident, $lent:ty) => {
        pub mod $name {
            use super::*;

            /// Asks everything, at random indices and at the ends.
            pub fn assert_all(lent: $lent, text: &str, numbers: &mut Numbers) {
                assert_counts(lent, text);
                let inside = numbers.below(text.len() + 2);
                for index in [0, inside, text.len().saturating_sub(1), text.len(), usize::MAX] {
                    assert_indices(lent, text, index);
                    assert_places(lent, text, index);
                    for line_type in LINE_TYPES {
                        assert_line(lent, text, line_type, index);
                    }
                }
                assert_chars(lent, text, numbers);
                assert_pieces(lent, text, numbers);
                for line_type in LINE_TYPES {
                    assert_lines(lent, text, line_type, numbers);
                }
                assert_part(lent, text, numbers);
            }

            fn assert_counts(lent: $lent, text: &str) {
                assert_eq!((lent.len(), lent.is_empty()), (text.len(), text.is_empty()));
                assert_eq!(lent.len_chars(), text.chars().count());
                assert_eq!(lent.len_utf16(), text.encode_utf16().count());
                for scheme in Scheme::ALL {
                    assert_eq!(lent.count(scheme), count(scheme, text), "{scheme:?} of {text:?}");
                }
                for line_type in LINE_TYPES {
                    assert_eq!(lent.len_lines(line_type), count(breaks(line_type), text) + 1);
                }
            }

            /// Asks for conversions of a number, which is a byte index and a count.
            pub fn assert_indices(lent: $lent, text: &str, index: usize) {
                let before = &text[..floor(text, index)];
                assert_eq!(lent.byte_to_char_idx(index), before.chars().count());
                assert_eq!(lent.byte_to_utf16_idx(index), before.encode_utf16().count());
                let char = text.char_indices().nth(index);
                assert_eq!(
                    lent.char_to_byte_idx(index),
                    char.map_or(text.len(), |(at, _)| at)
                );
                assert_eq!(
                    lent.utf16_to_byte_idx(index),
                    to_byte_idx(Scheme::Utf16, text, index)
                );
                for scheme in Scheme::ALL {
                    let answers = (lent.from_byte_idx(scheme, index), lent.to_byte_idx(scheme, index));
                    let wanted = (
                        from_byte_idx(scheme, text, index),
                        to_byte_idx(scheme, text, index),
                    );
                    assert_eq!(answers, wanted, "{scheme:?} at {index} of {text:?}");
                }
            }

            /// Asks for what is at a byte index.
            pub fn assert_places(lent: $lent, text: &str, byte: usize) {
                assert_eq!(lent.is_char_boundary(byte), text.is_char_boundary(byte));
                assert_eq!(lent.floor_char_boundary(byte), floor(text, byte));
                let ceil = (byte..text.len()).find(|&at| text.is_char_boundary(at));
                assert_eq!(lent.ceil_char_boundary(byte), ceil.unwrap_or(text.len()));
                assert_eq!(lent.byte(byte), text.as_bytes().get(byte).copied());
                assert_eq!(
                    lent.char(byte),
                    text.get(byte..).and_then(|rest| rest.chars().next())
                );
                let chunk = lent.chunk_at(byte);
                assert_eq!(chunk.is_some(), byte < text.len());
                if let Some((chunk, start)) = chunk {
                    assert!((start..start + chunk.len()).contains(&byte));
                    assert_eq!(text.get(start..start + chunk.len()), Some(chunk));
                }
            }

            /// Asks for a line, by a number that is a byte index and a line index.
            pub fn assert_line(lent: $lent, text: &str, line_type: LineType, number: usize) {
                let scheme = breaks(line_type);
                let start = to_byte_idx(scheme, text, number);
                assert_eq!(
                    lent.byte_to_line_idx(number, line_type),
                    from_byte_idx(scheme, text, number)
                );
                assert_eq!(lent.line_to_byte_idx(number, line_type), start);
                let wanted = (number <= count(scheme, text)).then(|| {
                    let end = to_byte_idx(scheme, text, number + 1);
                    &text[start..end]
                });
                assert_eq!(lent.line(number, line_type).map(String::from).as_deref(), wanted);
                let content = content(line_type, wanted.unwrap_or_default());
                let range = start..start + content.len();
                assert_eq!(
                    lent.line_content(line_type, number),
                    range,
                    "{line_type:?} {text:?}"
                );
                assert_eq!(lent.line_end(line_type, number), range.end);
            }

            /// Goes over bytes and chars.
            fn assert_chars(lent: $lent, text: &str, numbers: &mut Numbers) {
                let (bytes, chars): (Vec<u8>, Vec<char>) = (text.bytes().collect(), text.chars().collect());
                let indices: Vec<(usize, char)> = text.char_indices().collect();
                assert_both_ways(lent.bytes(), &bytes);
                assert_both_ways(lent.chars(), &chars);
                assert_both_ways(lent.char_indices(), &indices);
                let byte = numbers.below(text.len() + 2);
                let char = text[..floor(text, byte)].chars().count();
                assert_walk(lent.bytes_at(byte), &bytes, byte.min(text.len()), numbers);
                assert_walk(lent.chars_at(byte), &chars, char, numbers);
                assert_walk(lent.char_indices_at(byte), &indices, char, numbers);
                assert_eq!(lent.bytes_at(byte).byte_offset(), byte.min(text.len()));
                assert_eq!(lent.chars_at(byte).byte_offset(), floor(text, byte));
                assert_eq!(lent.char_indices_at(byte).byte_offset(), floor(text, byte));
                assert_eq!(lent.bytes_at(byte).len(), text.len() - byte.min(text.len()));
            }

            /// Goes over chunks, whose number and ends no one promises.
            fn assert_pieces(lent: $lent, text: &str, numbers: &mut Numbers) {
                let chunks: Vec<&str> = lent.chunks().collect();
                assert!(chunks.iter().all(|chunk| (1..=MAX_CHUNK).contains(&chunk.len())));
                assert_eq!(chunks.concat(), text);
                assert_both_ways(lent.chunks(), &chunks);
                let byte = numbers.below(text.len() + 2);
                let start = lent.chunk_at(byte).map_or(text.len(), |(_, start)| start);
                let begins = |chunks: &[&str]| chunks.iter().map(|chunk| chunk.len()).sum::<usize>();
                let at = (0..=chunks.len()).find(|&at| begins(&chunks[..at]) == start);
                assert_eq!(lent.chunks_at(byte).byte_offset(), start);
                assert_walk(lent.chunks_at(byte), &chunks, at.unwrap(), numbers);
                assert!(lent.as_str().map_or(chunks.len() > 1, |whole| whole == text));
                assert_eq!(lent.to_string(), text);
            }

            fn assert_lines(lent: $lent, text: &str, line_type: LineType, numbers: &mut Numbers) {
                let wanted = lines(line_type, text);
                let found: Vec<RopeSlice<'_>> = lent.lines(line_type).collect();
                assert_eq!(found.len(), wanted.len());
                let origin = found[0].range().start;
                for (line, (start, text)) in found.iter().zip(&wanted) {
                    assert!(line == text && line.range().start == origin + start);
                }
                assert_both_ways(lent.lines(line_type), &found);
                let line = numbers.below(wanted.len() + 2);
                let at = line.min(wanted.len());
                assert_walk(lent.lines_at(line, line_type), &found, at, numbers);
                assert_eq!(lent.lines_at(line, line_type).line_idx(), at);
                assert_eq!(lent.lines_at(line, line_type).len(), wanted.len() - at);
            }

            /// Takes a part out, and asks for its text in each way.
            fn assert_part(lent: $lent, text: &str, numbers: &mut Numbers) {
                let (from, to) = numbers.part(text);
                let (slice, part) = (lent.slice(from..to).unwrap(), &text[from..to]);
                assert_eq!((slice, slice.to_rope().unwrap()), (slice, part.parse().unwrap()));
                assert_eq!(String::from(slice), part);
                assert_eq!(lent.text_in(from..to).as_deref(), Ok(part));
                let mut room = vec![b'.'; part.len() + 2];
                assert_eq!(lent.copy_to(from..to, &mut room), Ok(part.len()));
                assert_eq!(room, [part.as_bytes(), b".."].concat());
                assert_eq!(lent.trim(), text.trim());
                assert_eq!(lent.trim_start(), text.trim_start());
                assert_eq!(lent.trim_end(), text.trim_end());
                let byte = numbers.below(text.len() + 3);
                let is_part = text.is_char_boundary(byte);
                assert_eq!(lent.slice(byte..).is_ok(), is_part);
                assert_eq!(lent.slice(..byte).err(), (!is_part).then_some(Error::NotBoundary));
            }
        }
    };
}

answers!(of_rope, &Rope);
answers!(of_slice, RopeSlice<'_>);
