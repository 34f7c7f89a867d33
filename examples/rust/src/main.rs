//! Prints the line of a byte of the text on standard input, and its column in UTF-16 code units, both from 0:
//! `line_and_column BYTE < FILE`. A line ends in LF, CR or CR LF.
use std::error::Error;
use std::io::read_to_string;
use str_indices::{lines_crlf, utf16};

fn main() -> Result<(), Box<dyn Error>> {
    let byte = std::env::args()
        .nth(1)
        .ok_or("usage: line_and_column BYTE < FILE")?
        .parse()?;
    let text = read_to_string(std::io::stdin())?;
    let line = lines_crlf::from_byte_idx(&text, byte);
    let start = lines_crlf::to_byte_idx(&text, line);
    let column = utf16::from_byte_idx(&text, byte) - utf16::from_byte_idx(&text, start);
    println!("{line}:{column}");
    Ok(())
}
