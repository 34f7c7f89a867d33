//! A small language server over a rope. It speaks the Language Server Protocol 3.17 on standard input and output.
//!
//! It keeps each open document as a rope and applies the client's changes to it, warns of blanks at the end of a line and
//! takes them out, and tells in a hover which byte, char, UTF-16 code unit and line a place is. Where a change cannot be
//! what the client means, it answers nothing about that document until it has the whole text again.
mod blanks;
mod documents;
mod faults;
mod frames;
mod messages;
mod protocol;
mod server;
mod system;

use frames::Frames;
use server::Server;
use std::env;
use std::ffi::OsString;
use std::fs::File;
use std::io::{self, stdin, stdout, BufWriter, Write};
use std::os::fd::AsFd;
use std::process::ExitCode;
use str_rope::LineType;

const HELP: &str = "\
usage: language_server [--stdio] [--lines lf | --lines protocol] [--log FILE]
       language_server --version | --help
A language server that keeps texts as ropes, and warns of blanks at the end of lines. An editor starts it: it speaks the
Language Server Protocol 3.17 on standard input and output. With --lines it ends lines at LF alone, or as the protocol
does; else by who the client says that it is. With --log it writes each message into a file.
";

/// What the command line says of a server.
#[derive(Default)]
struct Options {
    lines: Option<LineType>,
    log: Option<OsString>,
}

fn main() -> io::Result<ExitCode> {
    let words: Vec<_> = env::args_os().skip(1).collect();
    match words.iter().map(|word| word.to_str()).collect::<Vec<_>>()[..] {
        [Some("--version")] => println!("{} {}", env!("CARGO_PKG_NAME"), env!("CARGO_PKG_VERSION")),
        [Some("--help")] => print!("{HELP}"),
        _ => {
            if let Some(options) = options(words) {
                return serve(options);
            }
            eprint!("{HELP}");
            return Ok(ExitCode::from(2));
        }
    }
    Ok(ExitCode::SUCCESS)
}

fn options(words: Vec<OsString>) -> Option<Options> {
    let mut options = Options::default();
    let mut words = words.into_iter();
    while let Some(word) = words.next() {
        match word.to_str()? {
            "--stdio" => {}
            "--lines" => {
                options.lines = Some(match words.next()?.to_str()? {
                    "lf" => LineType::Lf,
                    "protocol" => LineType::Crlf,
                    _ => return None,
                })
            }
            "--log" => options.log = Some(words.next()?),
            _ => return None,
        }
    }
    Some(options)
}

/// A file that has each message on a line, if one is wanted.
struct Log(Option<File>);

impl Log {
    fn open(path: Option<OsString>) -> io::Result<Log> {
        let open = |path| File::options().create(true).append(true).open(path);
        path.map(open).transpose().map(Log)
    }

    fn write(&mut self, which: &str, body: &[u8]) -> io::Result<()> {
        let Some(file) = &mut self.0 else {
            return Ok(());
        };
        write!(file, "{which} ")?;
        file.write_all(body)?;
        writeln!(file)
    }
}

fn serve(options: Options) -> io::Result<ExitCode> {
    // Rust's own standard output looks for line breaks in all that it writes.
    let output = File::from(stdout().as_fd().try_clone_to_owned()?);
    let (mut frames, mut output) = (Frames::new(stdin().lock()), BufWriter::new(output));
    let mut log = Log::open(options.log)?;
    let mut server = Server::new(options.lines);
    loop {
        if frames.is_idle() {
            server.rest();
        }
        for message in server.take_outgoing() {
            log.write("sent", &message)?;
            frames::write(&mut output, &message)?;
        }
        output.flush()?;
        if let Some(code) = server.exit_code() {
            return Ok(code);
        }
        let taken = match frames.next()? {
            // The client went away without a word.
            None => return Ok(ExitCode::FAILURE),
            Some(Err(refused)) => {
                server.refuse(refused);
                Ok(())
            }
            Some(Ok(body)) => {
                log.write("came", body)?;
                server.take(body)
            }
        };
        if let Err(fault) = taken {
            server.refuse(frames.refuse(fault));
        }
    }
}
