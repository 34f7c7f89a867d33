//! The core of an editor over a large text, as a program to start from: it goes to a line, types, undoes and redoes, and saves
//! in a second thread while typing goes on.
//!
//! `cargo run --release --example editor [BYTES]`. The text has 50,000,000 bytes if no number is given. The program changes a
//! `String` as it does the editor's text, compares them, and each saved file too, and prints one line at the end.
use std::error::Error;
use std::fs::{self, File};
use std::io::{self, BufWriter, Write};
use std::path::{Path, PathBuf};
use std::thread::{self, JoinHandle};
use std::{env, mem, process};
use str_rope::{Encoding, LineType, Position, Rope};

/// A text and the cursor in it, a byte index. A clone takes one step, whatever the text's length, and stays as it is.
#[derive(Clone)]
struct State {
    text: Rope,
    cursor: usize,
}

/// A text that is open, with the states that it had and may have again.
struct Editor {
    now: State,
    /// The states before each change, the latest last.
    undo: Vec<State>,
    /// The states after each change that was undone, the earliest last.
    redo: Vec<State>,
}

impl Editor {
    fn open(text: &str) -> Result<Editor, str_rope::Error> {
        let text = Rope::from_str(text)?;
        Ok(Editor {
            now: State { text, cursor: 0 },
            undo: Vec::new(),
            redo: Vec::new(),
        })
    }

    /// Puts the cursor on a line, counted from 0, at a column in UTF-16 code units; past the end of the line, at that end.
    fn go_to(&mut self, line: usize, character: usize) {
        let position = Position { line, character };
        self.now.cursor = self.now.text.byte_of(LineType::Crlf, Encoding::Utf16, position);
    }

    /// The cursor's line and its column in UTF-16 code units, as a language server gets them.
    fn position(&self) -> Position {
        self.now
            .text
            .position_of(LineType::Crlf, Encoding::Utf16, self.now.cursor)
    }

    /// Types a char at the cursor.
    fn insert(&mut self, char: char) -> Result<(), str_rope::Error> {
        let before = self.now.clone();
        self.now.text.insert_char(self.now.cursor, char)?;
        self.now.cursor += char.len_utf8();
        self.keep(before);
        Ok(())
    }

    /// Removes the char before the cursor; at the text's beginning, nothing.
    fn backspace(&mut self) -> Result<(), str_rope::Error> {
        let end = self.now.cursor;
        let Some(char) = self.now.text.chars_at(end).prev() else {
            return Ok(());
        };
        let before = self.now.clone();
        self.now.text.remove(end - char.len_utf8()..end)?;
        self.now.cursor -= char.len_utf8();
        self.keep(before);
        Ok(())
    }

    /// Keeps the state before a change, which ends what may be redone.
    fn keep(&mut self, before: State) {
        self.undo.push(before);
        self.redo.clear();
    }

    /// Undoes a change, and tells whether there was one.
    fn undo(&mut self) -> bool {
        let Some(before) = self.undo.pop() else { return false };
        self.redo.push(mem::replace(&mut self.now, before));
        true
    }

    /// Redoes a change, and tells whether there was one.
    fn redo(&mut self) -> bool {
        let Some(after) = self.redo.pop() else { return false };
        self.undo.push(mem::replace(&mut self.now, after));
        true
    }

    /// Saves the text as it is now, in a second thread, which has a clone of it. Typing may go on meanwhile.
    fn save(&self, path: &Path) -> JoinHandle<io::Result<()>> {
        let (text, path) = (self.now.text.clone(), path.to_owned());
        thread::spawn(move || {
            let mut file = BufWriter::new(File::create(path)?);
            text.chunks().try_for_each(|chunk| file.write_all(chunk.as_bytes()))?;
            file.flush()
        })
    }
}

/// How often the text is saved, and how many words are typed meanwhile.
const SAVES: usize = 8;
const WORDS: usize = 20;

/// The word that is typed, with chars of each length.
const WORD: &str = " née 世界 🐸";

/// A text of lines with chars of one to four bytes, of some number of bytes or a few more.
fn lines_of(bytes: usize) -> String {
    let mut text = String::with_capacity(bytes + 64);
    for line in 1.. {
        if text.len() >= bytes {
            break;
        }
        text += &format!("line {line}: \"é\" or \"世界\" or \"🐸\"\r\n");
    }
    text
}

/// Types a word on a line, and a letter too many, which goes out again. The `String` gets the word at once.
fn type_word(editor: &mut Editor, model: &mut String, line: usize) -> Result<(), str_rope::Error> {
    editor.go_to(line, 12);
    model.insert_str(editor.now.cursor, WORD);
    WORD.chars().chain(['x']).try_for_each(|char| editor.insert(char))?;
    editor.backspace()
}

/// Whether the cursor's line and column are those that a walk over the text before it finds.
fn has_position(editor: &Editor, model: &str) -> bool {
    let before = &model[..editor.now.cursor];
    let line = before.matches('\n').count();
    let character = before.rsplit('\n').next().map_or(0, |part| part.encode_utf16().count());
    editor.position() == Position { line, character }
}

/// Saves the text and types meanwhile. The file has to be the text as it was when saving began.
fn save_while_typing(editor: &mut Editor, model: &mut String, path: &Path, first: usize) -> Result<(), Box<dyn Error>> {
    let lines = editor.now.text.len_lines(LineType::Crlf);
    let (wanted, saving) = (model.clone(), editor.save(path));
    for word in first..first + WORDS {
        type_word(editor, model, word * 7919 % lines)?;
    }
    saving.join().map_err(|_| "the thread that saves panicked")??;
    let saved = fs::read_to_string(path)?;
    fs::remove_file(path)?;
    check(saved == wanted, "a file is the text as it was when saving began")?;
    check(has_position(editor, model), "the cursor is where a walk finds it")
}

fn check(is_right: bool, what: &str) -> Result<(), Box<dyn Error>> {
    if is_right {
        Ok(())
    } else {
        Err(format!("it is wrong that {what}"))?
    }
}

fn main() -> Result<(), Box<dyn Error>> {
    let bytes = env::args().nth(1).map_or(Ok(50_000_000), |word| word.parse())?;
    let path: PathBuf = env::temp_dir().join(format!("editor-{}.txt", process::id()));
    let text = lines_of(bytes);
    let (mut editor, mut model) = (Editor::open(&text)?, text.clone());
    for save in 0..SAVES {
        save_while_typing(&mut editor, &mut model, &path, save * WORDS)?;
    }
    check(editor.now.text == model, "the text is the `String`")?;

    let mut undone = 0;
    while editor.undo() {
        undone += 1;
    }
    check(editor.now.text == text, "the text is as it was, when all is undone")?;
    while editor.redo() {}
    check(editor.now.text == model, "the text is the `String`, when all is redone")?;
    let (bytes, lines) = (model.len(), editor.now.text.len_lines(LineType::Crlf));
    println!(
        "{bytes} bytes, {lines} lines: saved {SAVES} times while typing, {undone} changes undone and redone, all right"
    );
    Ok(())
}
