//! Text to tape.

use crate::names::{service_named, service_numbered, Argument, Form, Service, CALLERS, OPTIONS};
use ordinary::tape::{MAX_RECORDS, MAX_WORDS};
use ordinary::{Record, Tape, FOREVER};
use std::fmt;

/// Most words of a message written in place.
const MAX_MESSAGE: usize = 16;

/// What is wrong with a text, and where. Lines and columns count from 1.
#[derive(Clone, PartialEq, Eq, Debug)]
pub struct TextError {
    pub line: usize,
    pub column: usize,
    pub what: String,
}

impl fmt::Display for TextError {
    fn fmt(&self, f: &mut fmt::Formatter<'_>) -> fmt::Result {
        write!(f, "line {}, column {}: {}", self.line, self.column, self.what)
    }
}

/// A tape with the text line of each record.
#[derive(Clone, PartialEq, Eq, Debug, Default)]
pub struct Assembled {
    pub tape: Tape,
    pub lines: Vec<usize>,
}

/// Assembles a text, given as bytes.
pub fn assemble(bytes: &[u8]) -> Result<Assembled, TextError> {
    let text = std::str::from_utf8(bytes).map_err(|error| {
        let good = String::from_utf8_lossy(&bytes[..error.valid_up_to()]);
        let line = good.matches('\n').count() + 1;
        let column = good.rsplit('\n').next().unwrap_or("").chars().count() + 1;
        TextError { line, column, what: "expected UTF-8 text".to_string() }
    })?;
    let mut assembled = Assembled::default();
    for (index, line) in text.split('\n').enumerate() {
        Parser::new(index + 1, line).line(&mut assembled)?;
    }
    Ok(assembled)
}

/// Reads one line.
struct Parser {
    line: usize,
    chars: Vec<char>,
    at: usize,
}

/// A word and the column at which it begins.
struct Word {
    text: String,
    column: usize,
}

impl Parser {
    fn new(line: usize, text: &str) -> Parser {
        // A comment runs to the end of the line.
        let chars = text.chars().take_while(|&c| c != '#').collect();
        Parser { line, chars, at: 0 }
    }

    fn error<T>(&self, column: usize, what: impl Into<String>) -> Result<T, TextError> {
        Err(TextError { line: self.line, column, what: what.into() })
    }

    fn column(&self) -> usize {
        self.at + 1
    }

    fn peek(&self) -> Option<char> {
        self.chars.get(self.at).copied()
    }

    fn skip_spaces(&mut self) {
        while self.peek().is_some_and(char::is_whitespace) {
            self.at += 1;
        }
    }

    fn is_at_end(&mut self) -> bool {
        self.skip_spaces();
        self.peek().is_none()
    }

    fn take(&mut self, wanted: char) -> bool {
        let there = self.peek() == Some(wanted);
        self.at += there as usize;
        there
    }

    /// A run of letters, digits and underscores; may be empty.
    fn word(&mut self) -> Word {
        let column = self.column();
        let start = self.at;
        while self.peek().is_some_and(|c| c.is_alphanumeric() || c == '_') {
            self.at += 1;
        }
        Word { text: self.chars[start..self.at].iter().collect(), column }
    }

    /// What stands here, for a message.
    fn found(&self, word: &Word) -> String {
        match (word.text.is_empty(), self.peek()) {
            (false, _) => format!("found `{}`", word.text),
            (true, Some(c)) => format!("found `{c}`"),
            (true, None) => "found the end of the line".to_string(),
        }
    }

    fn line(&mut self, assembled: &mut Assembled) -> Result<(), TextError> {
        if self.is_at_end() {
            return Ok(());
        }
        let first = self.word();
        if first.text == "words" {
            self.skip_spaces();
            let words = self.bracketed(MAX_WORDS)?;
            self.add_words(&words, &first, assembled)?;
            return self.end();
        }
        let column = first.column;
        let caller = self.caller(first)?;
        if assembled.tape.records.len() == MAX_RECORDS {
            return self.error(column, format!("expected at most {MAX_RECORDS} calls"));
        }
        let record = self.call(caller, assembled)?;
        assembled.tape.records.push(record);
        assembled.lines.push(self.line);
        Ok(())
    }

    fn end(&mut self) -> Result<(), TextError> {
        if self.is_at_end() {
            return Ok(());
        }
        let word = Word { text: String::new(), column: self.column() };
        self.error(self.column(), format!("expected the end of the line, {}", self.found(&word)))
    }

    fn add_words(
        &self,
        words: &[u32],
        from: &Word,
        assembled: &mut Assembled,
    ) -> Result<u32, TextError> {
        let index = assembled.tape.words.len();
        if index + words.len() > MAX_WORDS {
            return self.error(from.column, format!("expected at most {MAX_WORDS} message words"));
        }
        assembled.tape.words.extend_from_slice(words);
        Ok(index as u32)
    }

    fn caller(&mut self, word: Word) -> Result<u32, TextError> {
        if let Some(caller) = CALLERS.iter().position(|&name| name == word.text) {
            return Ok(caller as u32);
        }
        if word.text == "caller" && self.take('=') {
            return self.number();
        }
        let found = self.found(&word);
        self.error(
            word.column,
            format!(
                "expected a caller (`startup`, `interrupt`, `thread` or `caller=`number) or \
                 `words`, {found}"
            ),
        )
    }

    fn call(&mut self, caller: u32, assembled: &mut Assembled) -> Result<Record, TextError> {
        self.skip_spaces();
        let word = self.word();
        if word.text == "call" && self.take('=') {
            let call = self.number()?;
            let args = self.arguments(service_numbered(call), false, assembled)?;
            return Ok(Record { call, caller, args });
        }
        let Some(service) = service_named(&word.text) else {
            let found = self.found(&word);
            return self.error(word.column, format!("expected a service name, {found}"));
        };
        let args = self.arguments(Some(service), true, assembled)?;
        Ok(Record { call: service.number, caller, args })
    }

    /// Arguments by name, in any order. A call by its service's name must
    /// have all that the service uses.
    fn arguments(
        &mut self,
        service: Option<&Service>,
        all: bool,
        assembled: &mut Assembled,
    ) -> Result<[u32; 4], TextError> {
        let used = service.map_or(&[][..], |service| service.arguments);
        let mut args = [None; 4];
        while !self.is_at_end() {
            let name = self.word();
            let Some((at, form)) = place(&name.text, used) else {
                let found = self.found(&name);
                return self.error(name.column, format!("expected {}, {found}", names(used)));
            };
            if args[at].is_some() {
                let what = format!("argument `{}` is given twice", name.text);
                return self.error(name.column, format!("expected each argument once: {what}"));
            }
            if !self.take('=') {
                let column = self.column();
                return self.error(column, format!("expected `=` after `{}`", name.text));
            }
            args[at] = Some(self.value(form, assembled)?);
        }
        let missing = used.iter().enumerate().find(|&(at, _)| all && args[at].is_none());
        if let Some((_, argument)) = missing {
            return self.error(self.column(), format!("expected `{}=`", argument.name));
        }
        Ok(args.map(|arg| arg.unwrap_or(0)))
    }

    fn value(&mut self, form: Form, assembled: &mut Assembled) -> Result<u32, TextError> {
        if form == Form::Message {
            return self.message(assembled);
        }
        let start = self.at;
        let word = self.word();
        let named = match form {
            Form::Wait if word.text == "none" => Some(0),
            Form::Wait | Form::Ticks if word.text == "forever" => Some(FOREVER),
            Form::GetOption => option(&word.text),
            Form::SetOption => option(&word.text).filter(|option| option % 2 == 0),
            _ => None,
        };
        if let Some(value) = named {
            return Ok(value);
        }
        self.at = start;
        self.number_or(form)
    }

    /// A message in place, or `@` and the index of one.
    fn message(&mut self, assembled: &mut Assembled) -> Result<u32, TextError> {
        if self.take('@') {
            return self.number();
        }
        if self.peek() != Some('[') {
            let word = self.word();
            let found = self.found(&word);
            return self
                .error(word.column, format!("expected a message `[..]` or `@` index, {found}"));
        }
        let start = Word { text: String::new(), column: self.column() };
        let words = self.bracketed(MAX_MESSAGE)?;
        self.add_words(&words, &start, assembled)
    }

    /// `[` numbers `]`, with commas or spaces in between.
    fn bracketed(&mut self, most: usize) -> Result<Vec<u32>, TextError> {
        let open = self.column();
        if !self.take('[') {
            let word = self.word();
            let found = self.found(&word);
            return self.error(open, format!("expected `[`, {found}"));
        }
        let mut words = Vec::new();
        loop {
            self.skip_spaces();
            match self.peek() {
                None => return self.error(open, "expected `]` for this `[` on the same line"),
                Some(']') if words.is_empty() => {
                    return self.error(self.column(), "expected at least one word, found `]`");
                }
                Some(']') => {
                    self.at += 1;
                    return Ok(words);
                }
                Some(_) if words.len() == most => {
                    return self.error(self.column(), format!("expected at most {most} words"));
                }
                Some(_) => {}
            }
            words.push(self.number()?);
            self.skip_spaces();
            self.take(',');
        }
    }

    fn number(&mut self) -> Result<u32, TextError> {
        self.number_or(Form::Number)
    }

    /// A number, where other words of this form have been tried already.
    fn number_or(&mut self, form: Form) -> Result<u32, TextError> {
        let word = self.word();
        match parse_number(&word.text) {
            Some(value) => Ok(value),
            None => {
                let found = self.found(&word);
                let expected = match form {
                    Form::Wait => "`none`, `forever` or a number",
                    Form::Ticks => "`forever` or a number",
                    Form::SetOption => "`or`, `and` or a number",
                    Form::GetOption => "`or`, `or_clear`, `and`, `and_clear` or a number",
                    _ => "a number",
                };
                let range = "from 0 to 4294967295, decimal or 0x hexadecimal";
                self.error(word.column, format!("expected {expected} {range}, {found}"))
            }
        }
    }
}

fn option(name: &str) -> Option<u32> {
    OPTIONS.iter().position(|&option| option == name).map(|option| option as u32)
}

fn parse_number(text: &str) -> Option<u32> {
    match text.strip_prefix("0x") {
        Some(digits) if digits.chars().all(|c| c.is_ascii_hexdigit()) => {
            u32::from_str_radix(digits, 16).ok()
        }
        Some(_) => None,
        None if text.chars().all(|c| c.is_ascii_digit()) => text.parse().ok(),
        None => None,
    }
}

/// Where an argument of this name belongs: a name that the service uses, or
/// `arg0` to `arg3` for a raw one.
fn place(name: &str, used: &[Argument]) -> Option<(usize, Form)> {
    if let Some(at) = used.iter().position(|argument| argument.name == name) {
        return Some((at, used[at].form));
    }
    let raw = ["arg0", "arg1", "arg2", "arg3"];
    raw.iter().position(|&raw| raw == name).map(|at| (at, Form::Number))
}

fn names(used: &[Argument]) -> String {
    let mut text = String::new();
    for argument in used {
        text.push_str(&format!("`{}=`, ", argument.name));
    }
    text + "`arg0=` to `arg3=` or the end of the line"
}
