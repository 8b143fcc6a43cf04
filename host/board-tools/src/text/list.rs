//! Tape to text.

use crate::names::{service_numbered, Form, Service, CALLERS, OPTIONS};
use ordinary::{fault, Record, Tables, Tape, FOREVER};
use std::ops::Range;

/// Words on one `words` line.
const WORDS_A_LINE: usize = 16;

/// The text of a tape. Assembling it gives the same tape.
pub fn list(tape: &Tape) -> String {
    let mut lister = Lister {
        tape,
        tables: Tables::new(),
        placed: 0,
        out: format!("# calls: {}, message words: {}\n", tape.records.len(), tape.words.len()),
    };
    for record in &tape.records {
        lister.record(record);
    }
    lister.words_up_to(tape.words.len());
    lister.out
}

/// One call on one line, messages by index.
pub fn call_text(record: &Record) -> String {
    record_text(record, None)
}

/// One call on one line, with the message that it sends written out.
pub fn call_text_with_message(record: &Record, tables: &Tables, words: &[u32]) -> String {
    record_text(record, message_words(record, tables, words.len()).map(|part| &words[part]))
}

/// Where the message of a send to a known queue stands in the message words.
fn message_words(record: &Record, tables: &Tables, words: usize) -> Option<Range<usize>> {
    let service = service_numbered(record.call)?;
    let at = service.arguments.iter().position(|argument| argument.form == Form::Message)?;
    let queue = tables.queues.get(record.args[0] as usize)?;
    let start = record.args[at] as usize;
    let end = start + queue.size as usize;
    (queue.created && end <= words).then_some(start..end)
}

struct Lister<'a> {
    tape: &'a Tape,
    /// The tables before the record at hand: they know the queues' sizes.
    tables: Tables,
    /// How many message words the text so far has placed.
    placed: usize,
    out: String,
}

impl Lister<'_> {
    fn record(&mut self, record: &Record) {
        let message = self.message(record);
        if let Some(words) = &message {
            self.words_up_to(words.start);
            self.placed = words.end;
        }
        let text = record_text(record, message.map(|words| &self.tape.words[words]));
        self.out.push_str(&text);
        self.out.push('\n');
        let Record { call, caller, args } = *record;
        self.tables.step_numbered::<{ fault::NONE }>(call, caller, args, &self.tape.words);
    }

    /// A message that can be written in place: it begins where the text has
    /// not been yet.
    fn message(&self, record: &Record) -> Option<Range<usize>> {
        message_words(record, &self.tables, self.tape.words.len())
            .filter(|words| words.start >= self.placed)
    }

    /// Places the words before `end` that no message has placed.
    fn words_up_to(&mut self, end: usize) {
        for words in self.tape.words[self.placed..end].chunks(WORDS_A_LINE) {
            self.out.push_str(&format!("words {}\n", bracketed(words)));
        }
        self.placed = end;
    }
}

fn bracketed(words: &[u32]) -> String {
    let words: Vec<String> = words.iter().map(u32::to_string).collect();
    format!("[{}]", words.join(", "))
}

fn record_text(record: &Record, message: Option<&[u32]>) -> String {
    let caller = match CALLERS.get(record.caller as usize) {
        Some(name) => name.to_string(),
        None => format!("caller={}", record.caller),
    };
    let service = service_numbered(record.call);
    let name = match service {
        Some(service) => service.name.to_string(),
        None => format!("call={}", record.call),
    };
    format!("{caller:<9} {name}{}", arguments(record, service, message))
}

fn arguments(record: &Record, service: Option<&Service>, message: Option<&[u32]>) -> String {
    let used = service.map_or(&[][..], |service| service.arguments);
    let mut text = String::new();
    for (at, &value) in record.args.iter().enumerate() {
        match used.get(at) {
            Some(argument) => {
                text.push_str(&format!(
                    " {}={}",
                    argument.name,
                    value_text(argument.form, value, message)
                ));
            }
            // What a call does not use is written only if it is there.
            None if value != 0 => text.push_str(&format!(" arg{at}={value}")),
            None => {}
        }
    }
    text
}

fn value_text(form: Form, value: u32, message: Option<&[u32]>) -> String {
    match form {
        Form::Wait if value == 0 => "none".to_string(),
        Form::Wait | Form::Ticks if value == FOREVER => "forever".to_string(),
        Form::Flags => format!("0x{value:X}"),
        Form::SetOption if value == 0 || value == 2 => OPTIONS[value as usize].to_string(),
        Form::GetOption if value < 4 => OPTIONS[value as usize].to_string(),
        Form::Message => match message {
            Some(words) => bracketed(words),
            None => format!("@{value}"),
        },
        _ => value.to_string(),
    }
}
