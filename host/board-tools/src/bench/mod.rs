//! What a call costs, through the proved library and in the ordinary kernel.

pub mod agreement;
pub mod chart;
pub mod counts;
pub mod mix;
pub mod report;
pub mod sides;
pub mod timer;
pub mod times;

use report::{Counted, Report, Source};
use sides::Snapshots;
use times::Measurement;

/// Checks that both sides agree and that every service occurs, and measures.
/// Where `count` is set, instructions and copied bytes are counted too; what
/// cannot be counted is noted.
pub fn measure(rounds: usize, count: bool) -> Result<Report, String> {
    let mix = mix::mix();
    let snapshots = Snapshots::of(&mix.tape);
    agreement::check(&mix.tape, &snapshots)?;
    let times = Measurement::new(&mix.tape, &snapshots).rounds(rounds);
    let (mut counted, mut notes) = (Counted::default(), Vec::new());
    if count {
        match counts::instructions() {
            Ok(instructions) => counted.instructions = Some(instructions),
            Err(reason) => notes.push(format!("Instructions are not counted: {reason}")),
        }
        match counts::copied_bytes() {
            Ok(copied) => counted.copied = Some(copied),
            Err(reason) => notes.push(format!("Copied bytes are not counted: {reason}")),
        }
    }
    let ticks_per_nanosecond = timer::ticks_per_nanosecond();
    let source = Source { mix: &mix, times: &times, counted: &counted, ticks_per_nanosecond };
    Ok(source.report(notes))
}

/// Answers every record on one side, for callgrind to count.
pub fn count(side: &str) -> Result<(), String> {
    let tape = mix::mix().tape;
    let snapshots = Snapshots::of(&tape);
    let mut side = sides::named(side, &tape.words).ok_or(format!("no side `{side}`"))?;
    counts::answer_all(side.as_mut(), &tape, &snapshots, |_, answer| answer());
    Ok(())
}
