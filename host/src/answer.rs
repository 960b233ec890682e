//! What a command reports: lines for people on standard output, what they mean and remarks on standard error, and the
//! same for scripts. docs/JSON.md has the fields.
use crate::call::Call;
use crate::shown::{print, Json};
use crate::stop::{shown, Stop};
use crate::{eprint, TROUBLE};
use std::ffi::OsStr;
use std::fmt::Display;
use tronalhet::places::{Left, LeftOut, Place};
use tronalhet::Refusal;

/// What was done: lines for people, the same for scripts, and what a person should know besides.
#[derive(Default)]
pub struct Told {
    pub lines: Vec<String>,
    pub fields: Vec<(&'static str, Json)>,
    pub remarks: Vec<String>,
}

pub type Answer = Result<Told, Stop>;

impl Told {
    /// A line that scripts have as `ok`.
    pub fn line(line: &str) -> Told {
        Told { lines: vec![line.into()], ..Told::default() }
    }

    /// Facts that are one number each, which is how most of what is reported looks.
    pub fn facts(facts: &[(&'static str, usize)]) -> Told {
        facts.iter().fold(Told::default(), |told, (name, number)| told.and_fact(name, *number))
    }

    /// One fact more.
    pub fn and_fact(mut self, name: &'static str, number: usize) -> Told {
        self.lines.push(format!("{} {number}", name.replace('_', " ")));
        self.with(name, Json::Number(number as u64))
    }

    /// One field more for scripts.
    pub fn with(mut self, name: &'static str, value: Json) -> Told {
        self.fields.push((name, value));
        self
    }

    /// The chunks of each file that the new one does not have.
    pub fn without(mut self, files: &[(&OsStr, Vec<LeftOut>)]) -> Told {
        let mut all = vec![];
        for (name, kinds) in files.iter().filter(|(_, kinds)| !kinds.is_empty()) {
            let words: Vec<String> = kinds.iter().map(kind_in_words).collect();
            self.remarks.push(format!("{}: left out: {}", shown(name), words.join(", ")));
            all.extend(kinds.iter().map(|kind| kind_for_scripts(name, kind)));
        }
        self.with("left_out", Json::List(all))
    }
}

/// A name as scripts get it: as it was given, with signs for bytes that are no text.
pub fn text(name: &OsStr) -> Json {
    Json::Text(name.to_string_lossy().into())
}

/// What is left out, for people. A file that is accepted has at most one list of titles.
fn kind_in_words(LeftOut { kind, count }: &LeftOut) -> String {
    let many = |what: &str| if *count == 1 { what.to_string() } else { format!("{count} {what}s") };
    match kind {
        Left::List(code) if &code.0 == b"adtl" => "the list of titles".into(),
        Left::List(code) => format!("{} '{code}'", many("list")),
        Left::Chunk(code) => format!("{} '{code}'", many("chunk")),
        Left::InTitles(code) => format!("{} '{code}' of the list of titles", many("chunk")),
    }
}

fn kind_for_scripts(file: &OsStr, LeftOut { kind, count }: &LeftOut) -> Json {
    let named = |name, code: &dyn Display| (name, Json::Text(code.to_string()));
    let mut fields = vec![("file", text(file))];
    match kind {
        Left::Chunk(code) => fields.push(named("chunk", code)),
        Left::List(code) => fields.extend([named("chunk", &"LIST"), named("type", code)]),
        Left::InTitles(code) => fields.extend([named("chunk", code), named("list", &"adtl")]),
    }
    fields.push(("count", Json::Number(*count as u64)));
    Json::Object(fields)
}

/// Prints an answer about a file, and then on standard error where the fault is, what it means and the way out of it;
/// its exit status.
pub fn say(call: &Call, about: &OsStr, answer: Answer) -> u8 {
    let front = if call.words.len() > 1 && call.command == "check" { format!("{}: ", shown(about)) } else { "".into() };
    let (number, status) = match &answer {
        Ok(_) => (0, 0),
        Err(Stop::Trouble(_)) => (0, TROUBLE),
        Err(Stop::Refused { refusal: Refusal::AlreadyListed, .. }) => (Refusal::AlreadyListed.number(), 0),
        Err(Stop::Refused { refusal, .. }) => (refusal.number(), refusal.number()),
    };
    let Told { lines, fields, remarks } = answer.unwrap_or_else(|stop| stopped(&front, stop));
    let text: String = if call.json {
        let mut all =
            vec![("file", text(about)), ("ok", Json::Bool(status == 0)), ("refused", Json::Number(number.into()))];
        all.extend(fields);
        format!("{}\n", Json::Object(all))
    } else {
        lines.iter().map(|line| format!("{front}{line}\n")).collect()
    };
    let printed = print(&text);
    remarks.iter().for_each(|line| eprint(line));
    printed.max(status)
}

/// Why nothing was done.
fn stopped(front: &str, stop: Stop) -> Told {
    let (refusal, file, place, way_out) = match stop {
        Stop::Trouble(what) => {
            let fields = vec![("trouble", Json::Text(what.clone()))];
            return Told { fields, remarks: vec![what], ..Told::default() };
        }
        Stop::Refused { refusal, file, place, way_out } => (refusal, file, place, way_out),
    };
    let mut told = Told::line(&refusal.to_string()).with("meaning", Json::Text(refusal.meaning().into()));
    told.remarks.extend(place.iter().map(|place| format!("{}: {place}", shown(&file))));
    told.remarks.push(format!("{front}{} means: {}", refusal.number(), refusal.meaning()));
    told.remarks.extend(way_out.iter().map(|way| format!("{front}way out: {way}")));
    if let Some(place) = place {
        told = told.with("where", place_fields(&file, place));
    }
    match way_out {
        Some(way) => told.with("way_out", Json::Text(way)),
        None => told,
    }
}

/// Where a fault is, for scripts.
fn place_fields(file: &OsStr, place: Place) -> Json {
    let number = |name, value: Option<u64>| value.map(|value| (name, Json::Number(value)));
    let parts = [
        Some(("file", text(file))),
        place.chunk.map(|code| ("chunk", Json::Text(code.to_string()))),
        number("block", place.block.map(|block| block.number.into())),
        number("blocks", place.block.map(|block| block.of.into())),
        number("channel", place.channel.map(u64::from)),
        number("cue", place.cue.map(|cue| cue.0.into())),
        place.field.map(|name| ("field", Json::Text(name.into()))),
        number("byte", place.byte.map(|byte| byte.0 as u64)),
        Some(("what", Json::Text(place.what))),
    ];
    Json::Object(parts.into_iter().flatten().collect())
}
