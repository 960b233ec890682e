//! The seven commands: what each reads, asks the library, writes and reports.
use crate::answer::{say, text, Answer, Told};
use crate::call::Call;
use crate::eprint;
use crate::reading::{glance, is_stream, whole};
use crate::shown::Json;
use crate::stop::{counted, readable, shown, shown_text, Stop};
use crate::writing::Target;
use std::ffi::{OsStr, OsString};
use std::os::unix::ffi::OsStrExt;
use tronalhet::places::{left_out, of_adding, way_out_of_adding, Kept, Place, Which};
use tronalhet::{Donation, Fault, Frames, Record, Refusal, Title, TitleKind, MOST_BYTES, MOST_TEXT};

/// How many bytes a block of an approval copy has where nothing else is said.
const USUAL_ALIGN: u32 = 1024;

/// Runs a command; its exit status, of several files that of the first that is not accepted.
pub fn run(call: &Call) -> u8 {
    let first = &call.words[0];
    if call.command == "check" {
        let checked = |file: &OsString| say(call, file, check(file, call.flag("sound")));
        let said: Vec<u8> = call.words.iter().map(checked).collect();
        return said.into_iter().find(|status| *status != 0).unwrap_or(0);
    }
    let answer = match call.command {
        "list" => list(first),
        "decode" => decode(first, &call.words[1], call),
        "encode" => encode(first, &call.words[1], call),
        "add" => add(call),
        "title" => title(call),
        _ => new_side(call),
    };
    say(call, first, answer)
}

// ---- what is read

fn check(name: &OsStr, sound: bool) -> Answer {
    let told = Told::line("accepted");
    if sound {
        let file = whole(name)?;
        tronalhet::check_sound(&file).map_err(|fault| Stop::of_file(name, &file, fault))?;
        return Ok(told.with("sound", Json::Bool(true)));
    }
    let file = glance(name)?;
    tronalhet::read(&file).map_err(|refusal| Stop::of_file(name, &file, refusal.into()))?;
    Ok(told)
}

fn list(name: &OsStr) -> Answer {
    let file = glance(name)?;
    let record = tronalhet::read(&file).map_err(|refusal| Stop::of_file(name, &file, refusal.into()))?;
    Ok(Told { lines: listing(&record), fields: fields_of(&record), ..Told::default() })
}

/// The lines of a list, in the form that document 01 gives.
fn listing(record: &Record) -> Vec<String> {
    let (format, frames) = (&record.format, record.frames.0);
    let head = format!("channels {} rate {} bits {} frames {frames}", format.channels, format.rate, format.bits);
    let mut lines = vec![format!("wave tag {} {head}", format.tag)];
    lines.extend(record.cues.iter().map(|cue| format!("cue {} at {}", cue.name.0, cue.place.0)));
    let play = |play: &tronalhet::Play| format!("play {} length {} times {}", play.name.0, play.length.0, play.times);
    lines.extend(record.playlist.iter().map(play));
    lines
}

/// A record for scripts.
fn fields_of(record: &Record) -> Vec<(&'static str, Json)> {
    let tronalhet::Format { tag, channels, rate, bits, align, samples } = record.format;
    let object =
        |fields: [(&'static str, u32); 3]| Json::Object(fields.map(|(n, v)| (n, Json::Number(v.into()))).into());
    let cue =
        |cue: &tronalhet::Cue| object([("name", cue.name.0), ("position", cue.position.0), ("place", cue.place.0)]);
    let play =
        |play: &tronalhet::Play| object([("name", play.name.0), ("length", play.length.0), ("times", play.times)]);
    vec![
        ("tag", Json::Number(tag.into())),
        ("channels", Json::Number(channels.into())),
        ("rate", Json::Number(rate.into())),
        ("bits", Json::Number(bits.into())),
        ("align", Json::Number(align.into())),
        ("samples_per_block", Json::Number(samples.into())),
        ("frames", Json::Number(record.frames.0.into())),
        ("cues", Json::List(record.cues.iter().map(cue).collect())),
        ("playlist", Json::List(record.playlist.iter().map(play).collect())),
        ("titles", Json::List(record.titles.iter().map(title_fields).collect())),
    ]
}

/// A title for scripts. A text that is no UTF-8 is there twice: to be read, and as the bytes that it is.
fn title_fields(title: &Title) -> Json {
    let mut fields = vec![
        ("name", Json::Number(title.cue.0.into())),
        ("kind", Json::Text(kind_of(title).into())),
        ("text", Json::Text(readable(&title.text))),
    ];
    if std::str::from_utf8(&title.text).is_err() {
        fields.push(("hex", Json::Text(title.text.iter().map(|byte| format!("{byte:02x}")).collect())));
    }
    Json::Object(fields)
}

fn kind_of(title: &Title) -> &'static str {
    match title.kind {
        TitleKind::Label => "label",
        TitleKind::Note => "note",
    }
}

// ---- what is written

/// A place for a file that is made of another one, which it must not replace; nor any other, unless that is asked for.
fn place_for(to: &OsStr, from: &OsStr, replace: bool) -> Result<Target, Stop> {
    let target = Target::new(to)?;
    target.is_not(from, "IN")?;
    if !replace {
        target.replaces_nothing()?;
    }
    Ok(target)
}

/// Writes a file. What it takes the place of may have other names, and may be kept under a name of its own.
fn write(target: &Target, to: &OsStr, made: &[u8], backup: bool, mut told: Told) -> Answer {
    let others = target.other_names();
    let kept = target.write(made, backup)?;
    told.fields.insert(0, ("out", text(to)));
    if let Some(kept) = kept {
        told.lines.push(format!("backup {}", shown(kept.as_os_str())));
        told = told.with("backup", text(kept.as_os_str()));
    }
    if let Some(path) = target.behind_link(to) {
        told.remarks.push(format!("{}: it is a link, and {} was written", shown(to), shown(path.as_os_str())));
    }
    if others > 0 {
        let names = counted(others, "other name (a hard link) keeps", "other names (hard links) keep");
        told.remarks.push(format!("{}: its {names} the old file", shown(to)));
    }
    Ok(told)
}

fn decode(from: &OsStr, to: &OsStr, call: &Call) -> Answer {
    let target = place_for(to, from, call.flag("replace"))?;
    let file = whole(from)?;
    let (made, frames) = tronalhet::sixteen_bit(&file).map_err(|fault| Stop::of_file(from, &file, fault))?;
    let told = Told::facts(&[("frames", frames.0 as usize), ("bytes", made.len())]);
    write(&target, to, &made, false, told.without(&[(from, left_out(&file, Kept::All))]))
}

fn encode(from: &OsStr, to: &OsStr, call: &Call) -> Answer {
    let align = call.number("align").unwrap_or(USUAL_ALIGN) as u16;
    let target = place_for(to, from, call.flag("replace"))?;
    let file = whole(from)?;
    let copy = tronalhet::approval_copy(&file, align).map_err(|fault| not_copied(from, &file, align, fault))?;
    let told = Told::facts(&[
        ("frames", copy.frames.0 as usize),
        ("bytes", copy.file.len()),
        ("chased_left", copy.left.0 as usize),
        ("chased_right", copy.right.0 as usize),
    ]);
    write(&target, to, &copy.file, false, told.without(&[(from, left_out(&file, Kept::Sound))]))
}

/// Why there is no copy: where the format of a file is accepted, 9 is said of the align.
fn not_copied(from: &OsStr, file: &[u8], align: u16, fault: Fault) -> Stop {
    match (fault, tronalhet::read(file)) {
        (Fault::Refused(refusal @ Refusal::FormatWrong), Ok(record)) => {
            let step = 4 * record.format.channels;
            let what = format!("--align is {align}; {} to 4096 are accepted, in steps of {step}", 2 * step);
            Stop::of_call(from, refusal, what)
        }
        _ => Stop::of_file(from, file, fault),
    }
}

fn new_side(call: &Call) -> Answer {
    let (to, channels, rate) = (&call.words[0], call.needed("channels") as u16, call.needed("rate"));
    let target = Target::new(to)?;
    let made = tronalhet::empty_side(channels, rate).map_err(|fault| match fault {
        Fault::Refused(refusal) => {
            let what = format!("--channels is {channels} and --rate {rate}; 1 or 2 and 1 to 192000 are accepted");
            Stop::of_call(to, refusal, what)
        }
        Fault::NoMemory(lack) => lack.into(),
    })?;
    let _locked = target.lock_folder(eprint)?;
    target.is_new()?;
    write(&target, to, &made, false, Told::facts(&[("bytes", made.len())]))
}

// ---- a song is added

/// What is added to what.
struct Adding<'a> {
    side: &'a OsStr,
    song: &'a OsStr,
    number: Donation,
    limit: Frames,
}

/// The song is read before others are kept out, and so is a side that is no file: otherwise a pipe that nobody writes
/// to would keep them out.
fn add(call: &Call) -> Answer {
    let adding = Adding {
        side: &call.words[0],
        song: &call.words[1],
        number: Donation(call.needed("number")),
        limit: Frames(call.needed("limit")),
    };
    let to = call.out.as_ref().map_or(adding.side, |out| out);
    let looked_at = Target::new(to)?;
    looked_at.is_not(adding.song, "SONG")?;
    let song = whole(adding.song)?;
    let streamed = if is_stream(adding.side) { Some(whole(adding.side)?) } else { None };
    let locked = looked_at.lock_folder(eprint)?;
    // Whether OUT is SIDE can be told only now: until the lock is held, another run may replace it between two looks.
    let target = place_for_side(to, &adding, call.flag("replace"))?;
    let side = streamed.map_or_else(|| whole(adding.side), Ok)?;
    let made = tronalhet::add(&side, &song, adding.number, adding.limit)
        .map_err(|fault| not_added(&adding, &side, &song, fault))
        .map_err(|stop| if call.out.is_some() { without_out(stop, to) } else { stop })?;
    let told = added(&adding, &side, &song, &made).map_err(|fault| Stop::of_file(to, &made, fault))?;
    let answer = write(&target, to, &made, call.flag("backup"), told);
    drop(locked);
    answer
}

/// A place for a new side: that of the old one, if that has no other name, or a new one, unless another file is to be
/// replaced.
fn place_for_side(to: &OsStr, adding: &Adding, replace: bool) -> Result<Target, Stop> {
    let target = Target::new(to)?;
    target.is_not(adding.song, "SONG")?;
    if !replace {
        if !target.is_file(adding.side) {
            target.replaces_nothing()?;
        }
        target.has_one_name()?;
    }
    Ok(target)
}

fn not_added(adding: &Adding, side: &[u8], song: &[u8], fault: Fault) -> Stop {
    let refusal = match fault {
        Fault::Refused(refusal) => refusal,
        Fault::NoMemory(lack) => return lack.into(),
    };
    let found = of_adding(refusal, side, song, adding.number, adding.limit);
    let name = match found {
        Some((Which::Side, _)) => adding.side,
        _ => adding.song,
    };
    let way_out = way_out_of_adding(refusal, side, song, adding.song, adding.limit);
    Stop::Refused { refusal, file: name.into(), place: found.map(|(_, place)| place), way_out }
}

/// A song that is on the side already is no fault, but a new OUT is not there then, which a script may count on.
fn without_out(stop: Stop, to: &OsStr) -> Stop {
    match stop {
        Stop::Refused { refusal: refusal @ Refusal::AlreadyListed, file, place, .. } => {
            let way_out = Some(format!("use SIDE as it is; {} was not written", shown(to)));
            Stop::Refused { refusal, file, place, way_out }
        }
        stop => stop,
    }
}

/// What is reported of a song that was added: which song it is, where it starts, and how much of the limit is left. Its
/// sound may be on the side already under another number, which is allowed, and is seldom meant.
fn added(adding: &Adding, side: &[u8], song: &[u8], made: &[u8]) -> Result<Told, Fault> {
    let (before, after) = (tronalhet::read(side)?, tronalhet::read(made)?);
    let told = Told::facts(&[
        ("added", adding.number.0 as usize),
        ("bytes", made.len()),
        ("song", after.cues.len()),
        ("place", before.frames.0 as usize),
        ("frames", (after.frames.0 - before.frames.0) as usize),
        ("frames_left", (adding.limit.0 - after.frames.0) as usize),
    ]);
    let without = [(adding.side, left_out(side, Kept::All)), (adding.song, left_out(song, Kept::Sound))];
    let mut told = told.without(&without);
    let songs = tronalhet::read(song)?.playlist.len();
    if songs > 0 {
        let list = counted(songs as u64, "entry", "entries");
        told.remarks.push(format!("{}: it has a playlist of {list}, and was added as one song", shown(adding.song)));
    }
    let same = tronalhet::same_sound(side, song)?;
    if !same.is_empty() {
        let numbers: Vec<String> = same.iter().map(|number| number.0.to_string()).collect();
        let line = format!("{}: this sound is on the side already, as {}", shown(adding.song), numbers.join(", "));
        told.remarks.push(line);
        let numbers = same.iter().map(|number| Json::Number(number.0.into())).collect();
        told = told.with("same_sound_as", Json::List(numbers));
    }
    Ok(told)
}

// ---- a cue is given its titles

/// The file is read while others are kept out, so that none of their songs is lost.
fn title(call: &Call) -> Answer {
    let (name, cue) = (&call.words[0], Donation(call.needed("number")));
    let locked = Target::new(name)?.lock_folder(eprint)?;
    // Until the lock is held, another run may replace it.
    let target = Target::new(name)?;
    if !call.flag("replace") {
        target.has_one_name()?;
    }
    let file = whole(name)?;
    let refused = |refusal: Refusal| Stop::of_file(name, &file, refusal.into());
    let old = tronalhet::read(&file).map_err(refused)?;
    if old.cues.iter().all(|known| known.name != cue) {
        return Err(no_such_cue(name, &old, cue));
    }
    let new = retitled(&old, cue, call);
    let told = titles_of(&new, cue);
    if new == old {
        return Ok(already_so(name, &new, cue, told));
    }
    let sound = tronalhet::sound_of(&file).map_err(refused)?;
    let made = tronalhet::write(&new, sound).map_err(|fault| not_titled(name, &file, &new, cue, fault))?;
    let told = told.and_fact("bytes", made.len()).without(&[(name, left_out(&file, Kept::All))]);
    let answer = write(&target, name, &made, call.flag("backup"), told);
    drop(locked);
    answer
}

/// A record with the titles that a call asks for.
fn retitled(old: &Record, cue: Donation, call: &Call) -> Record {
    let mut new = old.clone();
    if call.flag("remove") {
        new.remove_titles(cue);
    }
    let label = call.words.get(1).map(|text| text.as_bytes());
    for (kind, text) in [(TitleKind::Label, label), (TitleKind::Note, call.text("note"))] {
        text.into_iter().for_each(|text| new.set_title(kind, cue, text));
    }
    new
}

/// The titles of a cue, as they are now.
fn titles_of(record: &Record, cue: Donation) -> Told {
    let mut told = Told::facts(&[("cue", cue.0 as usize)]);
    let line = |title: &Title| format!("{} {}", kind_of(title), shown_text(&title.text));
    told.lines.extend(record.titles_of(cue).map(line));
    told.with("titles", Json::List(record.titles_of(cue).map(title_fields).collect()))
}

/// A person should know that nothing was done.
fn already_so(name: &OsStr, record: &Record, cue: Donation, mut told: Told) -> Told {
    let so = if record.titles_of(cue).next().is_some() { "its titles are so already" } else { "it has no titles" };
    told.remarks.push(format!("{}: cue {}: {so}; nothing was written", shown(name), cue.0));
    told
}

/// A title that cannot be, as the library would say too, and what can be done.
fn no_title(name: &OsStr, cue: Donation, what: String, way_out: String) -> Stop {
    let place = Some(Place { cue: Some(cue), what, ..Place::default() });
    Stop::Refused { refusal: Refusal::TitlesWrong, file: name.into(), place, way_out: Some(way_out) }
}

fn no_such_cue(name: &OsStr, record: &Record, cue: Donation) -> Stop {
    let numbers: Vec<String> = record.cues.iter().map(|cue| cue.name.0.to_string()).collect();
    let way_out = match &numbers[..] {
        [] => "it has no cues: a song gets one where it is added to a side".into(),
        [one] => format!("its cue is {one}"),
        many => format!("its cues are {}", many.join(", ")),
    };
    no_title(name, cue, "there is no such cue".into(), way_out)
}

/// Why titles were not written: a text is too long, or the new file would be.
fn not_titled(name: &OsStr, file: &[u8], new: &Record, cue: Donation, fault: Fault) -> Stop {
    let long = new.titles_of(cue).find(|title| title.text.len() > MOST_TEXT);
    match (fault, long) {
        (Fault::Refused(Refusal::TitlesWrong), Some(title)) => too_long(name, title),
        (Fault::Refused(refusal @ Refusal::LengthOutOfRange), _) => {
            let bytes = new.file_bytes(tronalhet::sound_of(file).map_or(0, <[u8]>::len));
            let what = format!("its new file would have {bytes} bytes, and {MOST_BYTES} are the most");
            Stop::of_call(name, refusal, what)
        }
        _ => Stop::of_file(name, file, fault),
    }
}

fn too_long(name: &OsStr, title: &Title) -> Stop {
    let bytes = title.text.len();
    let what = format!("its {} would have {bytes} bytes, and {MOST_TEXT} are the most", kind_of(title));
    let over = counted((bytes - MOST_TEXT) as u64, "byte", "bytes");
    no_title(name, title.cue, what, format!("make it shorter by {over}; a letter may have several"))
}
