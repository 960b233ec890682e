//! The words of the command line.
use crate::pages;
use crate::stop::shown;
use std::collections::{BTreeMap, BTreeSet};
use std::ffi::{OsStr, OsString};
use std::fmt::Write;
use std::os::unix::ffi::OsStrExt;

/// A command: its name, the words that it takes, and its options.
pub struct Command {
    pub name: &'static str,
    pub words: &'static [&'static str],
    last: Last,
    pub options: &'static [Choice],
    pub about: &'static str,
    /// What the help on this command and the man page say besides; may be empty.
    pub more: &'static str,
}

/// How often the last word of a command is given.
#[derive(Clone, Copy, PartialEq, Eq)]
enum Last {
    Once,
    OnceOrMore,
    OnceOrNot,
}

/// An option.
pub struct Choice {
    pub name: &'static str,
    pub takes: Takes,
    needed: bool,
    pub about: &'static str,
}

/// What stands after an option: nothing, a number that is at most so large, the name of a file, or any text.
#[derive(Clone, Copy)]
pub enum Takes {
    Nothing,
    Number(&'static str, u32),
    File(&'static str),
    Text(&'static str),
}

const fn flag(name: &'static str, about: &'static str) -> Choice {
    Choice { name, takes: Takes::Nothing, needed: false, about }
}

const fn number(name: &'static str, value: &'static str, needed: bool, most: u32, about: &'static str) -> Choice {
    Choice { name, takes: Takes::Number(value, most), needed, about }
}

const JSON: Choice = flag("json", "the answer as JSON, a line for each file");
const REPLACE: Choice = flag("replace", "replaces OUT where a file of that name is there already");

/// All commands. The help, the man page and the completion are made from this.
pub const COMMANDS: &[Command] = &[
    Command {
        name: "list",
        words: &["FILE"],
        last: Last::Once,
        options: &[JSON],
        about: "Shows what a WAVE file says, with its cues and its playlist.",
        more: "The titles of the cues are shown with --json.",
    },
    Command {
        name: "check",
        words: &["FILE"],
        last: Last::OnceOrMore,
        options: &[flag("sound", "also tests the header of every ADPCM block: refusal 15"), JSON],
        about: "Says of each file whether it is accepted. The status is that of the first that is not.",
        more: "Without --sound all is tested but the sound itself. That the header of an ADPCM block is out of range\n\
               (refusal 15) shows only with --sound, or when the file is decoded. The pad byte after the last chunk\n\
               may be absent, where the RIFF size does not count it.",
    },
    Command {
        name: "decode",
        words: &["IN", "OUT"],
        last: Last::Once,
        options: &[REPLACE, JSON],
        about: "Writes the sound of IN as a 16-bit WAVE file, with its cues, its playlist and its titles.",
        more: "",
    },
    Command {
        name: "encode",
        words: &["IN", "OUT"],
        last: Last::Once,
        options: &[
            number("align", "N", false, 65535, "bytes of a block, a multiple of 4 for each channel; 1024 if not given"),
            REPLACE,
            JSON,
        ],
        about: "Writes an approval copy of IN, in IMA ADPCM: about a quarter of its size.",
        more:
            "Chased samples are those that are too far from the one before for one step of the copy, which then comes\n\
               nearer sample by sample. A few are usual; many are heard as a dull attack.",
    },
    Command {
        name: "add",
        words: &["SIDE", "SONG"],
        last: Last::Once,
        options: &[
            number("number", "N", true, u32::MAX, "the song's donation number"),
            number("limit", "FRAMES", true, u32::MAX, "the most frames that the side may have"),
            Choice {
                name: "out",
                takes: Takes::File("FILE"),
                needed: false,
                about: "writes the new side under this name; if not given, it takes the place of SIDE",
            },
            flag(
                "replace",
                "replaces a FILE that is there already; or a SIDE with other hard links, which keep the old side",
            ),
            flag(
                "backup",
                "keeps the file that is replaced as SIDE.1, SIDE.2, .. (or FILE.1, ..), the first name that is free",
            ),
            JSON,
        ],
        about: "Adds a song to a side. A song that is on it already is not added again, which is no fault.",
        more: "The side keeps its titles. The song brings none: give it one by title.",
    },
    Command {
        name: "title",
        words: &["SIDE", "TEXT"],
        last: Last::OnceOrNot,
        options: &[
            number("number", "N", true, u32::MAX, "the number of the cue; on a side it is the song's donation number"),
            Choice {
                name: "note",
                takes: Takes::Text("TEXT"),
                needed: false,
                about: "sets the note of the cue, which may say more of the song",
            },
            flag("remove", "removes the label and the note of the cue"),
            flag("replace", "replaces a SIDE with other hard links, which keep the old side"),
            flag("backup", "keeps the old side as SIDE.1, SIDE.2, .., the first name that is free"),
            JSON,
        ],
        about: "Gives a song of a side its title: TEXT is the label of its cue. It takes the place of the old one.",
        more:
            "SIDE may be any WAVE file with cues. A text has at most 255 bytes, which are stored as they are given.\n\
               A TEXT that begins with - comes after --; a note that is itself an option is given as --note=TEXT.\n\
               list --json shows all titles.",
    },
    Command {
        name: "new-side",
        words: &["OUT"],
        last: Last::Once,
        options: &[
            number("channels", "N", true, 65535, "1 or 2"),
            number("rate", "N", true, u32::MAX, "frames a second, 1 to 192000"),
            JSON,
        ],
        about: "Writes an empty side. OUT must be a new name.",
        more: "",
    },
];

/// What is said below the commands, and below the options of each.
pub const FILES: &str = "\
A file has at most 1,073,741,824 bytes. For a file that is read, - is standard input. A new file gets its name only
when it is whole and on the disk, and takes the place of another only where that is SIDE, or with --replace.
Chunks of a file that are left out of the new one are named on standard error.
A refusal is reported by its number; standard error says where it is, what it means, and a way out if there is one.
";
pub const STATUS: &str = "\
0 done, or nothing to do, as for 18; 1 to 21 the number of the refusal; 64 a wrong call;
74 I/O error, explained on standard error.
";

impl Choice {
    /// The option with the name of its value.
    pub fn usage(&self) -> String {
        match self.takes {
            Takes::Nothing => format!("--{}", self.name),
            Takes::Number(value, _) | Takes::File(value) | Takes::Text(value) => format!("--{} {value}", self.name),
        }
    }
}

impl Command {
    /// How it is called.
    pub fn usage(&self) -> String {
        let (last, words) = self.words.split_last().expect("a command takes a word");
        let last = match self.last {
            Last::Once => last.to_string(),
            Last::OnceOrMore => format!("{last}.."),
            Last::OnceOrNot => format!("[{last}]"),
        };
        let mut usage = ["tronalhet", self.name].iter().chain(words).map(|word| format!("{word} ")).collect::<String>();
        usage.push_str(&last);
        for choice in self.options {
            let (open, close) = if choice.needed { ("", "") } else { ("[", "]") };
            write!(usage, " {open}{}{close}", choice.usage()).expect("a text can be written to");
        }
        usage
    }

    /// The option that is written so, if there is one.
    fn choice(&self, written: &[u8]) -> Option<&'static Choice> {
        let name = written.strip_prefix(b"--")?;
        self.options.iter().find(|choice| choice.name.as_bytes() == name)
    }

    fn help(&self) -> String {
        let mut help = format!("usage: {}\n\n{}\n\n", self.usage(), self.about);
        for choice in self.options {
            writeln!(help, "  {:<15} {}", choice.usage(), choice.about).expect("a text can be written to");
        }
        if !self.more.is_empty() {
            write!(help, "\n{}\n", self.more).expect("a text can be written to");
        }
        format!("{help}\n{FILES}\nExit status: {STATUS}")
    }
}

/// The help on all commands.
fn help() -> String {
    let mut help = String::from("WAVE files and LP sides of full size.\n\n");
    for command in COMMANDS {
        writeln!(help, "{}\n    {}", command.usage(), command.about).expect("a text can be written to");
    }
    format!("{help}\ntronalhet help COMMAND says more about one command.\n\n{FILES}\nExit status: {STATUS}")
}

/// A command with its words and options.
pub struct Call {
    pub command: &'static str,
    pub words: Vec<OsString>,
    pub out: Option<OsString>,
    numbers: BTreeMap<&'static str, u32>,
    texts: BTreeMap<&'static str, OsString>,
    flags: BTreeSet<&'static str>,
    pub json: bool,
}

impl Call {
    /// Whether an option without a value was given.
    pub fn flag(&self, name: &str) -> bool {
        self.flags.contains(name)
    }

    /// The number of an option that was given.
    pub fn number(&self, name: &str) -> Option<u32> {
        self.numbers.get(name).copied()
    }

    /// The text of an option that was given, as the bytes of the command line.
    pub fn text(&self, name: &str) -> Option<&[u8]> {
        self.texts.get(name).map(|text| text.as_bytes())
    }

    /// The number of an option that is needed, so that a call without it is never made.
    pub fn needed(&self, name: &str) -> u32 {
        self.number(name).expect("an option that is needed was looked for")
    }
}

pub enum Asked {
    Run(Call),
    /// A text to be printed: help, the version, the man page or the completion.
    Text(String),
}

/// A wrong call: what is wrong, and how it should be.
pub struct Wrong {
    pub what: String,
    pub usage: String,
}

/// What the words after the command's own name ask for.
pub fn asked(words: Vec<OsString>) -> Result<Asked, Wrong> {
    let first = words.first().ok_or_else(|| no_command("a command is missing".into()))?;
    match first.to_str() {
        Some("help" | "--help" | "-h") => help_on(&words[1..]).map(Asked::Text),
        Some("--version") => Ok(Asked::Text(format!("tronalhet {}\n", env!("CARGO_PKG_VERSION")))),
        Some("--man") => Ok(Asked::Text(pages::man())),
        Some("--completion") => Ok(Asked::Text(pages::completion())),
        _ => {
            let command = command_of(first)?;
            taken(command, &words[1..]).map_err(|what| Wrong { what, usage: command.usage() })
        }
    }
}

/// A call that names none of the commands.
fn no_command(what: String) -> Wrong {
    let names: Vec<&str> = COMMANDS.iter().map(|command| command.name).collect();
    Wrong { what, usage: format!("tronalhet {} ..; tronalhet --help says more", names.join("|")) }
}

fn command_of(word: &OsStr) -> Result<&'static Command, Wrong> {
    let found = COMMANDS.iter().find(|command| word == command.name);
    found.ok_or_else(|| no_command(format!("there is no command '{}'", given(word))))
}

/// The help on all commands, or on the one that is named.
fn help_on(words: &[OsString]) -> Result<String, Wrong> {
    match words {
        [] => Ok(help()),
        [name] if name == "help" => Ok(help()),
        [name] => command_of(name).map(Command::help),
        [_, second, ..] => Err(Wrong { what: too_many(second), usage: "tronalhet help [COMMAND]".into() }),
    }
}

/// A word of the call, to be shown. A dash is that word here, and no name of standard input.
fn given(word: &OsStr) -> String {
    if word == "-" {
        "-".into()
    } else {
        shown(word)
    }
}

fn too_many(word: &OsStr) -> String {
    format!("'{}' is one word too many", given(word))
}

/// The words of a command, taken apart; else what is wrong with them.
fn taken(command: &'static Command, words: &[OsString]) -> Result<Asked, String> {
    let mut call = Call {
        command: command.name,
        words: vec![],
        out: None,
        numbers: BTreeMap::new(),
        texts: BTreeMap::new(),
        flags: BTreeSet::new(),
        json: false,
    };
    let mut words = words.iter();
    let mut plain = false;
    while let Some(word) = words.next() {
        if plain || !word.as_bytes().starts_with(b"-") || word == "-" {
            call.words.push(word.clone());
        } else if word == "--" {
            plain = true;
        } else if word == "--help" || word == "-h" {
            return Ok(Asked::Text(command.help()));
        } else {
            take_option(command, &mut call, word, &mut words)?;
        }
    }
    call.json = call.flag(JSON.name);
    complete(command, &call)?;
    Ok(Asked::Run(call))
}

/// An option, whose value stands after `=` or is the next word. A flag may be given twice: it says the same.
fn take_option<'a>(
    command: &'static Command,
    call: &mut Call,
    word: &OsStr,
    rest: &mut impl Iterator<Item = &'a OsString>,
) -> Result<(), String> {
    let (name, after) = parted(word);
    let choice = command.choice(name).ok_or_else(|| no_option(command, OsStr::from_bytes(name)))?;
    let kind = match (choice.takes, after) {
        (Takes::Nothing, Some(_)) => return Err(format!("--{} takes no value", choice.name)),
        (Takes::Nothing, None) => {
            call.flags.insert(choice.name);
            return Ok(());
        }
        (Takes::Number(kind, _) | Takes::File(kind) | Takes::Text(kind), _) => kind,
    };
    let value = match after {
        Some(bytes) => OsStr::from_bytes(bytes).to_os_string(),
        None => next_value(command, choice, kind, rest.next())?,
    };
    let twice = match choice.takes {
        Takes::Number(_, most) => call.numbers.insert(choice.name, whole_number(choice.name, &value, most)?).is_some(),
        Takes::Text(_) => call.texts.insert(choice.name, value).is_some(),
        _ => call.out.replace(value).is_some(),
    };
    if twice {
        Err(format!("--{} is there twice", choice.name))
    } else {
        Ok(())
    }
}

/// What stands in a word before the first `=`, and what behind it.
fn parted(word: &OsStr) -> (&[u8], Option<&[u8]>) {
    let bytes = word.as_bytes();
    match bytes.iter().position(|byte| *byte == b'=') {
        Some(place) => (&bytes[..place], Some(&bytes[place + 1..])),
        None => (bytes, None),
    }
}

/// The word after an option as its value. One that is an option itself was hardly meant as that.
fn next_value(command: &Command, choice: &Choice, kind: &str, word: Option<&OsString>) -> Result<OsString, String> {
    let name = choice.name;
    let word = word.ok_or_else(|| format!("--{name} wants {kind}"))?;
    if command.choice(parted(word).0).is_some() {
        let option = given(word);
        let way_out = format!("if it is meant, write --{name}={option}");
        return Err(format!("--{name} wants {kind}, and {option} is an option; {way_out}"));
    }
    Ok(word.clone())
}

/// An option that a command does not have. One with a single dash may be meant as the name of a file.
fn no_option(command: &Command, word: &OsStr) -> String {
    let hint = if word.as_bytes().starts_with(b"--") { "" } else { "; a name that begins with - comes after --" };
    format!("{} has no option {}{hint}", command.name, given(word))
}

/// A whole number in digits, 0 to the most.
fn whole_number(name: &str, word: &OsStr, most: u32) -> Result<u32, String> {
    let text = word.to_string_lossy();
    let digits = !text.is_empty() && text.bytes().all(|byte| byte.is_ascii_digit());
    let number = if digits { text.parse().ok().filter(|number| *number <= most) } else { None };
    number.ok_or_else(|| format!("--{name} must be a whole number from 0 to {most}, not '{}'", given(word)))
}

/// Whether a call has all that it needs, and no more.
fn complete(command: &Command, call: &Call) -> Result<(), String> {
    let (given, most) = (call.words.len(), command.words.len());
    let least = if command.last == Last::OnceOrNot { most - 1 } else { most };
    if given < least {
        return Err(format!("{} is missing", command.words[given]));
    }
    if given > most && command.last != Last::OnceOrMore {
        let hint = if command.name == "title" { "; a title of several words is put in quotes" } else { "" };
        return Err(format!("{}{hint}", too_many(&call.words[most])));
    }
    let missing = command.options.iter().find(|choice| choice.needed && !call.numbers.contains_key(choice.name));
    if let Some(choice) = missing {
        return Err(format!("{} is missing", choice.usage()));
    }
    if command.name == "title" {
        titles(call)?;
    }
    standard_input(command, call)
}

/// Titles are set or removed, one of the two.
fn titles(call: &Call) -> Result<(), String> {
    let set = call.words.len() > 1 || call.text("note").is_some();
    match (set, call.flag("remove")) {
        (false, false) => Err("TEXT, --note TEXT or --remove is missing".into()),
        (true, true) => Err("--remove removes both titles, so none can be set with it".into()),
        _ => Ok(()),
    }
}

/// Standard input can be read once, and is nothing to be written to.
fn standard_input(command: &Command, call: &Call) -> Result<(), String> {
    let dash = |word: &OsString| word == "-";
    // A title may be a dash.
    let files = if command.name == "title" { &call.words[..1] } else { &call.words };
    if files.iter().filter(|word| dash(word)).count() > 1 {
        return Err("standard input can be read only once".into());
    }
    let written = match command.name {
        "decode" | "encode" => Some(&call.words[1]),
        "new-side" | "title" => Some(&call.words[0]),
        "add" => Some(call.out.as_ref().unwrap_or(&call.words[0])),
        _ => None,
    };
    if written.map_or(false, dash) {
        let hint = if command.name == "add" && call.out.is_none() { ": --out FILE is missing" } else { "" };
        return Err(format!("the new file must have a name, and - has none{hint}"));
    }
    Ok(())
}

#[cfg(test)]
mod tests {
    use super::*;

    /// What is understood of words: the call, the text that is asked for, or what is wrong.
    fn of(words: &[&str]) -> Result<Asked, String> {
        asked(words.iter().map(OsString::from).collect()).map_err(|wrong| wrong.what)
    }

    fn call(words: &[&str]) -> Call {
        match of(words) {
            Ok(Asked::Run(call)) => call,
            Ok(Asked::Text(text)) => panic!("{words:?} is answered by {text}"),
            Err(what) => panic!("{words:?}: {what}"),
        }
    }

    fn text(words: &[&str]) -> String {
        match of(words) {
            Ok(Asked::Text(text)) => text,
            Ok(Asked::Run(_)) => panic!("{words:?} is run"),
            Err(what) => panic!("{words:?}: {what}"),
        }
    }

    fn wrong(words: &[&str]) -> String {
        of(words).err().unwrap_or_else(|| panic!("{words:?} is not wrong"))
    }

    #[test]
    fn a_flag_is_given_or_not() {
        let plain = call(&["add", "side", "song", "--number", "7", "--limit=9"]);
        assert!(!plain.flag("replace") && !plain.flag("backup") && !plain.json && plain.out.is_none());
        let full =
            call(&["add", "--backup", "side", "--replace", "--json", "song", "--number=7", "--limit=9", "--json"]);
        assert!(full.flag("replace") && full.flag("backup") && full.json);
        assert_eq!((full.words, full.numbers), (plain.words, plain.numbers));
        assert!(call(&["check", "--sound", "a", "b"]).flag("sound"));
        assert!(call(&["decode", "a", "b", "--replace"]).flag("replace"));
        assert!(call(&["encode", "a", "b", "--replace"]).flag("replace"));
    }

    #[test]
    fn a_flag_belongs_to_its_command_and_has_no_value() {
        assert_eq!(wrong(&["list", "a", "--sound"]), "list has no option --sound");
        assert_eq!(wrong(&["new-side", "a", "--replace"]), "new-side has no option --replace");
        assert_eq!(wrong(&["check", "a", "--sound=yes"]), "--sound takes no value");
        assert_eq!(call(&["check", "--", "--sound"]).words, ["--sound"]);
    }

    #[test]
    fn a_text_is_taken_as_it_is() {
        let [label, note, both] = [
            call(&["title", "--number=7", "side", "-"]),
            call(&["title", "side", "--note=--remove", "--number", "7"]),
            call(&["title", "--note=a=b", "--number=7", "side", "--", "--note"]),
        ];
        assert_eq!((label.words, label.texts.len()), (vec!["side".into(), "-".into()], 0));
        assert_eq!(
            (&note.words[..], note.text("note"), note.flag("remove")),
            (&["side".into()][..], Some(&b"--remove"[..]), false)
        );
        assert_eq!((&both.words[1], both.text("note")), (&"--note".into(), Some(&b"a=b"[..])));
        assert_eq!(call(&["title", "side", "", "--note=", "--number=7"]).text("note"), Some(&b""[..]));
        assert!(call(&["title", "side", "--remove", "--number=7"]).flag("remove"));
    }

    #[test]
    fn titles_are_set_or_removed() {
        let of_seven = |more: &[&str]| wrong(&[&["title", "--number=7"], more].concat());
        assert_eq!(wrong(&["title", "side", "text"]), "--number N is missing");
        assert_eq!(of_seven(&[]), "SIDE is missing");
        assert_eq!(of_seven(&["side"]), "TEXT, --note TEXT or --remove is missing");
        for more in [&["text"][..], &["--note=a"], &["text", "--note", ""]] {
            let what = of_seven(&[&["side", "--remove"], more].concat());
            assert_eq!(what, "--remove removes both titles, so none can be set with it");
        }
        let quotes = "'more' is one word too many; a title of several words is put in quotes";
        assert_eq!(of_seven(&["side", "text", "more"]), quotes);
        assert_eq!(of_seven(&["side", "--note"]), "--note wants TEXT");
        assert_eq!(of_seven(&["side", "--note=a", "--note=a"]), "--note is there twice");
        assert_eq!(of_seven(&["-", "text"]), "the new file must have a name, and - has none");
    }

    #[test]
    fn an_option_is_no_value_of_another() {
        let out = ["add", "side", "song", "--number=7", "--limit=9", "--out", "--backup"];
        let taken_for = |name, kind, option| {
            format!("--{name} wants {kind}, and {option} is an option; if it is meant, write --{name}={option}")
        };
        assert_eq!(wrong(&out), taken_for("out", "FILE", "--backup"));
        assert_eq!(wrong(&["title", "side", "--number=7", "--note", "--json"]), taken_for("note", "TEXT", "--json"));
        assert_eq!(wrong(&["encode", "a", "b", "--align", "--json"]), taken_for("align", "N", "--json"));
        assert_eq!(wrong(&["title", "side", "--note", "--number=7"]), taken_for("note", "TEXT", "--number=7"));
        for note in ["--out", "--=", "--", "-", "--jso", "json=", "-json"] {
            assert_eq!(call(&["title", "side", "--number=7", "--note", note]).text("note"), Some(note.as_bytes()));
        }
    }

    #[test]
    fn help_is_of_all_commands_or_of_one() {
        let all = text(&["help"]);
        assert_eq!((&text(&["--help"]), &text(&["-h"])), (&all, &all));
        for command in COMMANDS {
            let one = text(&["help", command.name]);
            assert!(all.contains(&command.usage()) && one.contains(&command.usage()) && one.contains(command.more));
            assert_eq!(text(&[command.name, "--help"]), one);
            assert!(command.options.iter().all(|choice| one.contains(&choice.usage()) && one.contains(choice.about)));
        }
        assert_eq!(wrong(&["help", "sing"]), "there is no command 'sing'");
        assert_eq!(wrong(&["help", "add", "-"]), "'-' is one word too many");
        assert_eq!(
            wrong(&["encode", "a", "b", "--align", "-"]),
            "--align must be a whole number from 0 to 65535, not '-'"
        );
    }
}
