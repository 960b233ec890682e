//! The man page and the completion of bash. Both are made from the table of commands, as the help is.
use crate::call::{Command, Takes, COMMANDS, FILES, STATUS};
use std::collections::BTreeSet;
use tronalhet::Refusal;

/// Calls that are no commands of the table.
const OTHER_CALLS: [(&str, &str); 4] = [
    ("tronalhet help [COMMAND]", "Says what the commands are, or more of one, as COMMAND --help does."),
    ("tronalhet --version", "Says which version this is."),
    ("tronalhet --man", "Prints this page, for man -l."),
    ("tronalhet --completion", "Prints the completion for bash."),
];

/// Files that a volunteer may find in a folder.
const LEFT: [(&str, &str); 2] = [
    ("SIDE.1, SIDE.2, ..", "Old sides that --backup kept. None of them is ever replaced."),
    (
        ".tronalhet-*.part",
        "An unfinished file. A run that is killed may leave one; the next run that writes into its folder removes it.",
    ),
];

const EXAMPLES: [(&str, &str); 6] = [
    ("An empty side in stereo:", "tronalhet new-side side-a.wav --channels 2 --rate 44100"),
    (
        "A song is added to it; the side may have 18 minutes, and the old side is kept:",
        "tronalhet add side-a.wav song.wav --number 101 --limit 47628000 --backup",
    ),
    ("The song is given its title:", "tronalhet title side-a.wav --number 101 'Harbour Song'"),
    ("All songs of a folder are tested, their sound too:", "tronalhet check --sound *.wav"),
    ("An approval copy for a donor:", "tronalhet encode song.wav copy.wav"),
    ("The songs of a side, for a script:", "tronalhet list side-a.wav --json"),
];

const SEE_ALSO: &str = "\
.BR sox (1),
.BR pkg\\-config (1)
.PP
Programs in C can call the same library: tronalhet.h declares it, and
.B pkg\\-config \\-\\-cflags \\-\\-libs tronalhet
says how it is compiled and linked.
";

// ---- the man page

/// The man page, for man and troff.
pub fn man() -> String {
    let calls = COMMANDS.iter().map(Command::usage).chain(OTHER_CALLS.iter().map(|(call, _)| call.to_string()));
    let synopsis: String = calls.map(|call| format!(".HP\n{}\n", styled(&call))).collect();
    let others = OTHER_CALLS.iter().map(|(call, about)| entry(&styled(call), about));
    let commands: String = COMMANDS.iter().map(on_command).chain(others).collect();
    let refusals = (1..).map_while(Refusal::from_number);
    let refusals: String = refusals.map(|refusal| entry(&refusal.number().to_string(), refusal.meaning())).collect();
    let left: String = LEFT.iter().map(|(name, about)| entry(&plain(name), about)).collect();
    let example = |(what, line): &(&str, &str)| format!(".PP\n{}\n.RS\n.nf\n{}\n.fi\n.RE\n", plain(what), plain(line));
    let sections = [
        ("NAME", "tronalhet \\- WAVE files and LP sides of full size\n".into()),
        ("SYNOPSIS", synopsis),
        ("DESCRIPTION", plain(FILES)),
        ("COMMANDS", commands),
        ("EXIT STATUS", plain(STATUS)),
        ("REFUSALS", refusals),
        ("FILES", left),
        ("EXAMPLES", EXAMPLES.iter().map(example).collect()),
        ("SEE ALSO", SEE_ALSO.into()),
    ];
    let head = format!(".TH TRONALHET 1 \"\" \"tronalhet {}\"\n", env!("CARGO_PKG_VERSION"));
    sections.iter().fold(head, |page, (name, content)| format!("{page}.SH {name}\n{}\n", content.trim_end()))
}

/// A command, what it does, and its options.
fn on_command(command: &Command) -> String {
    let about = format!("{} {}", command.about, command.more);
    let options: String = command.options.iter().map(|choice| entry(&styled(&choice.usage()), choice.about)).collect();
    format!("{}.RS\n{options}.RE\n", entry(&styled(&command.usage()), about.trim_end()))
}

/// A line in front of what is said of it, which is set in.
fn entry(front: &str, about: &str) -> String {
    format!(".TP\n{front}\n{}\n", plain(about))
}

/// A call in which what is typed as it is differs from what a word stands for. No word of it is broken at a line's end.
fn styled(call: &str) -> String {
    let word = |word: &str| {
        let core = word.trim_matches(|letter| "[].".contains(letter));
        let font = if core.bytes().all(|byte| byte.is_ascii_uppercase()) { 'I' } else { 'B' };
        let styled = plain(word).replacen(&plain(core), &format!("\\f{font}{}\\fR", plain(core)), 1);
        format!("\\%{styled}")
    };
    call.split(' ').map(word).collect::<Vec<_>>().join(" ")
}

/// A text as troff shows it: no letter of it is an order, and a dash is one that can be typed again.
fn plain(text: &str) -> String {
    let line = |line: &str| {
        let line = line.replace('\\', "\\e").replace('-', "\\-").replace('\'', "\\(aq");
        if line.starts_with('.') {
            format!("\\&{line}")
        } else {
            line
        }
    };
    text.lines().map(line).collect::<Vec<_>>().join("\n")
}

// ---- the completion

/// What bash runs to complete a call, with places for what the table of commands says.
const COMPLETION: &str = r#"# The completion of tronalhet for bash, as tronalhet --completion prints it.
_tronalhet() {
    local word=${COMP_WORDS[COMP_CWORD]} before=${COMP_WORDS[COMP_CWORD - 1]} words=''
    # Here a = between an option and its value is a word of its own.
    [ "$before" = = ] && before=${COMP_WORDS[COMP_CWORD - 2]}
    case $COMP_CWORD:$before:${COMP_WORDS[1]}:$word in
        1:*) words='%commands% help --help --version' ;;
        # A number or a text, which is not to be completed.
        %typed%) ;;
        *:help:*) words='%commands%' ;;
%options%        # A file, which bash completes by itself.
        *) return ;;
    esac
    compopt +o default
    mapfile -t COMPREPLY < <(compgen -W "$words" -- "$word")
}
complete -o default -F _tronalhet tronalhet
"#;

/// The completion for bash.
pub fn completion() -> String {
    let commands: Vec<&str> = COMMANDS.iter().map(|command| command.name).collect();
    let choices = COMMANDS.iter().flat_map(|command| command.options);
    let typed = choices.filter(|choice| matches!(choice.takes, Takes::Number(..) | Takes::Text(_)));
    let typed: BTreeSet<String> = typed.map(|choice| format!("*:--{}:*", choice.name)).collect();
    let typed: Vec<String> = typed.into_iter().collect();
    let options: String = COMMANDS.iter().map(options_arm).collect();
    let filled = COMPLETION.replace("%commands%", &commands.join(" "));
    filled.replace("%typed%", &typed.join(" | ")).replace("%options%", &options)
}

/// The options of a command, for a word that begins like one.
fn options_arm(command: &Command) -> String {
    let options: String = command.options.iter().map(|choice| format!("--{} ", choice.name)).collect();
    format!("        *:{}:-*) words='{options}--help' ;;\n", command.name)
}
