//! The command `tronalhet`: WAVE files of full size, listed, checked, decoded, copied and added to sides.
use std::io::Write;
use std::process::ExitCode;

mod answer;
mod call;
mod commands;
mod pages;
mod reading;
mod shown;
mod stop;
mod system;
mod writing;

/// The name that this speaks under, by whatever name it was called.
const NAME: &str = "tronalhet";

/// A wrong call, and an I/O error, as `sysexits.h` has them.
const USAGE: u8 = 64;
const TROUBLE: u8 = 74;

fn main() -> ExitCode {
    system::size_limit_is_an_error();
    if system::output_is_closed() {
        eprint("standard output is closed; nothing was done");
        return ExitCode::from(TROUBLE);
    }
    let status = match call::asked(std::env::args_os().skip(1).collect()) {
        Ok(call::Asked::Text(text)) => shown::print(&text),
        Ok(call::Asked::Run(call)) => commands::run(&call),
        Err(wrong) => {
            eprint(&wrong.what);
            eprint_after("usage", &wrong.usage);
            USAGE
        }
    };
    ExitCode::from(status)
}

/// A line on standard error; where that cannot be written, it can be reported nowhere.
fn eprint_after(word: &str, line: &str) {
    // At once, so that the lines of two runs do not mix.
    let _ = std::io::stderr().write_all(format!("{word}: {line}\n").as_bytes());
}

/// The same under the command's own name.
fn eprint(line: &str) {
    eprint_after(NAME, line);
}
