//! Makes files of cases and asks them again; see README.md.

use oracle::cases::{Call, ask, make, make_filtered};
use std::io::{Read, Write};
use std::process::ExitCode;

const USAGE: &str = "usage: oracle cases CALL --seed S --count N [--filter F] > FILE
       oracle ask CALL < FILE";

fn main() -> ExitCode {
    let words: Vec<String> = std::env::args().skip(1).collect();
    let words: Vec<&str> = words.iter().map(String::as_str).collect();
    let done = match words.as_slice() {
        ["cases", call, "--seed", seed, "--count", count, filter @ ..] => {
            write_cases(call, seed, count, filter)
        }
        ["ask", call] => ask_again(call),
        _ => Err(USAGE.to_string()),
    };
    match done {
        Ok(code) => code,
        Err(why) => {
            eprintln!("{why}");
            ExitCode::from(2)
        }
    }
}

fn write_cases(call: &str, seed: &str, count: &str, filter: &[&str]) -> Result<ExitCode, String> {
    let call = named(call)?;
    let seed = seed.parse().map_err(|_| format!("{seed} is no seed"))?;
    let count = count.parse().map_err(|_| format!("{count} is no count"))?;
    let file = match filter {
        [] => make(call, seed, count),
        ["--filter", f] => {
            let f = f.parse().map_err(|_| format!("{f} is no filter"))?;
            let made = make_filtered(call, seed, count, f);
            made.ok_or_else(|| format!("{} takes no filter\n{USAGE}", call.name()))?
        }
        _ => return Err(USAGE.to_string()),
    };
    let written = std::io::stdout().write_all(&file);
    written.map_err(|why| why.to_string())?;
    Ok(ExitCode::SUCCESS)
}

fn ask_again(call: &str) -> Result<ExitCode, String> {
    let mut file = Vec::new();
    let read = std::io::stdin().read_to_end(&mut file);
    read.map_err(|why| why.to_string())?;
    let asked = ask(named(call)?, &file)?;
    println!("{} cases, {} differences", asked.cases, asked.differences);
    Ok(ExitCode::from(u8::from(asked.differences > 0)))
}

fn named(call: &str) -> Result<Call, String> {
    let names = Call::ALL.map(Call::name).join(", ");
    Call::named(call).ok_or_else(|| format!("{call} is none of {names}"))
}
