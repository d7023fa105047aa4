//! Scripts by the Rust wrapper: each pair of files (a script, and the answers to it) as a whole and line by
//! line, as scripts.c does it from C. A script that is no text is passed over. Not proved.
use numaplan::{Refused, Script};
use std::{env, fs, process};

/// The answers to a script that is given line by line.
fn by_lines(text: &str) -> Result<Vec<u8>, Refused> {
    let mut script = Script::open()?;
    let mut answers = Vec::new();
    for line in text.split('\n') {
        answers.extend(script.line(line)?);
    }
    Ok(answers)
}

fn main() -> Result<(), Refused> {
    let files: Vec<String> = env::args().skip(1).collect();
    let (mut wrong, mut played) = (0, 0);
    for pair in files.chunks(2) {
        let Ok(text) = fs::read_to_string(&pair[0]) else {
            continue;
        };
        let said = fs::read(&pair[1]).expect("the answers");
        played += 1;
        for (how, answers) in [
            ("whole", Script::run(&text)?.into_bytes()),
            ("by lines", by_lines(&text)?),
        ] {
            if answers != said {
                println!("{}, {how}, is answered otherwise", pair[0]);
                wrong += 1;
            }
        }
    }
    if wrong > 0 || played < files.len() / 4 {
        println!("{played} of {} scripts are text", files.len() / 2);
        process::exit(1);
    }
    Ok(())
}
