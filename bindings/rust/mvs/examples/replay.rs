//! Runs the script on standard input line by line, and prints what mvsjob prints. The exit status is that of the job.
use mvs::{Error, Place, Session};
use std::error::Error as AnyError;
use std::io::{self, Read, Write};
use std::process::ExitCode;

fn main() -> Result<ExitCode, Box<dyn AnyError>> {
    let mut script = Vec::new();
    io::stdin().read_to_end(&mut script)?;
    let mut out = io::stdout().lock();
    let mut session = Session::new()?;
    let mut printed = 0;
    for line in script.split_inclusive(|byte| *byte == b'\n') {
        match session.bytes(line.strip_suffix(b"\n").unwrap_or(line)) {
            Ok(_) => {}
            // The session goes on after a fault, and the job of a script ends: its last lines are those of a whole run.
            Err(Error::Fault(_)) => {
                let (status, text) = mvs::run(&script, Place::Low)?;
                out.write_all(&text[printed..])?;
                return Ok(ExitCode::from(status.number() as u8));
            }
            Err(error) => return Err(error.into()),
        }
        let text = session.text()?;
        out.write_all(&text)?;
        printed += text.len();
    }
    let (status, _) = session.end()?;
    out.write_all(&session.text()?)?;
    Ok(ExitCode::from(status.number() as u8))
}
