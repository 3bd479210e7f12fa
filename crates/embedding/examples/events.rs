//! Answers the events of a session and prints the answers: `events SESSION`.

use std::io::Write;
use std::process::ExitCode;

mod cdc6600;

/// Returns the answers to a session, the fault line if there is one, and the exit status.
fn events(session: &[u8], budget: u64) -> (Vec<u8>, Vec<u8>, u8) {
    let (mut answers, mut line) = (vec![0; 100], vec![0; 64]);
    loop {
        // SAFETY: the pointers and lengths are those of slices, which are borrowed for the call and don't overlap.
        let outcome = unsafe {
            cdc6600::cdc6600_events(
                session.as_ptr(),
                session.len(),
                budget,
                answers.as_mut_ptr(),
                answers.len(),
                line.as_mut_ptr(),
                line.len(),
            )
        };
        let is_whole = outcome.printed <= answers.len();
        answers.resize(outcome.printed, 0);
        if is_whole {
            line.truncate(outcome.told);
            return (answers, line, outcome.status);
        }
    }
}

fn main() -> ExitCode {
    let name = match std::env::args().nth(1) {
        Some(name) => name,
        None => {
            eprintln!("usage: events SESSION");
            return ExitCode::from(2);
        }
    };
    let session = match std::fs::read(&name) {
        Ok(session) => session,
        Err(error) => {
            eprintln!("{name}: {error}");
            return ExitCode::from(7);
        }
    };
    let (answers, line, status) = events(&session, 1_000_000);
    let is_written = std::io::stdout().write_all(&answers).is_ok();
    let _ = std::io::stderr().write_all(&line);
    ExitCode::from(if is_written { status } else { 7 })
}
