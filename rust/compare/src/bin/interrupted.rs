//! Runs a program whose reads of standard input are interrupted: `interrupted
//! PROGRAM`.  What stands on standard input is handed on to the program, half by
//! half, and before each half and the end it is stopped in its read and continued.
//! Its input is a socket with a time limit on reads, of which Linux ends a read with
//! EINTR then, even where the program has no handler for the signal.

#![deny(warnings)]

use std::io::{Read, Write};
use std::net::Shutdown;
use std::os::fd::OwnedFd;
use std::os::unix::net::UnixStream;
use std::process::{Child, Command, ExitCode, Stdio};
use std::thread::sleep;
use std::time::{Duration, Instant};

/// No read is as long as this.
const LIMIT: Duration = Duration::from_secs(600);

/// As /proc has it: S asleep, as in a read, T stopped, Z ended.
fn state(program: &Child) -> Result<char, String> {
    let stat = std::fs::read_to_string(format!("/proc/{}/stat", program.id()))
        .map_err(|error| format!("no state: {error}"))?;
    let (_, behind_the_name) = stat.rsplit_once(')').ok_or("no state")?;
    behind_the_name.trim_start().chars().next().ok_or("no state".to_string())
}

/// Waits until the program is in this state, or has ended: whether it goes on.
fn wait_for(program: &Child, wanted: char) -> Result<bool, String> {
    let start = Instant::now();
    while start.elapsed() < Duration::from_secs(60) {
        match state(program)? {
            'Z' => return Ok(false),
            seen if seen == wanted => return Ok(true),
            _ => sleep(Duration::from_millis(1)),
        }
    }
    Err(format!("the program is not in state {wanted}"))
}

fn send(signal: &str, program: &Child) -> Result<(), String> {
    let kill = format!("kill {signal} {}", program.id());
    match Command::new("sh").args(["-c", &kill]).status() {
        Ok(status) if status.success() => Ok(()),
        _ => Err(format!("kill {signal} failed")),
    }
}

/// Stops the program in its read and continues it, if it has not ended.
fn interrupt(program: &Child) -> Result<(), String> {
    if wait_for(program, 'S')? {
        send("-STOP", program)?;
        if wait_for(program, 'T')? {
            send("-CONT", program)?;
        }
    }
    Ok(())
}

fn run(name: &str, input: &[u8]) -> Result<(), String> {
    let (mut ours, theirs) = UnixStream::pair().map_err(|error| error.to_string())?;
    theirs.set_read_timeout(Some(LIMIT)).map_err(|error| error.to_string())?;
    let mut program = Command::new(name)
        .stdin(Stdio::from(OwnedFd::from(theirs)))
        .spawn()
        .map_err(|error| format!("{name}: {error}"))?;
    let (first, second) = input.split_at(input.len() / 2);
    for half in [first, second] {
        interrupt(&program)?;
        // A program that has ended takes no more.
        let _ = ours.write_all(half);
    }
    interrupt(&program)?;
    let _ = ours.shutdown(Shutdown::Write);
    program.wait().map_err(|error| error.to_string())?;
    Ok(())
}

fn main() -> ExitCode {
    let Some(name) = std::env::args().nth(1) else {
        eprintln!("use: interrupted PROGRAM");
        return ExitCode::FAILURE;
    };
    let mut input = Vec::new();
    let read = std::io::stdin().read_to_end(&mut input).map_err(|error| error.to_string());
    match read.and_then(|_| run(&name, &input)) {
        Ok(()) => ExitCode::SUCCESS,
        Err(what) => {
            eprintln!("interrupted: {what}");
            ExitCode::FAILURE
        }
    }
}
