//! Other programs, started so that none outlives this one: each dies with its parent, is ended when its handle goes, and has a time
//! limit.

use std::fs::File;
use std::path::Path;
use std::process::{Child, Command, ExitStatus, Stdio};
use std::thread;
use std::time::{Duration, Instant};

pub struct Bounded {
    pub child: Child,
}

impl Drop for Bounded {
    fn drop(&mut self) {
        // It may be gone already; then there is nothing to end.
        let _ = self.child.kill();
        let _ = self.child.wait();
    }
}

/// A command, still without its words, that the system kills when its parent dies.
pub fn command() -> Command {
    let mut command = Command::new("setpriv");
    command.args(["--pdeathsig", "KILL", "--"]);
    command
}

pub fn start(mut command: Command) -> Result<Bounded, String> {
    let child = command
        .spawn()
        .map_err(|error| format!("setpriv does not start: {error}"))?;
    Ok(Bounded { child })
}

impl Bounded {
    pub fn wait(&mut self, limit: Duration) -> Result<ExitStatus, String> {
        let began = Instant::now();
        while began.elapsed() < limit {
            if let Some(status) = self.child.try_wait().map_err(|error| error.to_string())? {
                return Ok(status);
            }
            thread::sleep(Duration::from_millis(2));
        }
        Err(format!("no end after {} seconds", limit.as_secs()))
    }
}

/// Runs a command from one file to another.
pub fn filter(mut command: Command, from: &Path, to: &Path, limit: Duration) -> Result<(), String> {
    let input = File::open(from).map_err(|error| error.to_string())?;
    let output = File::create(to).map_err(|error| error.to_string())?;
    command
        .stdin(Stdio::from(input))
        .stdout(Stdio::from(output));
    let status = start(command)?.wait(limit)?;
    if status.success() {
        Ok(())
    } else {
        Err(status.to_string())
    }
}
