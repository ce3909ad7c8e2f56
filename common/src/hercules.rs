//! Talking to Hercules, which has no screen here: commands go to its standard input, messages come from its standard output.

use crate::bounded::{self, Bounded};
use std::fs;
use std::io::{BufRead, BufReader, Write};
use std::path::Path;
use std::process::{ChildStdin, ChildStdout, Stdio};
use std::sync::mpsc::{channel, Receiver};
use std::thread;
use std::time::{Duration, Instant};

/// Its processor is left at the priority of other programs: at its own, it would hardly get on beside them.
const CONFIGURATION: &str = "CPUSERIAL 000001
CPUMODEL 3033
MAINSIZE 16
NUMCPU 1
CPUPRIO 0
ARCHMODE S/370
OSTAILOR QUIET
000E 1403 /dev/null
";

const PATIENCE: Duration = Duration::from_secs(120);
const VERSION: &str = "Hercules Version ";
const LOADED: &str = "HHCPN113I";
const WAITS: &str = "HHCCP011I";
const SAVED: &str = "HHCPN170I";
const UNKNOWN: &str = "HHCPN139E";
/// What its threads say when they start, in any order; the last, of the file that is not there.
const STARTED: [&str; 4] = ["HHCCP003I", "HHCTT002I", "HHCAO001I", "HHCPN995E"];

struct Talk {
    process: Bounded,
    input: ChildStdin,
    messages: Receiver<String>,
    version: String,
}

fn listen(output: ChildStdout) -> Receiver<String> {
    let (sender, messages) = channel();
    thread::spawn(move || {
        for line in BufReader::new(output).split(b'\n').map_while(Result::ok) {
            let line = String::from_utf8_lossy(&line).into_owned();
            if sender.send(line).is_err() {
                break;
            }
        }
    });
    messages
}

fn begin(folder: &Path) -> Result<Talk, String> {
    let configuration = folder.join("hercules.cnf");
    fs::write(&configuration, CONFIGURATION).map_err(|error| error.to_string())?;
    let mut command = bounded::command();
    command
        .args(["hercules", "-d", "-f"])
        .arg(&configuration)
        .arg("EXTERNALGUI")
        .env("HERCULES_RC", folder.join("no-such-file"))
        .stdin(Stdio::piped())
        .stdout(Stdio::piped())
        .stderr(Stdio::null());
    let mut process = bounded::start(command)?;
    let pipes = (process.child.stdin.take(), process.child.stdout.take());
    let (Some(input), Some(output)) = pipes else {
        return Err("no pipes to Hercules".to_string());
    };
    Ok(Talk {
        process,
        input,
        messages: listen(output),
        version: String::new(),
    })
}

impl Talk {
    fn say(&mut self, command: &str) -> Result<(), String> {
        writeln!(self.input, "{command}")
            .and_then(|()| self.input.flush())
            .map_err(|error| format!("Hercules takes no command: {error}"))
    }

    /// Waits for a message with one of these parts, and answers which.
    fn hear(&mut self, parts: &[&str]) -> Result<usize, String> {
        self.hear_all(parts).map(|(_, which)| which)
    }

    /// The same, with the messages that came before it.
    fn hear_all(&mut self, parts: &[&str]) -> Result<(Vec<String>, usize), String> {
        let end = Instant::now() + PATIENCE;
        let mut before = Vec::new();
        loop {
            let left = end.saturating_duration_since(Instant::now());
            let message = self
                .messages
                .recv_timeout(left)
                .map_err(|_| format!("Hercules did not say {}", parts.join(" or ")))?;
            if let Some(version) = message.strip_prefix(VERSION) {
                self.version = version.to_string();
            }
            if let Some(which) = parts.iter().position(|part| message.contains(part)) {
                return Ok((before, which));
            }
            before.push(message);
        }
    }

    /// Waits until a message with each of these parts has come.
    fn hear_each(&mut self, parts: &[&str]) -> Result<(), String> {
        let mut left = parts.to_vec();
        while !left.is_empty() {
            let which = self.hear(&left)?;
            left.remove(which);
        }
        Ok(())
    }

    /// A command for a stopped processor, given again until the processor has stopped and `done` is heard.
    fn ask(&mut self, command: &str, done: &str) -> Result<(), String> {
        let end = Instant::now() + PATIENCE;
        while Instant::now() < end {
            self.say(command)?;
            if self.hear(&[done, "CPU not stopped"])? == 0 {
                return Ok(());
            }
            thread::sleep(Duration::from_millis(10));
        }
        Err(format!("Hercules does not stop for {command}"))
    }
}

/// What Hercules left.
pub struct Ended {
    pub storage: Vec<u8>,
    /// Hercules' version, as it says.
    pub version: String,
}

/// Loads storage at location 0, restarts, and waits for the disabled wait at the end; answers what as much storage holds then.
pub fn run(folder: &Path, storage: &[u8]) -> Result<Ended, String> {
    let (before, after) = (folder.join("core"), folder.join("core-after"));
    // Hercules saves to no file that is there already.
    let _ = fs::remove_file(&after);
    fs::write(&before, storage).map_err(|error| error.to_string())?;
    let mut talk = begin(folder)?;
    talk.ask(&format!("loadcore {} 0", before.display()), LOADED)?;
    talk.say("restart")?;
    talk.hear(&[WAITS])?;
    let last = storage.len() - 1;
    talk.ask(&format!("savecore {} 0 {last:X}", after.display()), SAVED)?;
    talk.say("quit")?;
    talk.process.wait(PATIENCE)?;
    let held = fs::read(&after).map_err(|error| error.to_string())?;
    if held.len() != storage.len() {
        return Err(format!("Hercules saved {} bytes", held.len()));
    }
    Ok(Ended {
        storage: held,
        version: talk.version,
    })
}

/// Loads pieces of code from an address on, and answers what the command `u` writes of each, and Hercules' version. It writes no more
/// than 999 lines at a time: a piece has to be shorter.
pub fn unassemble(
    folder: &Path,
    at: u32,
    pieces: &[Vec<u8>],
) -> Result<(Vec<String>, String), String> {
    let file = folder.join("code");
    fs::write(&file, pieces.concat()).map_err(|error| error.to_string())?;
    let mut talk = begin(folder)?;
    // What another thread says would stand in the midst of a line.
    talk.hear_each(&STARTED)?;
    talk.ask(&format!("loadcore {} {at:X}", file.display()), LOADED)?;
    let mut from = at as usize;
    for piece in pieces {
        talk.say(&format!("u {from:X}.{:X}", piece.len()))?;
        from += piece.len();
    }
    // Refused after the last line of the last answer.
    talk.say("no-such-command")?;
    let (lines, _) = talk.hear_all(&[UNKNOWN])?;
    talk.say("quit")?;
    talk.process.wait(PATIENCE)?;
    Ok((lines, talk.version))
}

/// Addresses keep 24 bits.
const ADDRESS: u32 = 0x00FF_FFFF;

/// What the old PSW of an interruption tells (S/370, basic control mode).
#[derive(Debug, PartialEq, Eq)]
pub struct OldPsw {
    /// The interruption's number.
    pub number: u16,
    pub code: u8,
    pub mask: u8,
    /// Where the counter stood.
    pub address: u32,
    /// Where the instruction began: before `address`, by as many halfwords as the PSW's length code says.
    pub place: u32,
}

impl OldPsw {
    pub fn read(bytes: [u8; 8]) -> OldPsw {
        let [_, _, high, low, scalars, a, b, c] = bytes;
        let address = u32::from_be_bytes([0, a, b, c]);
        OldPsw {
            number: u16::from_be_bytes([high, low]),
            code: scalars >> 4 & 3,
            mask: scalars & 15,
            address,
            place: address.wrapping_sub(2 * u32::from(scalars >> 6)) & ADDRESS,
        }
    }
}

#[cfg(test)]
mod tests {
    use super::OldPsw;

    #[test]
    fn an_old_psw() {
        let wanted = OldPsw {
            number: 6,
            code: 1,
            mask: 9,
            address: 2,
            place: 0xFF_FFFE,
        };
        assert_eq!(OldPsw::read([0, 1, 0, 6, 0x99, 0, 0, 2]), wanted);
    }
}
