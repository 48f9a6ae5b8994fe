//! A program of the first, started with an input on its standard input.

use std::ffi::OsString;
use std::io::{ErrorKind, Read, Write};
use std::process::{ChildStdin, Command, Stdio};
use std::time::Duration;

/// A program of the first, and what it is started with.
pub struct Program {
    path: OsString,
    runner: String,
}

impl Program {
    /// From the variable of this name, or nothing after a word on it. What it is to be
    /// started with, if it needs that, is in NILOFERQ_RUNNER, split at spaces.
    pub fn named(name: &str) -> Option<Self> {
        let name = format!("NILOFERQ_{name}");
        let path = std::env::var_os(&name);
        if path.is_none() {
            eprintln!("the path of a program is to be named in {name}");
        }
        let runner = std::env::var("NILOFERQ_RUNNER").unwrap_or_default();
        path.map(|path| Program { path, runner })
    }

    fn command(&self) -> Command {
        let mut words = self.runner.split(' ').filter(|word| !word.is_empty());
        match words.next() {
            None => Command::new(&self.path),
            Some(first) => {
                let mut command = Command::new(first);
                command.args(words).arg(&self.path);
                command
            }
        }
    }

    /// The whole standard output, or why there is none. The exit status must not be a
    /// signal; its value is left to others, since the papers leave it to the commands.
    pub fn output(&self, bytes: &[u8], in_pieces: bool) -> Result<Vec<u8>, String> {
        match self.run(bytes, in_pieces) {
            Err(error) => Err(format!("the program could not be run: {error}")),
            Ok((_, None)) => Err("the program was stopped by a signal".to_string()),
            Ok((found, Some(_))) => Ok(found),
        }
    }

    fn run(&self, bytes: &[u8], in_pieces: bool) -> std::io::Result<(Vec<u8>, Option<i32>)> {
        let mut child = self
            .command()
            .stdin(Stdio::piped())
            .stdout(Stdio::piped())
            .stderr(Stdio::null())
            .spawn()?;
        // No output is longer than a pipe, so the program never waits for us.
        let sent = match child.stdin.take() {
            Some(stdin) => send(stdin, bytes, in_pieces),
            None => Ok(()),
        };
        let mut found = Vec::new();
        if let Some(mut stdout) = child.stdout.take() {
            stdout.read_to_end(&mut found)?;
        }
        let status = child.wait()?;
        sent?;
        Ok((found, status.code()))
    }
}

/// A program that takes only the front may close its input early.
fn send(mut stdin: ChildStdin, bytes: &[u8], in_pieces: bool) -> std::io::Result<()> {
    let piece = if in_pieces {
        bytes.len() / 3 + 1
    } else {
        bytes.len().max(1)
    };
    for (turn, piece) in bytes.chunks(piece).enumerate() {
        if turn > 0 {
            std::thread::sleep(Duration::from_millis(4));
        }
        match stdin.write_all(piece) {
            Err(error) if error.kind() == ErrorKind::BrokenPipe => return Ok(()),
            sent => sent?,
        }
    }
    Ok(())
}
