//! A program under test: a child process that answers lines from its standard input on its standard output.

use std::io::{Read, Write};
use std::path::PathBuf;
use std::process::{Child, Command, Stdio};
use std::sync::mpsc::{channel, Receiver};
use std::thread;
use std::time::Duration;

#[derive(Clone, Debug)]
pub struct Program {
    pub path: PathBuf,
    pub arguments: Vec<String>,
}

/// What a program answered, and what went wrong beside its answers.
#[derive(Clone, Debug, Default)]
pub struct Answers {
    pub lines: Vec<String>,
    pub trouble: Option<String>,
}

/// A program at work.
pub struct Running {
    child: Child,
    output: Receiver<Vec<u8>>,
}

impl Program {
    /// Starts the program on an input. Writing and reading go on by themselves.
    pub fn start(&self, input: Vec<u8>) -> Result<Running, String> {
        let mut child = Command::new(&self.path)
            .args(&self.arguments)
            .stdin(Stdio::piped())
            .stdout(Stdio::piped())
            .spawn()
            .map_err(|error| format!("{} can't be started: {error}", self.path.display()))?;
        if let Some(mut stdin) = child.stdin.take() {
            // A program that ends early closes its input; what it failed to answer is found later.
            thread::spawn(move || {
                let _ = stdin.write_all(&input);
            });
        }
        let (sender, output) = channel();
        if let Some(mut stdout) = child.stdout.take() {
            thread::spawn(move || {
                let mut bytes = Vec::new();
                let _ = stdout.read_to_end(&mut bytes);
                let _ = sender.send(bytes);
            });
        }
        Ok(Running { child, output })
    }

    pub fn answers(&self, input: Vec<u8>, limit: Duration) -> Result<Answers, String> {
        Ok(self.start(input)?.finish(limit))
    }
}

impl Running {
    /// Waits for the end of the program, at most so long.
    pub fn finish(mut self, limit: Duration) -> Answers {
        let Ok(bytes) = self.output.recv_timeout(limit) else {
            let _ = self.child.kill();
            let _ = self.child.wait();
            return Answers { lines: Vec::new(), trouble: Some(format!("no end after {} s", limit.as_secs())) };
        };
        let mut trouble = match self.child.wait() {
            Ok(status) if status.success() => None,
            Ok(status) => Some(format!("it ended with {status}")),
            Err(error) => Some(format!("it can't be waited for: {error}")),
        };
        let text = String::from_utf8_lossy(&bytes);
        let mut lines: Vec<String> = text.split('\n').map(str::to_string).collect();
        if lines.pop().is_some_and(|rest| !rest.is_empty()) {
            trouble.get_or_insert("its last answer has no newline".to_string());
        }
        Answers { lines, trouble }
    }
}
