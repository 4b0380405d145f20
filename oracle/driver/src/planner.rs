//! The planner program under test: a process that reads lines and writes lines.

use std::io::{self, Read, Write};
use std::path::Path;
use std::process::{Child, Command, ExitStatus, Stdio};
use std::sync::mpsc::{Sender, channel};
use std::thread::{JoinHandle, spawn};

/// A running planner. Input and output have a thread each, so that neither side waits for the
/// other whatever the planner buffers.
pub struct Planner {
    child: Child,
    input: Sender<Vec<u8>>,
    writer: JoinHandle<()>,
    reader: JoinHandle<io::Result<Vec<u8>>>,
}

pub struct Output {
    pub bytes: Vec<u8>,
    pub status: ExitStatus,
}

impl Planner {
    pub fn start(program: &Path) -> io::Result<Self> {
        let mut child = Command::new(program)
            .stdin(Stdio::piped())
            .stdout(Stdio::piped())
            .spawn()?;
        let mut stdin = child.stdin.take().expect("stdin is a pipe");
        let mut stdout = child.stdout.take().expect("stdout is a pipe");
        let (input, batches) = channel::<Vec<u8>>();
        let writer = spawn(move || {
            for batch in batches {
                // A planner that ended early shows in its missing lines.
                if stdin.write_all(&batch).is_err() {
                    break;
                }
            }
        });
        let reader = spawn(move || {
            let mut bytes = Vec::new();
            stdout.read_to_end(&mut bytes)?;
            Ok(bytes)
        });
        Ok(Planner {
            child,
            input,
            writer,
            reader,
        })
    }

    pub fn send(&self, batch: Vec<u8>) {
        // The writer is gone only if the planner is.
        let _ = self.input.send(batch);
    }

    /// Closes the input and waits for all that is written.
    pub fn finish(mut self) -> io::Result<Output> {
        drop(self.input);
        self.writer.join().expect("the writer does not panic");
        let bytes = self.reader.join().expect("the reader does not panic")?;
        let status = self.child.wait()?;
        Ok(Output { bytes, status })
    }
}

impl Output {
    /// The lines; a last one without a line feed is kept with a mark, since it is wrong.
    pub fn lines(&self) -> Vec<Vec<u8>> {
        let mut lines: Vec<Vec<u8>> = self.bytes.split(|b| *b == b'\n').map(Vec::from).collect();
        if let Some(last) = lines.pop()
            && !last.is_empty()
        {
            lines.push([&last[..], b" without a line feed"].concat());
        }
        lines
    }
}
