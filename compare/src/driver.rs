//! The driver: a child process that is linked with the proved library.

use crate::answer::Answer;
use std::io::{self, BufReader, Read, Write};
use std::process::{Child, ChildStdin, ChildStdout, Command, Stdio};
use std::sync::mpsc::{sync_channel, Receiver, SyncSender};
use std::thread::JoinHandle;

/// As many sends may be unanswered at one time; one more might wait for ever.
pub const MOST_UNANSWERED: usize = 2;
/// The buffer that is lent for a listing.
pub const LISTING_ROOM: usize = 4_096;

pub struct Driver {
    child: Child,
    requests: SyncSender<Vec<u8>>,
    /// Writes while this thread reads, so that no pipe fills up on both sides.
    writer: JoinHandle<io::Result<()>>,
    answers: BufReader<ChildStdout>,
}

fn write_all(mut to: ChildStdin, requests: Receiver<Vec<u8>>) -> io::Result<()> {
    requests.iter().try_for_each(|bytes| to.write_all(&bytes))
}

impl Driver {
    pub fn start(command: &[String]) -> Result<Driver, String> {
        let failed = |why| format!("cannot start the driver '{}': {why}", command[0]);
        let mut child = Command::new(&command[0])
            .args(&command[1..])
            .stdin(Stdio::piped())
            .stdout(Stdio::piped())
            .spawn()
            .map_err(failed)?;
        let (input, answers) = (child.stdin.take(), child.stdout.take());
        let (Some(input), Some(answers)) = (input, answers) else {
            return Err("the driver has no pipes".into());
        };
        let (requests, received) = sync_channel(MOST_UNANSWERED);
        Ok(Driver {
            child,
            requests,
            writer: std::thread::spawn(move || write_all(input, received)),
            answers: BufReader::new(answers),
        })
    }

    /// Sends requests. A driver that is gone is told of by `receive`.
    pub fn send(&mut self, requests: Vec<u8>) {
        let _ = self.requests.send(requests);
    }

    /// The answer to a request.
    pub fn receive(&mut self) -> Result<Answer, String> {
        self.receive_number().map(Answer)
    }

    fn receive_number(&mut self) -> Result<u64, String> {
        let mut word = [0; 8];
        let read = self.answers.read_exact(&mut word);
        read.map_err(|_| self.ended())?;
        Ok(u64::from_le_bytes(word))
    }

    /// So many bytes that follow an answer.
    pub fn receive_bytes(&mut self, count: usize) -> Result<Vec<u8>, String> {
        let mut bytes = vec![0; count];
        let read = self.answers.read_exact(&mut bytes);
        read.map_err(|_| self.ended())?;
        Ok(bytes)
    }

    /// The front of a text's buffer, so large, as far as a byte of it is altered: its length goes before it.
    pub fn receive_altered(&mut self, room: usize) -> Result<Vec<u8>, String> {
        let count = self.receive_number()?;
        match usize::try_from(count) {
            Ok(count) if count <= room => self.receive_bytes(count),
            _ => Err(format!("the driver tells of {count} bytes of a text")),
        }
    }

    fn ended(&mut self) -> String {
        match self.child.wait() {
            Ok(status) => format!("the driver ended before it had answered: {status}"),
            Err(why) => format!("the driver is lost: {why}"),
        }
    }

    /// Ends the input; the driver must have nothing more to say and end well.
    pub fn finish(mut self) -> Result<(), String> {
        drop(self.requests);
        if !matches!(self.writer.join(), Ok(Ok(()))) {
            return Err("the driver did not take all requests".into());
        }
        let mut more = Vec::new();
        let read = self.answers.read_to_end(&mut more);
        match (read, self.child.wait()) {
            (Ok(0), Ok(status)) if status.success() => Ok(()),
            (Ok(0), Ok(status)) => Err(format!("the driver ended badly: {status}")),
            _ => Err("the driver gave answers that nobody asked for".into()),
        }
    }
}
