//! The program `tape`, given a tape in pieces.
use std::ffi::c_ulong;
use std::io::{self, ErrorKind, Read, Write};
use std::os::fd::AsRawFd;
use std::process::{Child, ChildStdin, Command, Stdio};
use std::sync::mpsc::{channel, Receiver, RecvTimeoutError, Sender};
use std::thread;
use std::time::{Duration, Instant};

/// A program that neither reads nor writes for so long is taken to hang. It is waited for twice: for its lines, and for its end.
const PATIENCE: Duration = Duration::from_secs(10);
/// Room in the pipe, more than a pipe has by itself; as many bytes are written at a time.
const PIPE_BYTES: usize = 1 << 20;
const F_SETPIPE_SZ: i32 = 1031;
const FIONREAD: c_ulong = 0x541B;

extern "C" {
    fn fcntl(fd: i32, command: i32, ...) -> i32;
    fn ioctl(fd: i32, request: c_ulong, ...) -> i32;
}

/// A tape with the pieces in which its bytes come, the text that is expected, and how many bytes of it are due when all of the
/// tape came and more could come.
pub struct Given<'a> {
    pub tape: &'a [u8],
    pub pieces: &'a [usize],
    pub text: &'a str,
    pub due: usize,
}

/// What the program printed, and whether all that was due came before its input's end.
pub struct Printed {
    pub text: String,
    pub in_time: bool,
}

/// What the program writes to standard output, and to standard error.
enum Wrote {
    Text(Vec<u8>),
    Message(Vec<u8>),
}

/// What came of waiting for it.
#[derive(PartialEq, Eq)]
enum Took {
    Some,
    End,
    Late,
}

struct Playing {
    child: Child,
    wrote: Receiver<Wrote>,
    text: Vec<u8>,
    messages: Vec<u8>,
}

/// Plays a tape; the program must end with 0, and have nothing to say on standard error.
pub fn play(program: &str, given: &Given) -> Result<Printed, String> {
    let mut playing = start(program).map_err(|e| format!("{program} does not start: {e}"))?;
    let printed = playing.play(given);
    if printed.is_err() {
        playing.child.kill().map_err(|e| format!("the program cannot be ended: {e}"))?;
    }
    let status = playing.child.wait().map_err(|e| format!("the program cannot be waited for: {e}"))?;
    let messages = String::from_utf8_lossy(&playing.messages);
    match printed {
        Ok(_) if !messages.is_empty() => Err(format!("the program writes to standard error: {messages:?}")),
        Ok(_) if !status.success() => Err(format!("the program ends with {status}")),
        printed => printed,
    }
}

fn start(program: &str) -> io::Result<Playing> {
    let mut child = Command::new(program).stdin(Stdio::piped()).stdout(Stdio::piped()).stderr(Stdio::piped()).spawn()?;
    let (sender, wrote) = channel();
    pass_on(child.stdout.take().expect("a pipe"), Wrote::Text, sender.clone());
    pass_on(child.stderr.take().expect("a pipe"), Wrote::Message, sender);
    Ok(Playing { child, wrote, text: Vec::new(), messages: Vec::new() })
}

/// Passes on what comes out of a pipe, as it comes.
fn pass_on(mut pipe: impl Read + Send + 'static, wrote: fn(Vec<u8>) -> Wrote, sender: Sender<Wrote>) {
    thread::spawn(move || {
        let mut block = vec![0; 65_536];
        while let Ok(got @ 1..) = pipe.read(&mut block) {
            if sender.send(wrote(block[..got].to_vec())).is_err() {
                break;
            }
        }
    });
}

/// Did a call to the system do what it was to do?
fn done(answer: i32, what: &str) -> Result<(), String> {
    if answer < 0 {
        return Err(format!("{what} fails: {}", io::Error::last_os_error()));
    }
    Ok(())
}

impl Playing {
    fn input(&self) -> &ChildStdin {
        self.child.stdin.as_ref().expect("a pipe")
    }

    fn play(&mut self, given: &Given) -> Result<Printed, String> {
        self.make_room()?;
        let mut rest = given.tape;
        for len in given.pieces {
            let (piece, behind) = rest.split_at(*len);
            rest = behind;
            if !self.give(piece)? {
                break;
            }
        }
        let expected = given.text.as_bytes();
        while self.text.len() < given.due && expected.starts_with(&self.text) && self.take() == Took::Some {}
        let in_time = self.text.len() >= given.due;
        self.child.stdin = None;
        loop {
            match self.take() {
                Took::Some => (),
                Took::End => break,
                Took::Late => return Err(format!("the program does not end; it printed {} bytes", self.text.len())),
            }
        }
        let text = String::from_utf8_lossy(&self.text).into_owned();
        Ok(Printed { text, in_time })
    }

    fn make_room(&self) -> Result<(), String> {
        let answer = unsafe { fcntl(self.input().as_raw_fd(), F_SETPIPE_SZ, PIPE_BYTES as i32) };
        done(answer, &format!("making room for {PIPE_BYTES} bytes in the program's pipe"))
    }

    /// Writes a piece, no more at a time than there is room for, and waits each time until all of it was read: so the next one is
    /// another read. Does the program read on?
    fn give(&mut self, piece: &[u8]) -> Result<bool, String> {
        for part in piece.chunks(PIPE_BYTES) {
            match self.input().write_all(part) {
                Err(e) if e.kind() == ErrorKind::BrokenPipe => return Ok(false),
                written => written.map_err(|e| format!("the program cannot be written to: {e}"))?,
            }
            if !self.reads_all()? {
                return Ok(false);
            }
        }
        Ok(true)
    }

    /// Waits until all was read that was written. Was it, before the program ended?
    fn reads_all(&mut self) -> Result<bool, String> {
        let begun = Instant::now();
        while self.unread()? > 0 {
            if self.child.try_wait().map_err(|e| format!("the program cannot be looked after: {e}"))?.is_some() {
                return Ok(false);
            }
            if begun.elapsed() > PATIENCE {
                return Err("the program does not read its input".into());
            }
            thread::yield_now();
        }
        Ok(true)
    }

    fn unread(&self) -> Result<i32, String> {
        let mut bytes = 0;
        let answer = unsafe { ioctl(self.input().as_raw_fd(), FIONREAD, &mut bytes as *mut i32) };
        done(answer, "asking how much of its input the program has not read")?;
        Ok(bytes)
    }

    /// Takes what is written next.
    fn take(&mut self) -> Took {
        match self.wrote.recv_timeout(PATIENCE) {
            Ok(Wrote::Text(bytes)) => self.text.extend(bytes),
            Ok(Wrote::Message(bytes)) => self.messages.extend(bytes),
            Err(RecvTimeoutError::Disconnected) => return Took::End,
            Err(RecvTimeoutError::Timeout) => return Took::Late,
        }
        Took::Some
    }
}
