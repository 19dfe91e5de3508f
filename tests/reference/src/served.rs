//! The C functions of one model (lend.h), served by a driver process: the kit compiles for x86-64 alone, and this program
//! runs on whatever machine it is built on. `tests/driver/driver.c` has the other end and says what goes over the pipe.

use crate::calls::{Call, RangeLending, RangeWithdrawal, Reply};
use crate::command::command;
use crate::drive_library::Subject;
use std::io::{BufReader, BufWriter, Read, Write};
use std::process::{Child, ChildStdin, ChildStdout};

/// The driver process, with a pipe to it and one from it.
pub struct Served {
    child: Child,
    requests: BufWriter<ChildStdin>,
    replies: BufReader<ChildStdout>,
}

impl Served {
    /// Starts the driver: a command and its words, parted by spaces.
    pub fn start(line: &str) -> Result<Served, String> {
        let mut child = command(line).spawn().map_err(|error| format!("{line}: {error}"))?;
        let requests = BufWriter::new(child.stdin.take().expect("piped"));
        let replies = BufReader::new(child.stdout.take().expect("piped"));
        Ok(Served { child, requests, replies })
    }

    fn send(&mut self, image: &[u8], memory: &[u8], call: &Call) -> std::io::Result<()> {
        let (letter, numbers, value) = spelled(call);
        self.requests.write_all(&[letter])?;
        for number in numbers {
            self.requests.write_all(&number.to_le_bytes())?;
        }
        self.requests.write_all(&[value])?;
        self.requests.write_all(&(image.len() as u32).to_le_bytes())?;
        self.requests.write_all(&(memory.len() as u32).to_le_bytes())?;
        self.requests.write_all(image)?;
        self.requests.write_all(memory)?;
        self.requests.flush()
    }

    fn number(&mut self) -> std::io::Result<u32> {
        let mut bytes = [0; 4];
        self.replies.read_exact(&mut bytes)?;
        Ok(u32::from_le_bytes(bytes))
    }

    fn receive(&mut self, image: &mut [u8], memory: &mut [u8]) -> std::io::Result<Reply> {
        let number = self.number()?;
        let out = [self.number()?, self.number()?, self.number()?, self.number()?];
        let mut strayed = [0];
        self.replies.read_exact(&mut strayed)?;
        self.replies.read_exact(image)?;
        self.replies.read_exact(memory)?;
        Ok(Reply { number, out, strayed: strayed[0] != 0 })
    }
}

impl Subject for Served {
    fn call(&mut self, image: &mut [u8], memory: &mut [u8], call: &Call) -> Reply {
        let lent: &mut [u8] = if call.kind().takes_memory() { memory } else { &mut [] };
        let sent = self.send(image, lent, call);
        match sent.and_then(|()| self.receive(image, lent)) {
            Ok(reply) => reply,
            Err(error) => panic!("the driver failed at {call:?}: {error}"),
        }
    }
}

impl Drop for Served {
    fn drop(&mut self) {
        let _ = self.child.kill();
        let _ = self.child.wait();
    }
}

/// The letter, the numbers and the byte of a call, as the driver reads them.
fn spelled(call: &Call) -> (u8, [u32; 7], u8) {
    let three = |a, b, c| [a, b, c, 0, 0, 0, 0];
    match *call {
        Call::Start => (b's', [0; 7], 0),
        Call::Sound => (b'?', [0; 7], 0),
        Call::Create { space } => (b'c', three(space, 0, 0), 0),
        Call::Delete { space } => (b'd', three(space, 0, 0), 0),
        Call::Unmap(asked) => (b'u', three(asked.space, asked.page, asked.rights), 0),
        Call::Flush(asked) => (b'f', three(asked.space, asked.page, asked.rights), 0),
        Call::Map(asked) => (b'm', [asked.from, asked.page, asked.to, asked.at, asked.rights, 0, 0], 0),
        Call::Grant(asked) => (b'g', [asked.from, asked.page, asked.to, asked.at, asked.rights, 0, 0], 0),
        Call::Translate { space, address, rights } => (b't', three(space, address, rights), 0),
        Call::Load { space, address } => (b'l', three(space, address, 0), 0),
        Call::Store { space, address, value } => (b'w', three(space, address, 0), value),
        Call::Frame { frame } => (b'h', three(frame, 0, 0), 0),
        Call::UnmapRange(asked) => (b'U', withdrawn(&asked), 0),
        Call::FlushRange(asked) => (b'F', withdrawn(&asked), 0),
        Call::MapRange(asked) => (b'M', lent(&asked), 0),
        Call::GrantRange(asked) => (b'G', lent(&asked), 0),
        Call::WriteListing => (b'W', [0; 7], 0),
        Call::ReadListing => (b'R', [0; 7], 0),
    }
}

fn withdrawn(asked: &RangeWithdrawal) -> [u32; 7] {
    [asked.space, asked.range.base, asked.range.size, asked.rights, 0, 0, 0]
}

fn lent(asked: &RangeLending) -> [u32; 7] {
    let (given, taken) = (asked.given, asked.taken);
    [asked.from, given.base, given.size, asked.to, taken.base, taken.size, asked.rights]
}
