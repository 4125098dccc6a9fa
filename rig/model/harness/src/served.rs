//! The library, served by the driver: starts the driver, sends it requests and reads its answers. The protocol is
//! written down at the top of driver.c.

use rules::layout::Form;
use rules::step::Step;
use std::io::{self, BufReader, Read, Write};
use std::process::{Child, ChildStdin, ChildStdout, Command, Stdio};

/// Says that the call is made on the net sent before.
const SAME_NET: u32 = u32::MAX;

/// What came of a request: how the lent memory fared, the result of each call, and the bytes lent for writing after
/// it.
#[derive(Clone, Debug, Default, PartialEq, Eq)]
pub struct Answer {
    pub fared: u8,
    pub results: Vec<u32>,
    pub lent: Vec<Lent>,
}

#[derive(Clone, Debug, PartialEq, Eq)]
pub struct Lent {
    pub what: &'static str,
    pub bytes: Vec<u8>,
}

/// What a net in this form is lent as.
pub fn lent_as(form: Form) -> &'static str {
    match form {
        Form::Saved => "net",
        Form::Working => "work",
    }
}

impl Answer {
    /// The answer of a call that did no harm beside what it was lent.
    pub fn of(results: Vec<u32>, lent: Vec<(&'static str, Vec<u8>)>) -> Answer {
        Answer { fared: 0, results, lent: lent.into_iter().map(|(what, bytes)| Lent { what, bytes }).collect() }
    }
}

pub struct Driver {
    child: Child,
    to: Option<ChildStdin>,
    from: BufReader<ChildStdout>,
}

impl Driver {
    pub fn start(command: &[String]) -> io::Result<Driver> {
        let mut child =
            Command::new(&command[0]).args(&command[1..]).stdin(Stdio::piped()).stdout(Stdio::piped()).spawn()?;
        let to = child.stdin.take();
        let from = child.stdout.take().ok_or(io::ErrorKind::BrokenPipe)?;
        Ok(Driver { child, to, from: BufReader::with_capacity(1 << 16, from) })
    }

    pub fn fresh(&mut self, plan: &[u8], net: &[u8]) -> io::Result<Answer> {
        self.send(b'F', &[plan.len() as u32, net.len() as u32], &[plan, net])?;
        self.answer(1, &[("net", net.len())])
    }

    pub fn steps(&mut self, form: Form, net: &[u8], steps: &[Step]) -> io::Result<Answer> {
        let letter = if form == Form::Saved { b'S' } else { b's' };
        self.send(letter, &[net.len() as u32, steps.len() as u32], &[net, &steps.concat()])?;
        self.answer(steps.len(), &[(lent_as(form), net.len())])
    }

    pub fn run(&mut self, form: Form, net: &[u8], script: &[u8], tally: &[u8]) -> io::Result<Answer> {
        let letter = if form == Form::Saved { b'R' } else { b'r' };
        let lengths = [net.len() as u32, script.len() as u32, tally.len() as u32];
        self.send(letter, &lengths, &[net, script, tally])?;
        self.answer(1, &[(lent_as(form), net.len()), ("tally", tally.len())])
    }

    /// Into the other form.
    pub fn convert(&mut self, from: Form, net: &[u8], other: &[u8]) -> io::Result<Answer> {
        let letter = if from == Form::Saved { b'W' } else { b'B' };
        self.send(letter, &[net.len() as u32, other.len() as u32], &[net, other])?;
        self.answer(1, &[(lent_as(from.other()), other.len())])
    }

    /// No net means the one sent to `find` or `call` before.
    pub fn find(&mut self, net: Option<&[u8]>, name: &[u8]) -> io::Result<Answer> {
        self.send(b'N', &[length_of(net), name.len() as u32], &[net.unwrap_or(&[]), name])?;
        self.answer(1, &[])
    }

    /// No net means the one sent to `find` or `call` before.
    pub fn call(&mut self, net: Option<&[u8]>, group: u8, station: u8, list: &[u8]) -> io::Result<Answer> {
        let numbers = [length_of(net), u32::from(group), u32::from(station), list.len() as u32];
        self.send(b'C', &numbers, &[net.unwrap_or(&[]), list])?;
        self.answer(1, &[("list", list.len())])
    }

    /// Ends the input; true if the driver then ends well.
    pub fn end(mut self) -> io::Result<bool> {
        drop(self.to.take());
        Ok(self.child.wait()?.success())
    }

    fn send(&mut self, letter: u8, numbers: &[u32], buffers: &[&[u8]]) -> io::Result<()> {
        let mut request = vec![letter];
        request.extend(numbers.iter().flat_map(|number| number.to_le_bytes()));
        for buffer in buffers {
            request.extend_from_slice(buffer);
        }
        let to = self.to.as_mut().ok_or(io::ErrorKind::BrokenPipe)?;
        to.write_all(&request)?;
        to.flush()
    }

    fn answer(&mut self, results: usize, lent: &[(&'static str, usize)]) -> io::Result<Answer> {
        let fared = self.read(1)?[0];
        let numbers = self.read(4 * results)?;
        let results = numbers.chunks_exact(4).map(|b| u32::from_le_bytes([b[0], b[1], b[2], b[3]])).collect();
        let mut answer = Answer { fared, results, lent: Vec::new() };
        for &(what, length) in lent {
            answer.lent.push(Lent { what, bytes: self.read(length)? });
        }
        Ok(answer)
    }

    fn read(&mut self, length: usize) -> io::Result<Vec<u8>> {
        let mut bytes = vec![0; length];
        self.from.read_exact(&mut bytes)?;
        Ok(bytes)
    }
}

fn length_of(net: Option<&[u8]>) -> u32 {
    net.map_or(SAME_NET, |net| net.len() as u32)
}
