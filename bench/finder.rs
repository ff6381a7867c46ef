//! Finds the PD0 ensembles of a recording, in plain Rust: what the program `listing` is compared with.
//!
//! It reads the recording from standard input and prints one line for each ensemble: its number, its length in bytes
//! and its number of sections. At the end it writes to standard error how many ensembles and bytes there were. It
//! shares no code with `listing`, only the rule, so the two lists must be equal for every recording.

use std::io::{self, BufWriter, ErrorKind, Read, Write};

/// How many bytes a receiver can hold: more than the longest ensemble has.
const CAPACITY: usize = 4352;

/// How many bytes are read, and how many are written, at once.
const PIECE: usize = 64 * 1024;

/// The bytes in front of the table of offsets.
const HEADER: usize = 6;

/// The longest run of bytes that a checksum may cover.
const MOST_COUNTED: usize = 4094;

/// What a run of bytes begins with.
enum Verdict {
    /// An ensemble of this length.
    Sound(usize),
    /// Perhaps an ensemble: this many bytes are wanted to tell.
    Short(usize),
    /// No ensemble, whatever may follow.
    Unfit,
}

/// The number of 16 bits at an offset, low byte first.
fn number_at(bytes: &[u8], offset: usize) -> u16 {
    u16::from_le_bytes([bytes[offset], bytes[offset + 1]])
}

/// Judges the front of a run. Bytes behind the ensemble are not looked at.
fn judge(run: &[u8]) -> Verdict {
    if run.len() < HEADER {
        return Verdict::Short(HEADER);
    }
    if run[0] != 0x7F || run[1] != 0x7F {
        return Verdict::Unfit;
    }
    let counted = usize::from(number_at(run, 2));
    let sections = usize::from(run[5]);
    if !(2..=16).contains(&sections) || !(8 + 2 * sections..=MOST_COUNTED).contains(&counted) {
        return Verdict::Unfit;
    }
    let length = counted + 2;
    if run.len() < length {
        return Verdict::Short(length);
    }
    // The sections first: a false header mostly fails there, long before a sum over all its bytes is done.
    if has_sections(&run[..counted], sections) && checksum(&run[..counted]) == number_at(run, counted) {
        Verdict::Sound(length)
    } else {
        Verdict::Unfit
    }
}

fn checksum(counted: &[u8]) -> u16 {
    counted.iter().fold(0, |sum, &byte| sum.wrapping_add(u16::from(byte)))
}

/// Whether the table of offsets fits the counted bytes, and the sections are of the right kinds and sizes.
fn has_sections(counted: &[u8], sections: usize) -> bool {
    // Two reserved bytes stand behind the last section.
    let body = &counted[..counted.len() - 2];
    let mut begin = HEADER + 2 * sections;
    if usize::from(number_at(counted, HEADER)) != begin {
        return false;
    }
    let mut cells = 0;
    let mut kinds_seen = 0u16;
    for index in 0..sections {
        let end = if index + 1 < sections {
            usize::from(number_at(counted, HEADER + 2 * (index + 1)))
        } else {
            body.len()
        };
        // No slice: the offsets do not ascend, or leave the body.
        let Some(section) = body.get(begin..end) else {
            return false;
        };
        if section.len() < 2 {
            return false;
        }
        // A named kind has a bit, so that it is not taken twice. The cells are known from the first section on.
        let (kind, least) = match number_at(section, 0) {
            0x0000 => (1 << 0, 52),
            0x0080 => (1 << 1, 65),
            0x0100 => (1 << 2, 2 + 8 * cells),
            0x0200 => (1 << 3, 2 + 4 * cells),
            0x0300 => (1 << 4, 2 + 4 * cells),
            0x0400 => (1 << 5, 2 + 4 * cells),
            0x0500 => (1 << 6, 2 + 4 * cells),
            0x0600 => (1 << 7, 81),
            _ => (0, 2),
        };
        if section.len() < least || kinds_seen & kind != 0 {
            return false;
        }
        if index < 2 && kind != 1 << index {
            return false;
        }
        if index == 0 {
            cells = usize::from(section[9]);
            if !(1..=128).contains(&cells) {
                return false;
            }
        }
        kinds_seen |= kind;
        begin = end;
    }
    true
}

/// What a receiver answers when it is asked for the next frame.
enum Answer {
    /// A frame of this length is at the front.
    Frame(usize),
    /// Not without this many bytes held. (Here nobody reads how many: all that has come is fed in any case.)
    Wanting(#[allow(dead_code)] usize),
    /// There is no other frame.
    Over,
}

/// Holds the bytes of a line that may still be part of an ensemble.
struct Receiver {
    buffer: [u8; CAPACITY],
    /// The held bytes are `buffer[start..end]`.
    start: usize,
    end: usize,
    /// The length of the frame at the front, from when it is found until it is passed.
    found: Option<usize>,
    ended: bool,
}

impl Receiver {
    fn new() -> Self {
        Receiver { buffer: [0; CAPACITY], start: 0, end: 0, found: None, ended: false }
    }

    /// Takes as many leading bytes as there is space for, and answers how many.
    fn feed(&mut self, bytes: &[u8]) -> usize {
        // Only when the space behind the held bytes lacks are they moved.
        if bytes.len() > CAPACITY - self.end {
            self.buffer.copy_within(self.start..self.end, 0);
            self.end -= self.start;
            self.start = 0;
        }
        let taken = bytes.len().min(CAPACITY - self.end);
        self.buffer[self.end..self.end + taken].copy_from_slice(&bytes[..taken]);
        self.end += taken;
        taken
    }

    /// Drops bytes until there is a frame at the front, or more bytes are wanted, or nothing is left to come. Answers
    /// how many bytes it dropped, and which of the three.
    fn find(&mut self) -> (usize, Answer) {
        if let Some(length) = self.found {
            return (0, Answer::Frame(length));
        }
        let before = self.start;
        let answer = loop {
            let held = &self.buffer[self.start..self.end];
            if held.is_empty() {
                break if self.ended { Answer::Over } else { Answer::Wanting(1) };
            }
            match judge(held) {
                Verdict::Sound(length) => {
                    self.found = Some(length);
                    break Answer::Frame(length);
                }
                Verdict::Short(wanted) if !self.ended && wanted <= CAPACITY => {
                    break Answer::Wanting(wanted);
                }
                Verdict::Short(_) | Verdict::Unfit => self.start += 1,
            }
        };
        (self.start - before, answer)
    }

    /// The bytes of the found frame: none if there is none.
    fn frame(&self) -> &[u8] {
        &self.buffer[self.start..self.start + self.found.unwrap_or(0)]
    }

    /// Removes the found frame.
    fn pass(&mut self) {
        self.start += self.found.take().unwrap_or(0);
    }

    /// No bytes will come any more.
    fn end(&mut self) {
        self.ended = true;
    }
}

/// The ensemble's number: 16 bits of it, and a byte for how often these have overflowed, in the Variable Leader.
fn ensemble_number(frame: &[u8]) -> u32 {
    let variable_leader = usize::from(number_at(frame, HEADER + 2));
    u32::from(number_at(frame, variable_leader + 2)) + 65_536 * u32::from(frame[variable_leader + 11])
}

/// A line of text, put together from its end, since the last digit of a number is known first. It is done by hand
/// because `write!` takes as long as all the rest does for a small ensemble.
struct Line {
    buffer: [u8; Line::LONGEST],
    begin: usize,
}

impl Line {
    /// Three numbers of up to 32 bits with ten digits each, and a byte behind each.
    const LONGEST: usize = 33;

    fn new() -> Self {
        Line { buffer: [0; Line::LONGEST], begin: Line::LONGEST }
    }

    fn put(&mut self, byte: u8) {
        self.begin -= 1;
        self.buffer[self.begin] = byte;
    }

    fn put_number(&mut self, mut number: u32) {
        loop {
            self.put(b'0' + (number % 10) as u8);
            number /= 10;
            if number == 0 {
                return;
            }
        }
    }

    fn bytes(&self) -> &[u8] {
        &self.buffer[self.begin..]
    }
}

/// Lists the frames of a receiver, and counts.
struct Listing<W> {
    receiver: Receiver,
    output: W,
    ensembles: u64,
    dropped: u64,
}

impl<W: Write> Listing<W> {
    /// Prints and passes every frame that can be found in what is held.
    fn list(&mut self) -> io::Result<()> {
        loop {
            let (dropped, answer) = self.receiver.find();
            self.dropped += dropped as u64;
            let Answer::Frame(length) = answer else {
                return Ok(());
            };
            let frame = self.receiver.frame();
            let mut line = Line::new();
            line.put(b'\n');
            line.put_number(u32::from(frame[5]));
            line.put(b' ');
            line.put_number(length as u32);
            line.put(b' ');
            line.put_number(ensemble_number(frame));
            self.output.write_all(line.bytes())?;
            self.ensembles += 1;
            self.receiver.pass();
        }
    }
}

fn main() -> io::Result<()> {
    let mut input = io::stdin().lock();
    let mut piece = vec![0; PIECE];
    let mut read = 0;
    let mut listing = Listing {
        receiver: Receiver::new(),
        output: BufWriter::with_capacity(PIECE, io::stdout().lock()),
        ensembles: 0,
        dropped: 0,
    };
    loop {
        let mut rest = match input.read(&mut piece) {
            Ok(0) => break,
            Ok(count) => &piece[..count],
            Err(error) if error.kind() == ErrorKind::Interrupted => continue,
            Err(error) => return Err(error),
        };
        read += rest.len() as u64;
        while !rest.is_empty() {
            let taken = listing.receiver.feed(rest);
            rest = &rest[taken..];
            listing.list()?;
        }
    }
    listing.receiver.end();
    listing.list()?;
    listing.output.flush()?;
    eprintln!("ensembles {}, bytes read {}, bytes dropped {}", listing.ensembles, read, listing.dropped);
    Ok(())
}
