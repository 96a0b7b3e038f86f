//! The plain program that RemixDB is measured beside: the same messages over std's ordered map.
//!
//! It answers each input as `remixdb script` does, and proves nothing. It has a buffer on each
//! stream, writes a value to the buffer straight from the map, and flushes where the next message
//! is not yet in the buffer. With words it keeps a log of the updates:
//!
//! - `log` keeps the messages in memory, as RemixDB's log does over `mem`.
//! - `file PATH` gathers the messages. At each SYNC, where 262,144 bytes are gathered, and at the end
//!   it appends them to the file as one block, by one write and one `fdatasync`.
//! - `file2 PATH` does that by two writes and two syncs: a block has a gate, which is opened once the
//!   block is synced. So a crash leaves a block whole or not at all, as it does with RemixDB's frames.
//!
//! It reads a file that is there first, and does the file's updates again.

use std::collections::BTreeMap;
use std::env;
use std::fs::File;
use std::io::{self, BufRead, BufReader, BufWriter, Read, Write};
use std::os::fd::AsFd;
use std::os::unix::fs::FileExt;
use std::process::ExitCode;

const BUFFER: usize = 64 * 1024;
const GATHERED_MAX: usize = 262_144;
const BODY_MAX: usize = 66_566;
const KEY_MAX: usize = 1_024;
const VALUE_MAX: usize = 65_535;

const PUT: u8 = 0x01;
const DELETE: u8 = 0x02;
const GET: u8 = 0x03;
const SYNC: u8 = 0x04;
const QUIT: u8 = 0x09;

const DONE: u8 = 0x81;
const VALUE: u8 = 0x82;
const ABSENT: u8 = 0x83;
const SYNCED: u8 = 0x84;
const BYE: u8 = 0x89;
const BAD_MESSAGE: u8 = 0xE1;

/// How a session ended.
enum End {
    Well,
    /// The message is none, for the reason of this code.
    Bad(u8),
    /// The input ended inside a message.
    Cut,
    Failed,
}

impl From<io::Error> for End {
    fn from(_: io::Error) -> End {
        End::Failed
    }
}

/// The fields of a body, from left to right.
struct Fields<'a>(&'a [u8]);

impl<'a> Fields<'a> {
    fn take(&mut self, count: usize) -> Result<&'a [u8], End> {
        let (taken, rest) = self.0.split_at_checked(count).ok_or(End::Bad(3))?;
        self.0 = rest;
        Ok(taken)
    }

    fn key(&mut self) -> Result<&'a [u8], End> {
        let length = self.take(2)?;
        let length = u16::from_be_bytes([length[0], length[1]]) as usize;
        if length == 0 || length > KEY_MAX {
            return Err(End::Bad(4));
        }
        self.take(length)
    }

    fn value(&mut self) -> Result<&'a [u8], End> {
        let length = self.take(4)?;
        let length = u32::from_be_bytes([length[0], length[1], length[2], length[3]]) as usize;
        if length > VALUE_MAX {
            return Err(End::Bad(5));
        }
        self.take(length)
    }

    fn finish(self) -> Result<(), End> {
        if self.0.is_empty() {
            Ok(())
        } else {
            Err(End::Bad(7))
        }
    }
}

/// A log in a file, as blocks: a gate, u32 length, and so many bytes of messages.
struct FileLog {
    file: File,
    /// The place of the next block.
    end: u64,
    /// The next block, with its gate and its length in front.
    block: Vec<u8>,
    opens_gates: bool,
}

const CLOSED: u8 = 0;
const OPEN: u8 = 1;
const BLOCK_HEAD: usize = 5;

impl FileLog {
    /// Opens a log, or makes it where it is absent.
    fn open(path: &str, opens_gates: bool) -> io::Result<FileLog> {
        let mut options = File::options();
        options.read(true).write(true).create(true);
        Ok(FileLog {
            file: options.open(path)?,
            end: 0,
            block: vec![0; BLOCK_HEAD],
            opens_gates,
        })
    }

    /// Hands each message of the log's blocks to an act.
    fn read(&mut self, mut act: impl FnMut(&[u8]) -> Result<(), End>) -> Result<(), End> {
        let mut input = BufReader::with_capacity(BUFFER, &self.file);
        let mut body = vec![0; BODY_MAX];
        let mut head = [OPEN; BLOCK_HEAD];
        while input.fill_buf()?.first() == Some(&OPEN) {
            read_whole(&mut input, &mut head)?;
            let length = u32::from_be_bytes([head[1], head[2], head[3], head[4]]) as u64;
            let mut block = input.by_ref().take(length);
            while let Some(length) = read_length(&mut block)? {
                read_whole(&mut block, &mut body[..length])?;
                act(&body[..length])?;
            }
            self.end += BLOCK_HEAD as u64 + length;
        }
        Ok(())
    }

    fn flush(&mut self) -> io::Result<()> {
        let length = self.block.len() - BLOCK_HEAD;
        if length == 0 {
            return Ok(());
        }
        self.block[0] = if self.opens_gates { CLOSED } else { OPEN };
        self.block[1..BLOCK_HEAD].copy_from_slice(&(length as u32).to_be_bytes());
        self.file.write_all_at(&self.block, self.end)?;
        self.file.sync_data()?;
        if self.opens_gates {
            self.file.write_all_at(&[OPEN], self.end)?;
            self.file.sync_data()?;
        }
        self.end += self.block.len() as u64;
        self.block.truncate(BLOCK_HEAD);
        Ok(())
    }
}

enum Log {
    None,
    Memory(Vec<u8>),
    File(FileLog),
}

impl Log {
    /// Keeps the message of an update.
    fn add(&mut self, body: &[u8]) -> io::Result<()> {
        let kept = match self {
            Log::None => return Ok(()),
            Log::Memory(kept) => kept,
            Log::File(log) => {
                if log.block.len() >= GATHERED_MAX {
                    log.flush()?;
                }
                &mut log.block
            }
        };
        kept.extend_from_slice(&(body.len() as u32).to_be_bytes());
        kept.extend_from_slice(body);
        Ok(())
    }

    fn sync(&mut self) -> io::Result<()> {
        match self {
            Log::File(log) => log.flush(),
            _ => Ok(()),
        }
    }
}

/// The map with the number of its updates, and their log.
struct Store {
    rows: BTreeMap<Vec<u8>, Vec<u8>>,
    updates: u64,
    log: Log,
}

impl Store {
    /// The store that the program's words ask for.
    fn open() -> Result<Store, End> {
        let mut store = Store {
            rows: BTreeMap::new(),
            updates: 0,
            log: Log::None,
        };
        let words: Vec<String> = env::args().skip(1).collect();
        match words.iter().map(String::as_str).collect::<Vec<_>>()[..] {
            ["log"] => store.log = Log::Memory(Vec::new()),
            [word @ ("file" | "file2"), path] => {
                let mut log = FileLog::open(path, word == "file2")?;
                log.read(|body| store.update(body))?;
                store.log = Log::File(log);
            }
            _ => {}
        }
        Ok(store)
    }

    /// Does what the body of a PUT or a DELETE asks.
    fn update(&mut self, body: &[u8]) -> Result<(), End> {
        let mut fields = Fields(&body[1..]);
        let key = fields.key()?;
        if body[0] == PUT {
            let value = fields.value()?;
            fields.finish()?;
            self.rows.insert(key.to_vec(), value.to_vec());
        } else {
            fields.finish()?;
            self.rows.remove(key);
        }
        self.updates += 1;
        Ok(())
    }

    /// Does what a body asks and writes the reply. Tells whether it was a quit.
    fn answer<W: Write>(&mut self, body: &[u8], output: &mut W) -> Result<bool, End> {
        let mut fields = Fields(&body[1..]);
        match body[0] {
            PUT | DELETE => {
                self.update(body)?;
                self.log.add(body)?;
                write_head(output, DONE, 0, self.updates - 1)?;
            }
            GET => {
                let key = fields.key()?;
                fields.finish()?;
                match self.rows.get(key) {
                    Some(value) => {
                        write_head(output, VALUE, 4 + value.len(), self.updates)?;
                        output.write_all(&(value.len() as u32).to_be_bytes())?;
                        output.write_all(value)?;
                    }
                    None => write_head(output, ABSENT, 0, self.updates)?,
                }
            }
            SYNC => {
                fields.finish()?;
                self.log.sync()?;
                write_head(output, SYNCED, 0, self.updates)?;
            }
            QUIT => {
                fields.finish()?;
                output.write_all(&[0, 0, 0, 1, BYE])?;
                return Ok(true);
            }
            _ => return Err(End::Bad(2)),
        }
        Ok(false)
    }
}

/// Writes a reply up to its number, with so many bytes of the body to follow.
fn write_head<W: Write>(output: &mut W, code: u8, more: usize, number: u64) -> io::Result<()> {
    let mut head = [0; 13];
    head[..4].copy_from_slice(&(9 + more as u32).to_be_bytes());
    head[4] = code;
    head[5..].copy_from_slice(&number.to_be_bytes());
    output.write_all(&head)
}

/// Tells whether the buffer holds a whole message, which can be answered without another read.
fn holds_message(buffer: &[u8]) -> bool {
    match buffer.first_chunk::<4>() {
        Some(length) => buffer.len() - 4 >= u32::from_be_bytes(*length) as usize,
        None => false,
    }
}

/// Reads the length of the next message, where there is one.
fn read_length<R: BufRead>(input: &mut R) -> Result<Option<usize>, End> {
    if input.fill_buf()?.is_empty() {
        return Ok(None);
    }
    let mut length = [0; 4];
    read_whole(input, &mut length)?;
    match u32::from_be_bytes(length) as usize {
        length @ 1..=BODY_MAX => Ok(Some(length)),
        _ => Err(End::Bad(1)),
    }
}

fn read_whole<R: Read>(input: &mut R, into: &mut [u8]) -> Result<(), End> {
    input.read_exact(into).map_err(|error| match error.kind() {
        io::ErrorKind::UnexpectedEof => End::Cut,
        _ => End::Failed,
    })
}

/// Serves messages up to the first that ends the session. Keeps the place where that one begins.
fn serve<R: Read, W: Write>(
    store: &mut Store,
    input: &mut BufReader<R>,
    output: &mut W,
    place: &mut u64,
) -> Result<(), End> {
    let mut body = vec![0; BODY_MAX];
    loop {
        if !holds_message(input.buffer()) {
            output.flush()?;
        }
        let Some(length) = read_length(input)? else {
            return Ok(());
        };
        read_whole(input, &mut body[..length])?;
        if store.answer(&body[..length], output)? {
            return Ok(());
        }
        *place += 4 + length as u64;
    }
}

/// Serves a session, writes the reply to a message that is none, and keeps the log.
fn session<R: Read, W: Write>(store: &mut Store, input: &mut BufReader<R>, output: &mut W) -> End {
    let mut place = 0;
    let end = match serve(store, input, output, &mut place) {
        Ok(()) => End::Well,
        Err(end) => end,
    };
    if let End::Bad(code) = end {
        let head = write_head(output, BAD_MESSAGE, 1, place);
        if head.and_then(|()| output.write_all(&[code])).is_err() {
            return End::Failed;
        }
    }
    if output.flush().and_then(|()| store.log.sync()).is_err() {
        return End::Failed;
    }
    end
}

/// Serves a session on the standard streams. As files they have no buffers but the ones here,
/// while std's own standard output cuts what is written at its lines.
fn serve_standard_streams() -> End {
    let input = io::stdin().as_fd().try_clone_to_owned();
    let output = io::stdout().as_fd().try_clone_to_owned();
    let (Ok(input), Ok(output)) = (input, output) else {
        return End::Failed;
    };
    let mut input = BufReader::with_capacity(BUFFER, File::from(input));
    let mut output = BufWriter::with_capacity(BUFFER, File::from(output));
    match Store::open() {
        Ok(mut store) => session(&mut store, &mut input, &mut output),
        Err(_) => End::Failed,
    }
}

fn main() -> ExitCode {
    match serve_standard_streams() {
        End::Well => ExitCode::SUCCESS,
        End::Bad(_) | End::Cut => {
            eprintln!("remixdb: session ended by a bad message");
            ExitCode::from(1)
        }
        End::Failed => {
            eprintln!("remixdb: stream failed");
            ExitCode::from(5)
        }
    }
}
