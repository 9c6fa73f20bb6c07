//! The host's end of bench/run, and its raw copy, with calls of 4,096 bytes. Each prints how many bytes passed, and the seconds from the first to
//! the last.
//!
//! plain fill BYTES: writes to the socket that is its standard input, and closes it.
//! plain drain BYTES: reads from the socket that is its standard input, to the end.
//! plain read PATH BYTES: listens at PATH, and reads of its one client to the end.
//! plain write PATH BYTES: connects to PATH, asks for port 52 until it is answered by OK, writes, and reads to the end.
//! plain sleep THREADS SLEEPS: so many threads, each of which sleeps a millisecond so many times.

use std::env;
use std::io::{self, Read, Write};
use std::os::fd::AsFd;
use std::os::unix::net::{UnixListener, UnixStream};
use std::thread;
use std::time::{Duration, Instant};

const PIECE: usize = 4096;

/// Reads to the end: how many bytes, and how long from the first of them on.
fn read_all(stream: &mut UnixStream) -> io::Result<(usize, Duration)> {
    let mut piece = [0; PIECE];
    let mut count = stream.read(&mut piece)?;
    let begun = Instant::now();
    let mut more = count;
    while more > 0 {
        more = stream.read(&mut piece)?;
        count += more;
    }
    Ok((count, begun.elapsed()))
}

fn write_all(stream: &mut UnixStream, bytes: usize) -> io::Result<()> {
    let piece = [7; PIECE];
    let mut left = bytes;
    while left > 0 {
        left -= stream.write(&piece[..left.min(PIECE)])?;
    }
    Ok(())
}

/// The socket that is standard input.
fn given() -> io::Result<UnixStream> {
    Ok(io::stdin().as_fd().try_clone_to_owned()?.into())
}

fn fill(bytes: usize) -> io::Result<(usize, Duration)> {
    let begun = Instant::now();
    write_all(&mut given()?, bytes)?;
    Ok((bytes, begun.elapsed()))
}

fn drain() -> io::Result<(usize, Duration)> {
    read_all(&mut given()?)
}

fn read(path: &str) -> io::Result<(usize, Duration)> {
    let (mut stream, _) = UnixListener::bind(path)?.accept()?;
    read_all(&mut stream)
}

/// A connection that was answered. Until an app listens, clients are closed without an answer.
fn answered(path: &str) -> io::Result<UnixStream> {
    for _ in 0..10_000 {
        let mut stream = UnixStream::connect(path)?;
        stream.write_all(b"CONNECT 52\n")?;
        let mut byte = [0];
        let mut line = Vec::new();
        while matches!(stream.read(&mut byte), Ok(1)) {
            line.push(byte[0]);
            if byte[0] == b'\n' && line.starts_with(b"OK ") {
                return Ok(stream);
            }
        }
        thread::sleep(Duration::from_millis(1));
    }
    Err(io::Error::other("nobody answers"))
}

fn write(path: &str, bytes: usize) -> io::Result<(usize, Duration)> {
    let mut stream = answered(path)?;
    let begun = Instant::now();
    write_all(&mut stream, bytes)?;
    stream.shutdown(std::net::Shutdown::Write)?;
    read_all(&mut stream)?;
    Ok((bytes, begun.elapsed()))
}

fn sleep(threads: usize, sleeps: usize) -> io::Result<(usize, Duration)> {
    let begun = Instant::now();
    let sleepers = (0..threads).map(|_| thread::spawn(move || (0..sleeps).for_each(|_| thread::sleep(Duration::from_millis(1)))));
    let sleepers: Vec<_> = sleepers.collect();
    for sleeper in sleepers {
        sleeper.join().expect("a sleeper ends");
    }
    Ok((sleeps, begun.elapsed()))
}

fn main() -> io::Result<()> {
    let words: Vec<String> = env::args().skip(1).collect();
    let words: Vec<&str> = words.iter().map(String::as_str).collect();
    let bytes = words.last().and_then(|it| it.parse().ok()).expect("how many");
    let (count, took) = match words[..] {
        ["fill", _] => fill(bytes)?,
        ["drain", _] => drain()?,
        ["read", path, _] => read(path)?,
        ["write", path, _] => write(path, bytes)?,
        ["sleep", threads, _] => sleep(threads.parse().expect("how many threads"), bytes)?,
        _ => return Err(io::Error::other("fill BYTES, drain BYTES, read PATH BYTES, write PATH BYTES or sleep THREADS SLEEPS")),
    };
    println!("{count} {}", took.as_secs_f64());
    Ok(())
}
