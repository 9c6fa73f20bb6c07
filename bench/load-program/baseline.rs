//! The same bytes as a load over Unix socket pairs, with blocking threads: no part of the product.
use std::io::{self, Read, Write};
use std::net::Shutdown;
use std::os::unix::net::UnixStream;
use std::thread;

/// The most bytes of a call, as an app of a load has.
const SLICE: usize = 4_096;

/// Gives back what comes, until its end.
fn echo(mut stream: UnixStream) -> io::Result<()> {
    let mut buffer = [0; SLICE];
    loop {
        let n = stream.read(&mut buffer)?;
        if n == 0 {
            return Ok(());
        }
        stream.write_all(&buffer[..n])?;
    }
}

/// The bytes that app `app` sends.
fn content(number: u64, app: u64, bytes: u64) -> Vec<u8> {
    (0..bytes).map(|i| (number + 31 * app + 7 * i + i / 251) as u8).collect()
}

/// Sends all bytes and receives as many, a send and a receive in turn, and counts those that came back as they were sent.
fn exchange(mut stream: UnixStream, content: &[u8]) -> io::Result<usize> {
    let mut back = vec![0; content.len()];
    let (mut sent, mut got) = (0, 0);
    while got < content.len() {
        if sent < content.len() {
            let end = content.len().min(sent + SLICE);
            sent += stream.write(&content[sent..end])?;
        }
        let end = content.len().min(got + SLICE);
        let n = stream.read(&mut back[got..end])?;
        if n == 0 {
            break;
        }
        got += n;
    }
    stream.shutdown(Shutdown::Both)?;
    Ok(content.iter().zip(&back[..got]).filter(|(a, b)| a == b).count())
}

/// usage: baseline CONNS BYTES
fn main() {
    let words: Vec<u64> = std::env::args().skip(1).map(|word| word.parse().expect("a number")).collect();
    let (conns, bytes) = (words[0], words[1]);
    let mut apps = Vec::new();
    let mut echoes = Vec::new();
    for app in 0..conns {
        let (near, far) = UnixStream::pair().expect("a pair of sockets");
        echoes.push(thread::spawn(move || echo(far)));
        apps.push(thread::spawn(move || exchange(near, &content(1, app, bytes))));
    }
    let matched: usize = apps.into_iter().map(|app| app.join().unwrap().expect("an exchange")).sum();
    for each in echoes {
        each.join().unwrap().expect("an echo");
    }
    println!("conns {conns} bytes {} matched {matched}", conns * bytes);
}
