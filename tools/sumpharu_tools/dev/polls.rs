// What tools/measure-serve compiles: a client that polls, and a plain service to compare with.
//
//     polls ask ADDRESS LINKS REQUESTS REQUEST   each link, on a thread of its own, sends the request of the file so many times, each
//                                                once the reply to the one before has come; prints the seconds from the first to the last
//     polls serve ADDRESS LINKS REPLY            accepts so many links and answers each request, which is a head alone, with the bytes of
//                                                the file, on a thread a link; ends once all links have ended

use std::io::{Read, Result, Write};
use std::net::{TcpListener, TcpStream};
use std::time::Instant;
use std::{env, fs, thread};

// Where what ends with this text ends in the bytes, if it does.
fn end_of(bytes: &[u8], text: &[u8]) -> Option<usize> {
    bytes.windows(text.len()).position(|window| window == text).map(|at| at + text.len())
}

// How many bytes a reply has, from its head.
fn length_of(head: &[u8]) -> usize {
    let text = String::from_utf8_lossy(head).to_lowercase();
    let line = text.lines().find_map(|line| line.strip_prefix("content-length: ").map(str::to_string));
    head.len() + line.expect("a length").trim().parse::<usize>().expect("a number")
}

// Reads one reply. It is all that comes, since nothing else was asked.
fn read_reply(stream: &mut TcpStream, held: &mut Vec<u8>) -> Result<()> {
    held.clear();
    let mut part = [0; 65536];
    loop {
        let count = stream.read(&mut part)?;
        assert!(count > 0, "the link ended");
        held.extend_from_slice(&part[..count]);
        if let Some(end) = end_of(held, b"\r\n\r\n") {
            if held.len() >= length_of(&held[..end]) {
                assert!(held.starts_with(b"HTTP/1.1 200 "), "another reply");
                return Ok(());
            }
        }
    }
}

fn ask(mut stream: TcpStream, requests: usize, request: &[u8]) -> Result<()> {
    let mut held = Vec::new();
    for _ in 0..requests {
        stream.write_all(request)?;
        read_reply(&mut stream, &mut held)?;
    }
    Ok(())
}

fn answer(mut stream: TcpStream, reply: &[u8]) -> Result<()> {
    let mut held = Vec::new();
    let mut part = [0; 65536];
    loop {
        let count = stream.read(&mut part)?;
        if count == 0 {
            return Ok(());
        }
        held.extend_from_slice(&part[..count]);
        while let Some(end) = end_of(&held, b"\r\n\r\n") {
            held.drain(..end);
            stream.write_all(reply)?;
        }
    }
}

fn main() -> Result<()> {
    let words: Vec<String> = env::args().skip(1).collect();
    let links: usize = words[2].parse().expect("a number of links");
    let bytes = fs::read(words.last().expect("a file"))?;
    let mut streams = Vec::new();
    let is_client = words[0] == "ask";
    if is_client {
        for _ in 0..links {
            let stream = TcpStream::connect(&words[1])?;
            stream.set_nodelay(true)?;
            streams.push(stream);
        }
    }
    let requests = if is_client { words[3].parse().expect("a number of requests") } else { 0 };
    let begun = Instant::now();
    thread::scope(|scope| -> Result<()> {
        for stream in streams {
            scope.spawn(|| ask(stream, requests, &bytes).expect("all replies"));
        }
        if !is_client {
            let listener = TcpListener::bind(&words[1])?;
            for _ in 0..links {
                let stream = listener.accept()?.0;
                scope.spawn(|| answer(stream, &bytes));
            }
        }
        Ok(())
    })?;
    if is_client {
        println!("{}", begun.elapsed().as_secs_f64());
    }
    Ok(())
}
