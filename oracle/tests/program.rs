//! The program on a pipe.

use std::io::{BufRead, BufReader, Write};
use std::process::{Child, Command, Stdio};

fn start() -> Child {
    Command::new(env!("CARGO_BIN_EXE_oracle"))
        .stdin(Stdio::piped())
        .stdout(Stdio::piped())
        .stderr(Stdio::piped())
        .spawn()
        .unwrap()
}

/// What the program says to these octets.
fn said(input: &[u8]) -> String {
    let mut child = start();
    let mut pipe = child.stdin.take().unwrap();
    let input = input.to_vec();
    let feeder = std::thread::spawn(move || pipe.write_all(&input).unwrap());
    let output = child.wait_with_output().unwrap();
    feeder.join().unwrap();
    assert!(output.status.success());
    assert!(output.stderr.is_empty());
    String::from_utf8(output.stdout).unwrap()
}

#[test]
fn lines() {
    assert_eq!(said(b""), "");
    assert_eq!(said(b"\n"), "bad-request\n");
    assert_eq!(said(b"ack 9"), "1 0 0 1\n");
    assert_eq!(said(b"ack 9\r\nack 8\n\nack 16\nack 1"), {
        "bad-request\n1 0 0 0\nbad-request\npanic\n0 0 0 1\n"
    });
    assert_eq!(said(b"\xFF\x00\nack\x009\n"), "bad-request\nbad-request\n");
}

#[test]
fn a_long_line() {
    let data = "5A".repeat(200_000);
    let zeros = "00".repeat(200_013);
    let line = format!("create 0,0,0,1,3,0,0 2,0,0,0,0 0 1 {data} - {zeros}\nack 0\n");
    let text = said(line.as_bytes());
    let (first, rest) = text.split_once('\n').unwrap();
    assert!(first.starts_with("made 0,1,1,1,3,0,0 2,0,0,0,0 1 200013 "));
    assert!(first.contains(&format!(" ok:200013 1801C00000002000000000{data}")));
    assert_eq!(rest, "0 0 0 0\n");
}

/// One who waits for each answer before the next request is not left waiting.
#[test]
fn in_turns() {
    let mut child = start();
    let mut pipe = child.stdin.take().unwrap();
    let mut answers = BufReader::new(child.stdout.take().unwrap());
    for n in 0..16u8 {
        writeln!(pipe, "ack {n}").unwrap();
        let mut line = String::new();
        answers.read_line(&mut line).unwrap();
        let bits = [8, 4, 2, 1].map(|bit| if n & bit != 0 { "1" } else { "0" });
        assert_eq!(line, bits.join(" ") + "\n");
    }
    drop(pipe);
    assert!(child.wait().unwrap().success());
}
