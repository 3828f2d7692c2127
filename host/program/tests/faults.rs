//! What the program does where its input or output fails, as docs/FAULTS.md says: what is printed is right as far as it
//! goes, the rest is reported on standard error, and the launcher's exit status is not 0.

use std::fs::{self, File, OpenOptions};
use std::io::Write;
use std::os::unix::io::OwnedFd;
use std::os::unix::net::{UnixDatagram, UnixStream};
use std::process::{Child, Command, ExitStatus, Output, Stdio};
use std::thread;

use generate::runfiles::RunFile;
use generate::{Random, Shape};
use program::{launcher, parts, refusal_in, root, scratch, send, wanted};

const UNREAD: &str = "blockrun: the input could not be read\n";
const UNWRITTEN: &str = "blockrun: the output could not be written\n";

/// A shell for what Rust cannot say. The launcher is its `$0`.
fn shell(script: &str) -> Command {
    let mut command = Command::new("sh");
    command.arg("-c").arg(script).arg(launcher());
    command
}

fn run() -> Command {
    let mut command = Command::new(launcher());
    command.arg("run");
    command
}

/// A command whose input and outputs are pipes.
fn started(command: &mut Command) -> Child {
    command
        .stdin(Stdio::piped())
        .stdout(Stdio::piped())
        .stderr(Stdio::piped())
        .spawn()
        .expect("the launcher starts")
}

/// What a command does with an input, of which it need not take all.
fn finished(command: &mut Command, text: &[u8]) -> Output {
    let mut child = started(command);
    let mut input = child.stdin.take().expect("its input is a pipe");
    thread::scope(|scope| {
        scope.spawn(move || send(&mut input, text));
        child.wait_with_output().expect("the launcher ends")
    })
}

/// The output, what is reported on standard error, and the exit status.
fn assert_ends(ended: Output, output: &[u8], reported: &str, status: i32) {
    let output = String::from_utf8_lossy(output).into_owned();
    assert_eq!(parts(&ended), (output, reported.to_string(), Some(status)));
}

/// What is reported of an input that ends too soon, by its right output: nothing where all of its lines are whole.
fn cut_short(output: &[u8]) -> String {
    refusal_in(output).map_or_else(String::new, |(line, refusal)| {
        let missing = if line < 3 {
            "it is missing, or it has"
        } else {
            "it has"
        };
        format!(
            "tsendurkho: line {line} refused ({refusal}): {missing} a wrong length or a character \
             that is none of 0-9, a-f\n"
        )
    })
}

/// A small file with a broken card, and its beats.
fn small_file() -> Vec<u8> {
    let shape = Shape { n: 4, f: 1, c: 8 };
    RunFile::of_length(&mut Random::new(201), shape, 0b0100, 2).text()
}

/// A file of that many beats of about 8,000 bytes each.
fn file_of(beats: usize) -> Vec<u8> {
    let shape = Shape {
        n: 16,
        f: 5,
        c: 1_000,
    };
    RunFile::of_length(&mut Random::new(202), shape, 0b11111, beats).text()
}

/// A file far longer than all buffers between two processes.
fn large_file() -> Vec<u8> {
    file_of(300)
}

#[test]
fn an_input_that_ends_anywhere() {
    let text = small_file();
    for end in 0..=text.len() {
        let output = wanted(&text[..end]);
        let reported = cut_short(&output);
        let status = if reported.is_empty() { 0 } else { 3 };
        assert_ends(
            finished(&mut run(), &text[..end]),
            &output,
            &reported,
            status,
        );
    }
}

/// What the launcher does with an input, of which it need not take all, where each byte is a read of its own: a datagram
/// is one read, and an empty one is the end.
fn fed_by_bytes(text: &[u8]) -> Output {
    let (ours, theirs) = UnixDatagram::pair().expect("a pair of sockets");
    let child = run()
        .stdin(OwnedFd::from(theirs))
        .stdout(Stdio::piped())
        .stderr(Stdio::piped())
        .spawn()
        .expect("the launcher starts");
    let mut datagrams = text.chunks(1).chain([&b""[..]]);
    thread::scope(|scope| {
        scope.spawn(move || datagrams.all(|datagram| ours.send(datagram).is_ok()));
        child.wait_with_output().expect("the launcher ends")
    })
}

#[test]
fn reads_of_one_byte() {
    let text = small_file();
    assert_ends(fed_by_bytes(&text), &wanted(&text), "", 0);
}

/// However many reads there were, none of them is taken for the last: here are more than a million, and more than 2^20.
#[test]
fn more_than_a_million_reads() {
    let text = file_of(135);
    assert!(text.len() > 1 << 20, "{} reads", text.len());
    assert_ends(fed_by_bytes(&text), &wanted(&text), "", 0);
}

/// A socket that may not wait fails to be read after the bytes that are there, as an interrupted read fails.
#[test]
fn a_read_that_fails_anywhere() {
    let text = small_file();
    for end in 0..=text.len() {
        let (mut ours, theirs) = UnixStream::pair().expect("a pair of sockets");
        ours.write_all(&text[..end])
            .expect("the socket takes a few bytes");
        theirs
            .set_nonblocking(true)
            .expect("a socket that does not wait");
        let ended = run()
            .stdin(OwnedFd::from(theirs))
            .output()
            .expect("the launcher runs");
        let output = wanted(&text[..end]);
        assert_ends(
            ended,
            &output,
            &(UNREAD.to_string() + &cut_short(&output)),
            1,
        );
    }
}

#[test]
fn an_input_that_cannot_be_read() {
    let nothing = wanted(b"");
    let unread = UNREAD.to_string() + &cut_short(&nothing);
    let folder = File::open(root()).expect("a folder can be opened");
    let ended = run().stdin(folder).output().expect("the launcher runs");
    assert_ends(ended, &nothing, &unread, 1);
    let closed = shell("exec \"$0\" run <&-")
        .output()
        .expect("the launcher runs");
    assert_ends(closed, &nothing, &unread, 1);
}

/// Sends a signal to a whole group of processes.
fn signal(name: &str, group: u32) {
    let mut kill = shell("kill -s \"$1\" -- \"-$2\"");
    let status = kill.arg(name).arg(group.to_string()).status();
    assert!(status.expect("a shell starts").success(), "{name}");
}

/// The state of each process of a group, as /proc has it: S sleeps, T is stopped, Z has ended.
fn states(group: u32) -> Vec<String> {
    let mut states = Vec::new();
    for entry in fs::read_dir("/proc").expect("/proc") {
        let file = entry.expect("a name in /proc").path().join("stat");
        // Of what is no process, or is one no more, there is nothing to read.
        let stat = fs::read_to_string(file).unwrap_or_default();
        // NUMBER (NAME) STATE PARENT GROUP, and more.
        let fields = stat.rsplit(") ").next().unwrap_or_default();
        let fields: Vec<&str> = fields.split(' ').take(3).collect();
        if fields.last() == Some(&group.to_string().as_str()) {
            states.push(fields[0].to_string());
        }
    }
    states
}

/// Waits until every process of a group is in this state.
fn wait_until_all(state: &str, group: u32) {
    let mut found = states(group);
    while found.iter().any(|other| other != state) {
        assert!(
            found.iter().any(|other| other != "Z"),
            "the launcher has ended"
        );
        thread::yield_now();
        found = states(group);
    }
    assert!(!found.is_empty(), "the launcher has ended");
}

/// A signal that stops the program and one that lets it go on interrupt its read, and change nothing.
#[test]
fn a_program_that_is_stopped_and_goes_on() {
    let text = large_file();
    let lines: Vec<&[u8]> = text.split_inclusive(|&byte| byte == b'\n').collect();
    let (most, last) = lines.split_at(lines.len() - 3);
    // A session of its own, and so a group of processes with the launcher's number.
    let mut child = started(Command::new("setsid").arg(launcher()).arg("run"));
    let mut input = child.stdin.take().expect("its input is a pipe");
    // When so much is taken, the launcher has started it.
    assert!(send(&mut input, &most.concat()));
    for line in last {
        wait_until_all("S", child.id());
        signal("STOP", child.id());
        // A stop that it has not seen is taken back by the signal to go on.
        wait_until_all("T", child.id());
        signal("CONT", child.id());
        assert!(send(&mut input, line));
    }
    drop(input);
    let ended = child.wait_with_output().expect("the launcher ends");
    assert_ends(ended, &wanted(&text), "", 0);
}

/// Nothing is read any more after a write that failed: most of a large input is left over.
#[test]
fn a_full_disk() {
    let full = OpenOptions::new()
        .write(true)
        .open("/dev/full")
        .expect("/dev/full");
    let mut child = run()
        .stdin(Stdio::piped())
        .stdout(full)
        .stderr(Stdio::piped())
        .spawn()
        .expect("the launcher starts");
    let mut input = child.stdin.take().expect("its input is a pipe");
    assert!(!send(&mut input, &large_file()));
    let ended = child.wait_with_output().expect("the launcher ends");
    assert_ends(ended, b"", UNWRITTEN, 1);
}

/// A limit on the size of a file cuts a write short, and then every write fails.
#[test]
fn a_disk_that_fills_up() {
    let text = large_file();
    let whole = wanted(&text);
    let printed = scratch("fills-up").join("out.txt");
    for blocks in 1..=8 {
        let mut limited = shell("trap '' XFSZ; ulimit -f \"$1\"; exec \"$0\" run >\"$2\"");
        limited.arg(blocks.to_string()).arg(&printed);
        assert_ends(finished(&mut limited, &text), b"", UNWRITTEN, 1);
        let part = fs::read(&printed).expect("what was written");
        // A shell counts in blocks of 512 bytes, or of 1,024.
        assert!(
            [512 * blocks, 1_024 * blocks].contains(&part.len()),
            "{}",
            part.len()
        );
        assert!(whole.starts_with(&part));
    }
}

/// A refusal that could not be written to the output is still reported, and the failed write decides the status.
#[test]
fn a_refusal_and_a_full_disk() {
    let refused = finished(&mut shell("exec \"$0\" run >/dev/full"), b"");
    let reported = cut_short(&wanted(b"")) + UNWRITTEN;
    assert_ends(refused, b"", &reported, 1);
}

#[test]
fn an_output_that_cannot_be_written() {
    let closed = finished(&mut shell("exec \"$0\" run >&-"), &small_file());
    assert_ends(closed, b"", "tsendurkho: standard output is closed\n", 1);
    let for_reading = finished(&mut shell("exec \"$0\" run 1</dev/null"), &small_file());
    assert_ends(for_reading, b"", UNWRITTEN, 1);
}

/// How the launcher ends, and what is reported, where nobody reads the output.
fn unread(mut command: Command) -> (ExitStatus, String) {
    let mut child = started(&mut command);
    drop(child.stdout.take());
    let mut input = child.stdin.take().expect("its input is a pipe");
    assert!(!send(&mut input, &large_file()));
    let ended = child.wait_with_output().expect("the launcher ends");
    (ended.status, parts(&ended).1)
}

/// The system ends the program by signal 13, as it ends others; where that signal is ignored, the write fails.
#[test]
fn a_reader_that_goes_away() {
    let (status, reported) = unread(run());
    assert_eq!((status.code(), reported.as_str()), (Some(128 + 13), ""));
    let (status, reported) = unread(shell("trap '' PIPE; exec \"$0\" run"));
    assert_eq!((status.code(), reported.as_str()), (Some(1), UNWRITTEN));
}
