//! Compares this program's answers with another's, request by request.

use crate::describe;
use crate::requests::Request;
use crate::tally::Tally;
use std::io::{BufReader, BufWriter, Read, Write};
use std::process::{Command, Stdio};
use std::sync::mpsc;
use std::thread;

/// Looks at an answer and says what is wrong with it, if anything.
pub type Judge<'a> = &'a dyn Fn(&Request, &[u8]) -> Option<String>;

/// The ordinary judge: every byte as this program answers.
pub fn same_bytes(request: &Request, answer: &[u8]) -> Option<String> {
    let own = request.answer();
    (own != answer).then(|| describe::difference(request, &own, answer))
}

/// Asks the command, or this program if there is none, and judges every answer; false at the first bad one and if bytes come after
/// the last.
pub fn compare(
    requests: impl Iterator<Item = (u64, Request)> + Send + 'static,
    command: &[String],
    judge: Judge,
    tally: &mut Tally,
) -> Result<bool, String> {
    let mut judged = |index: u64, request: &Request, answer: &[u8]| {
        if let Some(wrong) = judge(request, answer) {
            println!("request {index} differs\n{}{wrong}", describe::call(request));
            return false;
        }
        tally.request(request);
        true
    };
    let Some((name, arguments)) = command.split_first() else {
        for (index, request) in requests {
            if !judged(index, &request, &request.answer()) {
                return Ok(false);
            }
        }
        return Ok(true);
    };
    let mut child = Command::new(name)
        .args(arguments)
        .stdin(Stdio::piped())
        .stdout(Stdio::piped())
        .spawn()
        .map_err(|error| format!("cannot start {name}: {error}"))?;
    let mut to_child = BufWriter::new(child.stdin.take().expect("a pipe"));
    let mut from_child = BufReader::new(child.stdout.take().expect("a pipe"));
    // The channel has no limit, so that writing never waits for our reading.
    let (sender, sent) = mpsc::channel();
    let writer = thread::spawn(move || {
        for (index, request) in requests {
            // A child that has ended is noticed where its answers are read.
            if request.write(&mut to_child).is_err() || sender.send((index, request)).is_err() {
                return;
            }
        }
        let _ = to_child.flush();
    });
    let mut outcome = Ok(true);
    for (index, request) in sent.iter() {
        let good = match request.read_answer(&mut from_child) {
            Ok(answer) => judged(index, &request, &answer),
            Err(error) => {
                println!("request {index} has no answer\n{}", describe::call(&request));
                outcome = Err(format!("reading answer {index}: {error}"));
                break;
            }
        };
        if !good {
            outcome = Ok(false);
            break;
        }
    }
    drop(sent);
    if outcome != Ok(true) {
        let _ = child.kill();
    }
    writer.join().map_err(|_| "the writer of requests failed".to_string())?;
    if outcome == Ok(true) && more(&mut from_child)? {
        let _ = child.kill();
        outcome = Ok(false);
    }
    let status = child.wait().map_err(|error| error.to_string())?;
    if outcome == Ok(true) && !status.success() {
        return Err(format!("the other side ended with {status}"));
    }
    outcome
}

/// Bytes after the last answer are a difference.
fn more(from: &mut dyn Read) -> Result<bool, String> {
    let mut bytes = Vec::new();
    from.take(16).read_to_end(&mut bytes).map_err(|error| format!("reading after the last answer: {error}"))?;
    if !bytes.is_empty() {
        println!("bytes after the last answer: {}", describe::hex(&bytes, 15));
    }
    Ok(!bytes.is_empty())
}

#[cfg(test)]
mod tests {
    use super::*;

    fn compared(after: &str) -> Result<bool, String> {
        let request = Request::Text(b"00\n".to_vec());
        // an output of no bytes, then what comes after it
        let script = format!("cat >/dev/null; printf '\\0\\0\\0\\0{after}'");
        let command = ["sh".to_string(), "-c".to_string(), script];
        compare([(0, request)].into_iter(), &command, &|_, _| None, &mut Tally::default())
    }

    #[test]
    fn bytes_after_the_last_answer_are_a_difference() {
        assert_eq!(compared(""), Ok(true));
        assert_eq!(compared("x"), Ok(false));
    }
}
