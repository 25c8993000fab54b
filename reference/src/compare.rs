//! Plays random scripts here and in another program and reports the first line that differs.

use std::env;
use std::fmt::{self, Display};
use std::fs;
use std::io::{self, Read, Write};
use std::path::{Path, PathBuf};
use std::process::{Command, Stdio};
use std::thread;

use crate::describe::Readable;
use crate::generate::Generator;
use crate::play::{play, say_opened, Hex, Player};
use crate::random::Random;
use crate::script::Calls;

/// Scripts have up to so many calls; half of them are short, so that many endings are seen.
const LONG_SCRIPT: u64 = 6_000;
const SHORT_SCRIPT: u64 = 200;

/// How many calls before the differing one a report shows.
const CALLS_SHOWN: usize = 20;
/// How many octets of a body are shown for these.
const OCTETS_SHOWN: usize = 100;

/// Where the other program first answered differently.
#[derive(Clone, Debug, PartialEq, Eq)]
pub struct Difference {
    /// The line's number, from 1.
    pub line: usize,
    pub ours: Option<String>,
    pub theirs: Option<String>,
    pub context: Context,
    pub script: PathBuf,
}

/// The call that a line belongs to, and what led to it.
#[derive(Clone, Debug, PartialEq, Eq)]
pub struct Context {
    /// The call's number, from 1.
    pub number: usize,
    pub call: String,
    /// The last calls since the record was opened, with our first line for each.
    pub before: Vec<String>,
}

/// Compares so many calls in all. `progress` hears how many are done after each script.
pub fn compare(
    count: u64,
    seed: u64,
    program: &Path,
    mut progress: impl FnMut(u64),
) -> io::Result<Option<Difference>> {
    let mut done = 0;
    let mut number = 0;
    while done < count {
        let (script, calls) = random_script(Random::numbered(seed, number), count - done);
        let theirs = written_by(program, &script)?;
        if let Some(line) = first_difference(play(&script).as_bytes(), &theirs) {
            let path = env::temp_dir().join(format!("compare-{}-{}.script", seed, number));
            fs::write(&path, &script)?;
            return Ok(Some(difference(&script, &theirs, line, path)));
        }
        done += calls;
        number += 1;
        progress(done);
    }
    Ok(None)
}

/// A random script of at most `limit` calls, and how many it has. Some end in a bad or a cut call.
fn random_script(mut random: Random, limit: u64) -> (Vec<u8>, u64) {
    let longest = random.pick(&[SHORT_SCRIPT, LONG_SCRIPT]);
    let calls = (1 + random.below(longest)).min(limit);
    let ending = random.below(4);
    let mut generator = Generator::new(random, true);
    for _ in 1..calls {
        generator.add_call();
    }
    match ending {
        0 => generator.add_bad_call(),
        1 => generator.add_cut_call(),
        _ => generator.add_call(),
    }
    (generator.into_script(), calls)
}

/// What the program writes for a script. Its exit status is its own affair, a signal is not.
pub fn written_by(program: &Path, script: &[u8]) -> io::Result<Vec<u8>> {
    let mut child = Command::new(program)
        .stdin(Stdio::piped())
        .stdout(Stdio::piped())
        .spawn()?;
    let mut input = child.stdin.take();
    let mut output = child.stdout.take();
    let mut written = Vec::new();
    thread::scope(|scope| {
        scope.spawn(move || {
            if let Some(input) = input.as_mut() {
                // A program that has ended at a bad call reads no further.
                let _ = input.write_all(script);
            }
        });
        match output.as_mut() {
            Some(output) => output.read_to_end(&mut written),
            None => Ok(0),
        }
    })?;
    let status = child.wait()?;
    if status.code().is_none() {
        written.extend_from_slice(format!("(ended by {})\n", status).as_bytes());
    }
    Ok(written)
}

/// Splits into lines that keep their newline, so that a missing one shows.
fn lines(text: &[u8]) -> impl Iterator<Item = &[u8]> {
    text.split_inclusive(|&octet| octet == b'\n')
}

/// The index of the first line that is not the same in both.
fn first_difference(ours: &[u8], theirs: &[u8]) -> Option<usize> {
    if ours == theirs {
        return None;
    }
    let same = lines(ours).zip(lines(theirs)).take_while(|(a, b)| a == b);
    Some(same.count())
}

fn difference(script: &[u8], theirs: &[u8], line: usize, path: PathBuf) -> Difference {
    let text = |line: &[u8]| String::from_utf8_lossy(line).into_owned();
    Difference {
        line: line + 1,
        ours: lines(play(script).as_bytes()).nth(line).map(text),
        theirs: lines(theirs).nth(line).map(text),
        context: context(script, line),
        script: path,
    }
}

/// Plays the script up to the call that wrote the line of this index.
fn context(script: &[u8], line: usize) -> Context {
    let mut calls = Calls::new(script);
    let mut player = Player::default();
    let mut before = Vec::new();
    let mut written = 0;
    let mut number = 0;
    loop {
        number += 1;
        let octets = calls.rest();
        let call = match calls.next() {
            Some(Ok(call)) => call,
            Some(Err(_)) => return Context::new(number, bad_call(octets), before),
            None => return Context::new(number, "nothing: the script has ended".into(), before),
        };
        let mut out = String::new();
        player.play(&call, &mut out);
        written += out.lines().count();
        if line < written {
            let whole = Readable {
                call: &call,
                octets_shown: usize::MAX,
            };
            return Context::new(number, whole.to_string(), before);
        }
        if say_opened(&out) {
            before.clear();
        }
        let readable = Readable {
            call: &call,
            octets_shown: OCTETS_SHOWN,
        };
        let answer = out.lines().next().unwrap_or("");
        before.push(format!("{}: {} => {}", number, readable, answer));
    }
}

fn bad_call(octets: &[u8]) -> String {
    let shown = &octets[..octets.len().min(OCTETS_SHOWN)];
    format!(
        "a bad call, {} octets are left: {}",
        octets.len(),
        Hex(shown)
    )
}

impl Context {
    fn new(number: usize, call: String, mut before: Vec<String>) -> Context {
        before.drain(..before.len().saturating_sub(CALLS_SHOWN));
        Context {
            number,
            call,
            before,
        }
    }
}

impl Display for Difference {
    fn fmt(&self, f: &mut fmt::Formatter) -> fmt::Result {
        let shown = |line: &Option<String>| match line {
            Some(line) => line.trim_end_matches('\n').to_owned(),
            None => "(no line)".to_owned(),
        };
        let ours = shown(&self.ours);
        let theirs = shown(&self.theirs);
        writeln!(
            f,
            "line {} differs, at call {}",
            self.line, self.context.number
        )?;
        writeln!(f, "call:   {}", self.context.call)?;
        writeln!(f, "ours:   {}", ours)?;
        writeln!(f, "theirs: {}", theirs)?;
        if ours == theirs {
            writeln!(f, "(one of the two lines has no newline)")?;
        }
        writeln!(f, "calls since the record was opened:")?;
        for call in &self.context.before {
            writeln!(f, "  {}", call)?;
        }
        write!(f, "the script is saved as {}", self.script.display())
    }
}

#[cfg(test)]
mod tests {
    use super::*;
    use crate::script::Call;
    use crate::timer::Sample;

    #[test]
    fn the_first_differing_line_is_found() {
        assert_eq!(first_difference(b"a\nb\n", b"a\nb\n"), None);
        assert_eq!(first_difference(b"a\nb\n", b"a\nc\n"), Some(1));
        assert_eq!(first_difference(b"a\nb\n", b"a\n"), Some(1));
        assert_eq!(first_difference(b"a\n", b"a\nb\n"), Some(1));
        assert_eq!(first_difference(b"a\nb\n", b"a\nb"), Some(1));
    }

    #[test]
    fn a_line_leads_to_its_call() {
        let mut script = Vec::new();
        Call::Timer.encode(&mut script);
        Call::Sample(Sample::new(7, 16)).encode(&mut script);
        Call::Expiry.encode(&mut script);
        script.push(99);
        let found = |line| {
            let context = context(&script, line);
            (context.number, context.call, context.before.len())
        };
        assert_eq!(found(0), (1, "timer".into(), 0));
        assert_eq!(found(1), (1, "timer".into(), 0));
        assert_eq!(found(3), (2, "sample 7 N 16".into(), 1));
        assert_eq!(found(5), (3, "expiry".into(), 2));
        assert_eq!(found(6), (4, "a bad call, 1 octets are left: 63".into(), 3));
    }

    #[test]
    fn a_program_that_echoes_differs_in_its_first_line() {
        let found = compare(50, 1, Path::new("cat"), |_| {}).unwrap().unwrap();
        assert_eq!((found.line, found.context.number), (1, 1));
        assert!(fs::remove_file(found.script).is_ok());
    }

    #[test]
    fn a_program_that_is_not_there_is_an_error() {
        assert!(compare(50, 1, Path::new("no/such/program"), |_| {}).is_err());
    }

    #[test]
    fn scripts_have_as_many_calls_as_they_say() {
        for seed in 0..8 {
            let (script, calls) = random_script(Random::new(seed), 1_200);
            assert_eq!(Calls::new(&script).count() as u64, calls);
        }
    }
}
