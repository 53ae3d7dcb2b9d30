// The command line: make cases, answer them, make fresh random ones, make updates and byte strings with their answers,
// and hold given answers to our own.

use second::answer::{Case, Desk, Next, BAD_CASE, GIVEN, OPERATIONS};
use second::blocks::write_blocks;
use second::cases;
use second::updates::write_records;
use std::env;
use std::fs::File;
use std::io::{self, stdin, stdout, BufRead, BufReader, BufWriter, Write};
use std::process::ExitCode;

/// Each command: its name, what follows it, and its help.
const COMMANDS: [(&str, &[&str], &str); 6] = [
    (
        "cases",
        &["SEED"],
        "Writes the stored cases of this seed to standard output. Fails and writes nothing if they don't cover\n\
         every operation, verdict, pair of refusals and corner on the list in src/cover.rs.",
    ),
    ("answers", &[], "Reads cases on standard input and writes their answers to standard output."),
    (
        "fuzz",
        &["SEED", "COUNT"],
        "Writes about COUNT fresh random cases, never fewer, to standard output.\n\
         The same seed and count give the same cases.",
    ),
    (
        "updates",
        &["SEED", "COUNT"],
        "Writes updates to standard output, as records of four big-endian 16-bit words: field, old fold, new fold\n\
         and answer. First every three of 0000, 0001, 7FFF, 8000, FFFE and FFFF, then COUNT random triples. The same\n\
         seed and count give the same records.",
    ),
    (
        "blocks",
        &["SEED"],
        "Writes byte strings to standard output, as records of a big-endian 32-bit length, the bytes, and their field:\n\
         each length from 0 to 300 and some longer ones, of FF, of zeros, of both, and of random bytes.",
    ),
    (
        "compare",
        &["CASES", "ANSWERS"],
        "Answers the cases in the file CASES and holds each line to the file ANSWERS. Stops at the first\n\
         difference, shows the case in full, and ends with status 1.",
    ),
];

enum Failure {
    /// The command line is wrong: status 2.
    Usage(String),
    /// Anything else: status 1.
    Other(String),
}

impl From<io::Error> for Failure {
    fn from(error: io::Error) -> Self {
        Failure::Other(error.to_string())
    }
}

fn main() -> ExitCode {
    let words: Vec<String> = env::args().skip(1).collect();
    match run(&words.iter().map(String::as_str).collect::<Vec<_>>()) {
        Ok(()) => ExitCode::SUCCESS,
        Err(Failure::Usage(sentence)) => {
            eprintln!("second: {sentence} Try `second --help`.");
            ExitCode::from(2)
        }
        Err(Failure::Other(sentence)) => {
            eprintln!("second: {sentence}");
            ExitCode::FAILURE
        }
    }
}

fn run(words: &[&str]) -> Result<(), Failure> {
    let (name, rest) = words.split_first().ok_or_else(|| Failure::Usage("A command is missing.".into()))?;
    if *name == "--help" {
        println!("The second implementation of the rules paper. The case format is in CASES.md.\n");
        COMMANDS.iter().for_each(help);
        return Ok(());
    }
    let command = COMMANDS.iter().find(|command| command.0 == *name);
    let command = command.ok_or_else(|| Failure::Usage(format!("There is no command `{name}`.")))?;
    if rest.contains(&"--help") {
        help(command);
        return Ok(());
    }
    if rest.len() != command.1.len() {
        return Err(Failure::Usage(format!("The usage is `{}`.", usage(command))));
    }
    match *name {
        "cases" => write_cases(number(rest[0])?),
        "answers" => write_answers(),
        "fuzz" => Ok(cases::fuzz(number(rest[0])?, number(rest[1])?, &mut BufWriter::new(stdout().lock()))?),
        "updates" => Ok(write_records(number(rest[0])?, number(rest[1])?, &mut BufWriter::new(stdout().lock()))?),
        "blocks" => Ok(write_blocks(number(rest[0])?, &mut BufWriter::new(stdout().lock()))?),
        _ => compare(rest[0], rest[1]),
    }
}

fn usage((name, follow, _): &(&str, &[&str], &str)) -> String {
    [&["second", name], *follow].concat().join(" ")
}

fn help(command: &(&str, &[&str], &str)) {
    println!("{}\n    {}\n", usage(command), command.2.replace('\n', "\n    "));
}

fn number(word: &str) -> Result<u64, Failure> {
    word.parse().map_err(|_| Failure::Usage(format!("`{word}` is not a whole number of at most 64 bits.")))
}

fn write_cases(seed: u64) -> Result<(), Failure> {
    let (bytes, count) = cases::stored(seed).map_err(Failure::Other)?;
    stdout().lock().write_all(&bytes)?;
    eprintln!("{count} cases");
    Ok(())
}

fn write_answers() -> Result<(), Failure> {
    let (mut input, mut output) = (stdin().lock(), BufWriter::new(stdout().lock()));
    let mut desk = Desk::default();
    loop {
        match Case::read(&mut input)? {
            Next::Case(case) => {
                desk.lay(&case);
                output.write_all(desk.answer(&case).as_bytes())?;
            }
            Next::Bad => {
                output.write_all(BAD_CASE.as_bytes())?;
                output.flush()?;
                return Err(Failure::Other("a case is malformed".into()));
            }
            Next::End => return Ok(output.flush()?),
        }
    }
}

fn open(name: &str) -> Result<BufReader<File>, Failure> {
    let file = File::open(name).map_err(|error| Failure::Other(format!("`{name}` can't be read: {error}.")))?;
    Ok(BufReader::new(file))
}

fn compare(cases: &str, answers: &str) -> Result<(), Failure> {
    let (mut input, mut answers) = (open(cases)?, open(answers)?);
    let (mut desk, mut place) = (Desk::default(), 0);
    loop {
        let case = match Case::read(&mut input)? {
            Next::Case(case) => case,
            Next::Bad => return Err(Failure::Other(format!("the case after number {place} is malformed"))),
            Next::End => return end_of_cases(place, &mut answers),
        };
        place += 1;
        desk.lay(&case);
        let before = desk.buffer.clone();
        for ours in desk.answer(&case).split_inclusive('\n') {
            let theirs = line(&mut answers)?;
            if theirs != ours.as_bytes() {
                return Err(difference(place, case, before, ours, &theirs));
            }
        }
    }
}

fn line(answers: &mut impl BufRead) -> Result<Vec<u8>, Failure> {
    let mut line = Vec::new();
    answers.read_until(b'\n', &mut line)?;
    Ok(line)
}

fn end_of_cases(count: u64, answers: &mut impl BufRead) -> Result<(), Failure> {
    let rest = line(answers)?;
    if !rest.is_empty() {
        let rest = String::from_utf8_lossy(&rest).trim_end().to_string();
        return Err(Failure::Other(format!(
            "after the last case, number {count}, there is an answer too many: {rest}"
        )));
    }
    println!("{count} cases answered alike");
    Ok(())
}

/// Shows a case whose answers differ: in parts, and then whole as a case that gives its own buffer.
fn difference(place: u64, case: Case, before: Vec<u8>, ours: &str, theirs: &[u8]) -> Failure {
    let hex = |bytes: &[u8]| bytes.iter().map(|byte| format!("{byte:02X}")).collect::<String>();
    let lines = [
        format!("case {place} is answered otherwise"),
        format!("ours: {}", ours.trim_end()),
        format!("theirs: {}", String::from_utf8_lossy(theirs).trim_end()),
        format!("operation: {} ({})", case.operation, OPERATIONS[case.operation as usize]),
        format!("source: {}", case.source),
        format!("number: {}", case.number),
        format!("buffer: {}", hex(&before)),
        format!("payload two: {}", hex(&case.two)),
        format!("by itself: {}", hex(&Case { source: GIVEN, one: before, ..case }.to_bytes())),
    ];
    Failure::Other(lines.join("\n"))
}
