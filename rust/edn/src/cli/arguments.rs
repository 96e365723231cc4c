//! What the words of the command line ask for.
use super::destination::Destination;
use super::hidden::clean;
use super::source::Source;
use super::stop::Stop;
use std::ffi::{OsStr, OsString};
use std::os::unix::ffi::OsStrExt;

pub const HELP: &str = "\
edn: data sheets in CBOR diagnostic notation

  edn read FILE [-o OUT]               text to bytes; to standard output, or to OUT
  edn print FILE [-o OUT]              bytes to text
  edn look FILE PATH                   the item at a path, as text
  edn correct FILE PATH TEXT [-o OUT]  put the item TEXT at a path; FILE itself is changed,
                                       or OUT is written
  edn check FILE...                    whether FILE's bytes are a sheet; a line for each

  -o OUT, --output OUT                 OUT '-' is standard output
  --bytes                              'correct' refuses a FILE that looks like text; this
                                       says that it is bytes all the same

FILE '-' is standard input; 'correct' then writes to standard output.
PATH is the number of an item, from 0, then of an array's element or the value of a
map's pair, with slashes between: 0/2/1. It enters no key, tag or string.
TEXT is one item, with no blank or comment around it; quote it for the shell:
  edn correct sheet.cbor 0/1 '[1, \"two\", h'\\''03'\\'']'
Bytes go to a terminal in hexadecimal, and characters that it would not show as \\uXXXX.

A file is written as .NAME.edn-new beside itself and then renamed, so that nothing is
lost on the way; it keeps its owner, group, rights and attributes. A file with several
hard links is not written, and 'read' and 'print' write no file that they read. Of two
corrections at once, the second waits for the first, 10 seconds at most.

Exit status: 0 done; 1 refused (the sheet, the path or the text); 2 bad usage, or a file
that cannot be read or written.
";

pub enum Command {
    Help,
    Version,
    Read { file: Source, out: Destination },
    Print { file: Source, out: Destination },
    Look { file: Source, path: ItemPath },
    Correct(Correction),
    Check { files: Vec<Source> },
}

pub struct Correction {
    pub file: Source,
    pub path: ItemPath,
    pub text: OsString,
    /// FILE itself, where no other is named.
    pub out: Destination,
    /// Whether FILE is bytes even if it looks like text.
    pub bytes: bool,
}

/// A path to an item, as it was written and as numbers.
pub struct ItemPath {
    pub written: String,
    pub steps: Vec<u16>,
}

#[derive(Clone, Copy)]
enum Verb {
    Read,
    Print,
    Look,
    Correct,
    Check,
}

/// What a command takes.
struct Shape {
    verb: Verb,
    command: &'static str,
    wants: &'static [&'static str],
    /// Whether the last of these may come more than once.
    several: bool,
    output: bool,
    bytes: bool,
}

#[rustfmt::skip]
const SHAPES: [Shape; 5] = [
    Shape { verb: Verb::Read,    command: "read",    wants: &["FILE"],                 several: false, output: true,  bytes: false },
    Shape { verb: Verb::Print,   command: "print",   wants: &["FILE"],                 several: false, output: true,  bytes: false },
    Shape { verb: Verb::Look,    command: "look",    wants: &["FILE", "PATH"],         several: false, output: false, bytes: false },
    Shape { verb: Verb::Correct, command: "correct", wants: &["FILE", "PATH", "TEXT"], several: false, output: true,  bytes: true },
    Shape { verb: Verb::Check,   command: "check",   wants: &["FILE"],                 several: true,  output: false, bytes: false },
];

fn misused<T>(message: impl Into<String>) -> Result<T, Stop> {
    Err(Stop::Misused(message.into()))
}

pub fn parse(args: &[OsString]) -> Result<Command, Stop> {
    let Some((command, rest)) = args.split_first() else { return misused("a command is wanted: read, print, look, correct or check") };
    match command.as_bytes() {
        b"-h" | b"--help" | b"help" => return Ok(Command::Help),
        b"-V" | b"--version" => return Ok(Command::Version),
        _ => {}
    }
    let Some(shape) = SHAPES.iter().find(|shape| command == shape.command) else {
        return misused(format!("there is no command '{}': read, print, look, correct or check", quoted(command)));
    };
    match words(rest, shape)? {
        Some(w) => {
            fits(&w, shape)?;
            build(w, shape)
        }
        None => Ok(Command::Help),
    }
}

fn quoted(word: &OsStr) -> String {
    clean(&word.to_string_lossy())
}

/// The words behind the command.
#[derive(Default)]
struct Words {
    plain: Vec<OsString>,
    out: Option<OsString>,
    bytes: bool,
}

/// Takes the words apart; none where help is asked for. In the place of correct's TEXT a word that begins with '-' is no option, since -5 is
/// an item; those that are known are options there too, since no item is written like them.
fn words(args: &[OsString], shape: &Shape) -> Result<Option<Words>, Stop> {
    let mut w = Words::default();
    let mut rest = args.iter();
    while let Some(a) = rest.next() {
        let b = a.as_bytes();
        let may_be_text = shape.wants.get(w.plain.len()) == Some(&"TEXT");
        if b == b"-h" || b == b"--help" {
            return Ok(None);
        } else if b == b"--" {
            w.plain.extend(rest.by_ref().cloned());
        } else if b == b"--bytes" && shape.bytes {
            w.bytes = true;
        } else if let Some(out) = output_option(b, &mut rest)? {
            if w.out.replace(out).is_some() {
                return misused("-o stands there twice");
            }
        } else if b.len() > 1 && b[0] == b'-' && !may_be_text {
            return misused(format!("there is no option '{}'", quoted(a)));
        } else {
            w.plain.push(a.clone());
        }
    }
    Ok(Some(w))
}

/// The name that goes with -o or --output, in the same word or in the next; none where the word is neither.
fn output_option<'a>(word: &[u8], rest: &mut impl Iterator<Item = &'a OsString>) -> Result<Option<OsString>, Stop> {
    let name = if word == b"-o" || word == b"--output" {
        match rest.next() {
            Some(name) => name.clone(),
            None => return misused("-o wants the name of a file behind it"),
        }
    } else if let Some(name) = word.strip_prefix(b"--output=").or(word.strip_prefix(b"-o")) {
        OsStr::from_bytes(name).to_owned()
    } else {
        return Ok(None);
    };
    if name.is_empty() {
        return misused("the name behind -o is empty");
    }
    Ok(Some(name))
}

/// Whether a command takes these words.
fn fits(w: &Words, shape: &Shape) -> Result<(), Stop> {
    let Shape { command, wants, .. } = shape;
    if w.out.is_some() && !shape.output {
        return misused(format!("'edn {command}' takes no -o"));
    }
    if w.plain.len() < wants.len() {
        return misused(format!("'edn {command}' wants {}; {} is missing", wants.join(" "), wants[w.plain.len()]));
    }
    if w.plain.len() > wants.len() && !shape.several {
        return misused(format!(
            "'edn {command}' wants {} and no more: '{}' is extra (quote a text that has blanks)",
            wants.join(" "),
            quoted(&w.plain[wants.len()])
        ));
    }
    Ok(())
}

fn build(w: Words, shape: &Shape) -> Result<Command, Stop> {
    let file = source(&w.plain[0])?;
    let out = w.out.map(destination);
    Ok(match shape.verb {
        Verb::Read => Command::Read { file, out: out.unwrap_or(Destination::Standard) },
        Verb::Print => Command::Print { file, out: out.unwrap_or(Destination::Standard) },
        Verb::Look => Command::Look { file, path: item_path(&w.plain[1])? },
        Verb::Correct => Command::Correct(Correction {
            path: item_path(&w.plain[1])?,
            text: w.plain[2].clone(),
            out: out.unwrap_or_else(|| destination(w.plain[0].clone())),
            bytes: w.bytes,
            file,
        }),
        Verb::Check => Command::Check { files: sources(&w.plain)? },
    })
}

fn source(name: &OsStr) -> Result<Source, Stop> {
    match name.as_bytes() {
        b"" => misused("the name of FILE is empty"),
        b"-" => Ok(Source::Standard),
        _ => Ok(Source::File(name.into())),
    }
}

fn sources(names: &[OsString]) -> Result<Vec<Source>, Stop> {
    if names.iter().filter(|name| *name == "-").count() > 1 {
        return misused("standard input can be read once only");
    }
    names.iter().map(|name| source(name)).collect()
}

fn destination(name: OsString) -> Destination {
    if name == "-" || name == "/dev/stdout" {
        Destination::Standard
    } else {
        Destination::File(name.into())
    }
}

/// The path to an item. A step that is over every index stays so.
fn item_path(path: &OsStr) -> Result<ItemPath, Stop> {
    let wrong = || Stop::Misused(format!("the path '{}' is not numbers with slashes between, such as 0/2/1", quoted(path)));
    let written = path.to_str().ok_or_else(wrong)?;
    let mut steps = Vec::new();
    // the empty path is one too, and the library's to refuse
    for step in written.split('/').filter(|_| !written.is_empty()) {
        if step.is_empty() || !step.bytes().all(|b| b.is_ascii_digit()) {
            return Err(wrong());
        }
        steps.push(step.parse().unwrap_or(u16::MAX));
    }
    Ok(ItemPath { written: written.into(), steps })
}
