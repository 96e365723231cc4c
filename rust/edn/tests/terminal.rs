//! Standard input and output as they can be: terminals, closed, open the wrong way, failing half-way.
mod run;

use run::system::Terminal;
use run::{edn, failed, hidden, ok, shell, Folder, EDN};
use std::fs;
use std::io::Write;
use std::process::{Command, Stdio};

/// A text string of CBOR.
fn text_string(s: &str) -> Vec<u8> {
    [&[0x79][..], &(s.len() as u16).to_be_bytes(), s.as_bytes()].concat()
}

/// What `edn` writes where its standard output is a terminal.
#[track_caller]
fn on_a_terminal(args: &[&str]) -> String {
    let terminal = Terminal::new();
    let out = terminal.open();
    let mut child = Command::new(EDN).args(args).stdin(Stdio::null()).stdout(out).stderr(Stdio::piped()).spawn().unwrap();
    let written = terminal.written();
    let mut said = String::new();
    std::io::Read::read_to_string(child.stderr.as_mut().unwrap(), &mut said).unwrap();
    assert!(child.wait().unwrap().success(), "{said}");
    written
}

// --------------------------------------------------------------------------------------------------------------------------- terminals

#[test]
fn a_terminal_gets_no_hidden_character() {
    let f = Folder::new("terminal");
    let odd: String = hidden().chain(['\0']).flat_map(|c| ['a', c, '\\', c, '"', c, 'ö', c, '水']).collect();
    let sheet = [text_string(&odd), vec![0x01], text_string("\u{9b}31m\u{202e}")].concat();
    let file = f.file("sheet", &sheet);
    // to a pipe or a file the text goes as the library prints it
    let printed = edn::print(&sheet).unwrap();
    assert!(printed.contains("\u{202e}") && printed.contains("\u{9b}"));
    assert_eq!(ok(&["print", &file], b""), printed.as_bytes());
    ok(&["print", &file, "-o", &f.path("text")], b"");
    assert_eq!(fs::read_to_string(f.path("text")).unwrap(), printed);
    assert_eq!(ok(&["look", &file, "2"], b""), "\"\u{9b}31m\u{202e}\"_1\n".as_bytes());
    // on a terminal nothing of it is left, and it reads back to the same bytes
    for args in [&["print", &file][..], &["print", &file, "-o-"], &["print", &file, "-o", "/dev/stdout"]] {
        let shown = on_a_terminal(args);
        assert!(!shown.contains(|c| c != '\n' && hidden().any(|h| h == c)), "{shown:?}");
        assert!(shown.contains("\\u009b31m\\u202e") && shown.contains("\\udb40\\udc7f") && shown.contains("ö") && shown.contains("水"));
        assert_eq!(edn::read(&shown).unwrap(), sheet);
        assert_eq!(shown.lines().count(), printed.lines().count());
    }
    assert_eq!(on_a_terminal(&["look", &file, "2"]), "\"\\u009b31m\\u202e\"_1\n");
}

#[test]
fn a_terminal_gets_bytes_in_hexadecimal() {
    let f = Folder::new("hexadecimal");
    let (text, sheet) = (f.file("text", "[1, \"\u{1b}\"]".replace('\u{1b}', "\\u001b")), f.file("sheet", [0x1b, 0, 0, 0, 0, 0, 0, 0, 0]));
    for args in [&["read", &text][..], &["read", &text, "-o", "-"], &["read", &text, "-o", "/dev/stdout"]] {
        assert_eq!(on_a_terminal(args), "8201611b\n");
    }
    assert_eq!(on_a_terminal(&["correct", &sheet, "0", "27", "-o-"]), "181b\n");
    // a terminal that is named is one too
    let terminal = Terminal::new();
    let open = terminal.open();
    ok(&["read", &text, "-o", &terminal.name], b"");
    drop(open);
    assert_eq!(terminal.written(), "8201611b\n");
}

// ------------------------------------------------------------------------------------------------------------------ closed descriptors

#[test]
fn closed_standard_input_is_an_error() {
    let f = Folder::new("closed-in");
    let (sheet, out) = (f.file("sheet", [0x81, 0x01]), f.path("out"));
    for args in
        [&["read", "-"][..], &["print", "-"], &["look", "-", "0"], &["correct", "-", "0", "1"], &["check", "-"], &["read", "-", "-o", &out]]
    {
        assert_eq!(failed(shell("exec \"$@\" <&-", args), 2), "edn: standard input is closed\n");
    }
    let o = shell("exec \"$@\" <&-", &["check", "-", &sheet]);
    assert_eq!((o.status.code(), o.stdout), (Some(2), format!("standard input: is closed\n{sheet}: a sheet, 2 bytes\n").into_bytes()));
    // it is asked only where it is read
    assert_eq!(shell("exec \"$@\" <&-", &["print", &sheet]).stdout, b"[1]\n");
    assert_eq!(f.names(), ["sheet"]);
}

#[test]
fn closed_standard_output_is_an_error() {
    let f = Folder::new("closed-out");
    let (text, empty, sheet) = (f.file("text", "1"), f.file("empty", b""), f.file("sheet", [0x81, 0x01]));
    for args in [
        &["read", &text][..],
        &["read", &empty],
        &["read", &text, "-o-"],
        &["read", &text, "-o/dev/stdout"],
        &["print", &sheet],
        &["look", &sheet, "0"],
        &["correct", &sheet, "0", "1", "-o", "-"],
        &["check", &sheet],
        &["check", &sheet, &sheet],
        &["--help"],
        &["--version"],
    ] {
        assert_eq!(failed(shell("exec \"$@\" >&-", args), 2), "edn: standard output is closed\n");
    }
    // it is asked only where it is written, and what is not asked may be closed
    assert!(shell("exec \"$@\" <&- >&- 2>&-", &["correct", &sheet, "0/0", "2"]).status.success());
    assert!(shell("exec \"$@\" <&- >&- 2>&-", &["read", &text, "-o", &f.path("out")]).status.success());
    assert_eq!((fs::read(&sheet).unwrap(), fs::read(f.path("out")).unwrap()), (vec![0x81, 0x02], vec![1]));
    assert_eq!(shell("exec \"$@\" <&- >&- 2>&-", &["print", &sheet]).status.code(), Some(2));
}

#[test]
fn descriptors_open_the_other_way_are_errors() {
    let f = Folder::new("other-way");
    let (text, out) = (f.file("text", "1"), f.path("out"));
    for args in [&["read", "-"][..], &["check", "-"], &["read", "-", "-o", &out]] {
        let said = failed(shell("exec \"$@\" 0>/dev/null", args), 2);
        assert_eq!(said, "edn: standard input cannot be read: it is not open for that\n");
    }
    let said = failed(shell("exec \"$@\" 1</dev/null", &["read", &text]), 2);
    assert_eq!(said, "edn: standard output cannot be written: it is not open for that\n");
    assert_eq!(f.names(), ["text"]);
}

/// What came before a failure is a text too, and no reason to write anything.
#[test]
fn a_read_that_fails_half_way() {
    let f = Folder::new("half-way");
    let (out, old) = (f.path("out"), f.file("old", b"old"));
    for args in [&["read", "-"][..], &["read", "-", "-o", &out], &["read", "-", "-o", &old]] {
        // the side of the keeper: first what was written on the terminal, then an error, since nobody has it open any more
        let terminal = Terminal::new();
        terminal.open().write_all(b"[1, 2]").unwrap();
        let o = Command::new(EDN).args(args).stdin(terminal.keeper).output().unwrap();
        assert!(failed(o, 2).contains("standard input cannot be read: Input/output error"));
    }
    assert_eq!((f.names(), fs::read(&old).unwrap()), (vec!["old".to_string()], b"old".to_vec()));
    // at once
    let o = edn(&["check", "/proc/self/mem", "-"], &[1]);
    assert_eq!(o.status.code(), Some(2));
    assert!(String::from_utf8(o.stdout).unwrap().starts_with("/proc/self/mem: cannot be read: Input/output error"));
    assert!(edn(&["correct", "-", "0", "1", "-o", &out], &[2]).status.success());
}
