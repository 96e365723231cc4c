//! The command line as its users meet it: what it writes, what it says, how it exits, and what it leaves of their files.
mod run;

use run::{edn, fails, hidden, ok, Folder, EDN};
use std::fs;
use std::io::Write;
use std::process::{Command, Stdio};

#[test]
fn the_main_jobs() {
    let f = Folder::new("jobs");
    let text = f.file("sheet.edn", "# monitors\r\n{1: true, 2: [_ ]}\r\n");
    let sheet = f.path("sheet.cbor");
    assert_eq!(ok(&["read", &text], b""), [0xa2, 0x01, 0xf5, 0x02, 0x9f, 0xff]);
    assert_eq!(ok(&["read", &text, "-o", &sheet], b""), b"");
    assert_eq!(ok(&["print", &sheet], b""), b"{1: true, 2: [_ ]}\n");
    assert_eq!(ok(&["look", &sheet, "0/1"], b""), b"[_ ]\n");
    assert_eq!(ok(&["correct", &sheet, "0/1", "-5"], b""), b"");
    assert_eq!(ok(&["print", &sheet], b""), b"{1: true, 2: -5}\n");
    assert_eq!(ok(&["check", &sheet], b""), format!("{sheet}: a sheet, 5 bytes\n").as_bytes());
    assert_eq!(f.names(), ["sheet.cbor", "sheet.edn"]);
}

#[test]
fn standard_input_and_output() {
    assert_eq!(ok(&["read", "-"], b"[1, 2]"), [0x82, 1, 2]);
    assert_eq!(ok(&["print", "-"], &[0x82, 1, 2]), b"[1, 2]\n");
    assert_eq!(ok(&["correct", "-", "0/0", "h'07'"], &[0x82, 1, 2]), [0x82, 0x41, 7, 2]);
    assert_eq!(ok(&["read", "-", "-o", "-"], b"1"), [1]);
    assert_eq!(ok(&["read", "-"], b""), b"");
    assert_eq!(ok(&["print", "-"], b""), b"");
    assert_eq!(ok(&["check", "-"], b""), b"standard input: a sheet of no items (it is empty)\n");
}

#[test]
fn a_refused_text_is_shown() {
    let f = Folder::new("shown");
    let text = f.file("sheet.edn", "{1: true,\r\n\t2: \"水\", 3: ...}\r\n");
    let said = fails(&["read", &text], b"", 1);
    assert_eq!(
        said,
        format!("{text}:2:13: refused 5 at 25: dots\n    \t2: \"水\", 3: ...}}\n    \t            ^\n  Three dots mean \"left out here\"; write the data.\n")
    );
    // an early end is shown behind the last thing that is there
    let said = fails(&["read", "-"], b"[1,\n2\n\n", 1);
    assert!(said.starts_with("standard input:2:2: refused 11 at 7, where the text ends: not allowed here\n    2\n     ^\n"), "{said}");
    // a long line is cut around the place
    let long = format!("[{}...]", "1,".repeat(20_000));
    let said = fails(&["read", "-"], long.as_bytes(), 1);
    assert!(said.lines().all(|l| l.chars().count() < 200) && said.contains("    …1,1"), "{said}");
    // no control character reaches the terminal
    let said = fails(&["read", "-"], b"\x1b[31m", 1);
    assert!(!said.contains('\x1b'), "{said}");
}

#[test]
fn what_people_trip_over() {
    assert!(fails(&["read", "-"], "\u{feff}1".as_bytes(), 1).contains("byte order mark"));
    assert!(fails(&["read", "-"], "“a”".as_bytes(), 1).contains("curly quote"));
    assert!(fails(&["read", "-"], &[0xff, 0xfe, b'1', 0], 1).contains("UTF-16"));
    assert!(fails(&["print", "-"], b"[1, 2]", 1).contains("'edn read'"));
    assert!(fails(&["read", "-"], &[0x82, 0xf5, 0x02], 1).contains("'edn print'"));
    let o = edn(&["print", "-"], b"1, 2\n");
    assert!(o.status.success() && String::from_utf8(o.stderr).unwrap().contains("could be text as well"));
    assert!(fails(&["correct", "-", "0", " 2"], &[1], 1).contains("no blank or comment"));
    assert!(
        fails(&["correct", "-", "0/7", "2"], &[0x81, 1], 1).contains("refused 17 at step 1 of the path: no such path\n    0/7\n      ^")
    );
    assert!(fails(&["look", "-", "0/99999999999"], &[0x81, 1], 1).contains("refused 17 at step 1"));
    assert!(fails(&["look", "-", ""], &[0x81, 1], 1).contains("refused 17 at step 0"));
    assert!(fails(&["print", "-"], &[0x82, 0x01], 1).contains("refused 15 at 2: bytes cut off\n    82 01\n          ^^\n"));
    assert!(fails(&["read", "-"], &[b' '; 70_000], 1).contains("refused 1 at 0: too long"));
}

#[rustfmt::skip]
#[test]
fn bad_usage() {
    for args in [
        &[][..], &["frob"], &["read"], &["read", "a", "b"], &["look", "a"], &["look", "-", "0.1"], &["look", "-", "/0"], &["look", "-", "0/"], &["look", "-", "x"],
        &["correct", "-", "0"], &["correct", "-", "0", "[1,", "2]"], &["read", "-x"], &["check", "-", "-o", "x"], &["read", "-", "-o"], &["read", "-", "-o", "x", "-o", "y"],
        &["read", "-", "-ox", "--output=y"], &["read", "-", "-o", ""], &["read", "-", "--output="], &["read", "-", "--output", ""], &["read", "-", "--outputx"], &["read", ""],
        &["correct", "", "0", "1"], &["correct", "-", "0", "1", "-x"], &["check", "-", ""], &["check", "-", "-"], &["check", "a", "b", "-x"], &["check", "a", "b", "-o-"],
        &["read", "--bytes", "-"], &["print", "--bytes", "-"], &["look", "-", "0", "--bytes"], &["check", "-", "--bytes"],
    ] {
        let said = fails(args, b"", 2);
        assert!(said.contains("--help"), "{said}");
    }
    for args in [&["--help"][..], &["-h"], &["help"], &["read", "--help"]] {
        assert!(String::from_utf8(ok(args, b"")).unwrap().contains("edn correct FILE PATH TEXT"));
    }
    assert!(ok(&["--version"], b"").starts_with(b"edn "));
}

#[test]
fn files_that_cannot_be_had() {
    let f = Folder::new("files");
    let folder = f.0.to_str().unwrap();
    assert!(fails(&["read", &f.path("none.edn")], b"", 2).contains("no such file"));
    assert!(fails(&["read", folder], b"", 2).contains("it is a folder"));
    let text = f.file("a.edn", "1");
    assert!(fails(&["read", &text, "-o", &f.path("none/x")], b"", 2).contains("cannot be written"));
    assert!(fails(&["read", &text, "-o", folder], b"", 2).contains("it is a folder"));
    // rights, which do not bind the superuser
    use std::os::unix::fs::PermissionsExt;
    let sheet = f.file("a.cbor", [1]);
    fs::set_permissions(&sheet, fs::Permissions::from_mode(0o444)).unwrap();
    if fs::OpenOptions::new().write(true).open(&sheet).is_err() {
        assert!(fails(&["correct", &sheet, "0", "2"], b"", 2).contains("rights"));
        assert_eq!(fs::read(&sheet).unwrap(), [1]);
    }
    assert_eq!(f.names(), ["a.cbor", "a.edn"]);
}

#[test]
fn a_file_is_replaced_whole() {
    use std::os::unix::fs::{symlink, PermissionsExt};
    let f = Folder::new("whole");
    let sheet = f.file("sheet.cbor", [0x81, 0x01]);
    fs::set_permissions(&sheet, fs::Permissions::from_mode(0o640)).unwrap();
    // a refusal changes nothing
    fails(&["correct", &sheet, "0/0", "..."], b"", 1);
    assert_eq!(fs::read(&sheet).unwrap(), [0x81, 0x01]);
    // through a link the file behind it is replaced; its rights stay
    let link = f.path("link");
    symlink(&sheet, &link).unwrap();
    ok(&["correct", &link, "0/0", "24"], b"");
    assert_eq!(fs::read(&sheet).unwrap(), [0x81, 0x18, 0x18]);
    assert!(fs::symlink_metadata(&link).unwrap().is_symlink());
    assert_eq!(fs::metadata(&sheet).unwrap().permissions().mode() & 0o777, 0o640);
    // into another file, the first one stays
    let other = f.path("other.cbor");
    ok(&["correct", &sheet, "0/0", "1", "-o", &other], b"");
    assert_eq!(fs::read(&other).unwrap(), [0x81, 0x01]);
    assert_eq!(fs::read(&sheet).unwrap(), [0x81, 0x18, 0x18]);
    // a device is written to, not replaced
    ok(&["read", "-", "-o", "/dev/null"], b"1");
    assert!(!fs::metadata("/dev/null").unwrap().is_file());
    assert_eq!(f.names(), ["link", "other.cbor", "sheet.cbor"]);
}

/// Whoever reads our output may stop reading.
#[test]
fn a_broken_pipe_is_no_failure() {
    let mut sheet = vec![0x01; 20_000];
    sheet.push(0x02);
    let mut child =
        Command::new(EDN).args(["print", "-"]).stdin(Stdio::piped()).stdout(Stdio::piped()).stderr(Stdio::piped()).spawn().unwrap();
    drop(child.stdout.take());
    child.stdin.take().unwrap().write_all(&sheet).unwrap();
    let o = child.wait_with_output().unwrap();
    assert_eq!((o.status.code(), o.stderr), (Some(0), vec![]));
}

/// A text whose bytes happen to be items as well was overwritten once.
#[test]
fn a_text_is_not_corrected() {
    let f = Folder::new("text");
    // 31 2c 20 32 are four items; the next is none; then a text that is refused as one, a comment, and one with other letters
    let texts = ["1, 2", "[1, 2]\r\n", "a", "/ \t / 7\n", "\"Ölwanne\"\n", "\u{feff}1"].map(str::as_bytes);
    // in Latin-1, in code page 1252, with a form feed, with zeros behind it, and in UTF-16 of both orders
    let others: [&[u8]; 7] =
        [b"1, 2 # \xe4\n", b"1,\xa02", b"1, 2 # 5 \x80", b"1,\x0c2", b"1, 2\0\0", b"1\x00,\x002\x00", b"\x001\x00,\x002"];
    for text in texts.into_iter().chain(others) {
        let file = f.file("sheet.edn", text);
        for path in ["0", "0/1", "7", ""] {
            let said = fails(&["correct", &file, path, "5"], b"", 2);
            assert!(
                said.contains(&format!("{file} looks like text")) && said.contains(&format!(": edn read {file} -o {file}.cbor\n")),
                "{said}"
            );
            let out = f.path("other");
            assert!(fails(&["correct", &file, path, "...", "-o", &out], b"", 2).contains("looks like text"));
            assert!(fails(&["correct", "-", path, "5"], text, 2).contains(": edn read - -o FILE.cbor\n"));
        }
        assert_eq!(fs::read(&file).unwrap(), text);
        assert_eq!(f.names(), ["sheet.edn"]);
    }
    // what the sheets of a scanner begin with is never taken for text, however much text is in them
    for sheet in ["[\"catalyst, misfire, evaporation\"]", "{\"type\": \"Kombi 1.6\"}", "0(\"2026-11-16\")"] {
        let file = f.file("sheet.cbor", edn::read(sheet).unwrap());
        ok(&["correct", &file, "0", "1"], b"");
        fs::remove_file(file).unwrap();
    }
}

/// The command that is named can be typed as it stands, whatever the file is called.
#[test]
fn the_advice_works() {
    for name in ["sheet.edn", "my sheet.edn", "-x.edn", "$(touch pwned).edn", "it's;&|.edn", "~.edn", "Prüfung.edn"] {
        let f = Folder::new("advice");
        f.file(name, "1, 2");
        let refused = Command::new(EDN).args(["correct", "--", name, "1", "5"]).current_dir(&f.0).output().unwrap();
        let said = String::from_utf8(refused.stderr).unwrap();
        let advice = said.lines().find_map(|l| l.strip_prefix("  This makes bytes of it: edn ")).expect(&said);
        let followed = Command::new("sh").args(["-c", &format!("\"$0\" {advice}"), EDN]).current_dir(&f.0).output().unwrap();
        assert!(followed.status.success(), "{}", String::from_utf8_lossy(&followed.stderr));
        let made = format!("{name}.cbor");
        ok(&["correct", &f.path(&made), "1", "5"], b"");
        assert_eq!(fs::read(f.0.join(&made)).unwrap(), [1, 5]);
        assert_eq!(f.names().len(), 2, "{:?}", f.names());
    }
}

#[test]
fn bytes_that_look_like_text_are_said_to_be_bytes() {
    let f = Folder::new("bytes");
    let sheet = f.file("sheet.cbor", b"aa");
    for args in [
        ["--bytes", &sheet, "0", "\"b\""],
        [&sheet, "--bytes", "0", "\"c\""],
        [&sheet, "0", "--bytes", "\"d\""],
        [&sheet, "0", "\"e\"", "--bytes"],
    ] {
        assert_eq!(ok(&[&["correct"][..], &args].concat(), b""), b"");
    }
    assert_eq!(fs::read(&sheet).unwrap(), b"ae");
    assert_eq!(ok(&["correct", "-", "0", "\"b\"", "--bytes"], b"aa"), b"ab");
    assert_eq!(ok(&["correct", "-", "0", "--bytes", "-5"], b"aa"), [0x24]);
    // what changes nothing goes on, with a word
    for (args, written) in [
        (&["print", "-"][..], "-18,\n-13,\n-1,\n-19\n"),
        (&["look", "-", "0"], "-18\n"),
        (&["check", "-"], "standard input: a sheet, 4 bytes\n"),
    ] {
        let o = edn(args, b"1, 2");
        assert_eq!((o.status.code(), String::from_utf8(o.stdout).unwrap()), (Some(0), written.to_string()));
        assert!(String::from_utf8(o.stderr).unwrap().contains("could be text as well"));
    }
}

#[test]
fn spellings_of_the_output() {
    let f = Folder::new("spellings");
    let text = f.file("a.edn", "1");
    for args in [
        &["-o", "-"][..],
        &["-o-"],
        &["--output", "-"],
        &["--output=-"],
        &["-o", "/dev/stdout"],
        &["-o/dev/stdout"],
        &["--output=/dev/stdout"],
    ] {
        assert_eq!(ok(&[&["read", &text][..], args].concat(), b""), [1]);
        assert_eq!(ok(&[&["correct"][..], args, &["-", "0", "2"]].concat(), &[1]), [2]);
    }
    let out = f.path("out");
    for args in [&["-o", &out][..], &[&format!("-o{out}")], &["--output", &out], &[&format!("--output={out}")]] {
        assert_eq!(ok(&[&["read"][..], args, &[&text]].concat(), b""), b"");
        assert_eq!(fs::read(&out).unwrap(), [1]);
        assert_eq!(ok(&[&["correct", &out, "0"][..], args, &["-5"]].concat(), b""), b"");
        assert_eq!(fs::read(&out).unwrap(), [0x24]);
        fs::remove_file(&out).unwrap();
    }
    // behind -- nothing is an option
    assert!(fails(&["correct", "-", "0", "--", "-o-"], &[1], 1).contains("TEXT:1:1: refused 3"));
    assert_eq!(f.names(), ["a.edn"]);
}

#[test]
fn several_files_are_checked() {
    let f = Folder::new("several");
    let (good, empty) = (f.file("good", [0x82, 0x01, 0x02]), f.file("empty", b""));
    let (cut, float) = (f.file("cut", [0x82, 0x01]), f.file("float", [0xf9, 0, 0]));
    let (none, folder) = (f.path("none"), f.0.to_str().unwrap().to_string());
    let lines = [
        (&good, "a sheet, 3 bytes"),
        (&empty, "a sheet of no items (it is empty)"),
        (&cut, "refused 15 at 2: bytes cut off"),
        (&float, "refused 6 at 0: floating-point number"),
        (&none, "cannot be read: there is no such file or folder"),
        (&folder, "cannot be read: it is a folder, not a file"),
    ];
    for (order, status) in
        [(&[0, 1, 0][..], 0), (&[2, 0], 1), (&[0, 3], 1), (&[4, 0], 2), (&[0, 5, 2], 2), (&[2, 5, 3, 1], 2), (&[5, 4, 3, 2, 1, 0], 2)]
    {
        let files: Vec<&str> = order.iter().map(|&i| lines[i].0.as_str()).collect();
        let o = edn(&[&["check"][..], &files].concat(), b"");
        let written: String = order.iter().map(|&i| format!("{}: {}\n", lines[i].0, lines[i].1)).collect();
        assert_eq!((String::from_utf8(o.stdout).unwrap(), o.status.code()), (written, Some(status)));
        assert_eq!(o.stderr, b"");
    }
    let o = edn(&["check", "-", &cut], &[0x01]);
    assert_eq!(o.stdout, format!("standard input: a sheet, 1 bytes\n{cut}: refused 15 at 2: bytes cut off\n").as_bytes());
    // of one alone the line is the same, and the place is shown to people
    let o = edn(&["check", &cut], b"");
    assert_eq!((o.stdout, o.status.code()), (format!("{cut}: refused 15 at 2: bytes cut off\n").into_bytes(), Some(1)));
    assert!(o.stderr.starts_with(b"    82 01\n          ^^\n"));
}

#[test]
fn messages_hide_nothing() {
    let f = Folder::new("hidden");
    let all: String = hidden().collect();
    // a name has at most 255 bytes
    for part in all.chars().collect::<Vec<_>>().chunks(50) {
        let odd: String = part.iter().collect();
        let clean = "\u{fffd}".repeat(part.len());
        let (there, none) = (f.file(&format!("a{odd}"), [0x81, 0x01]), f.path(&format!("b{odd}")));
        let text = f.file(&format!("c{odd}"), "1, 2");
        let link = f.path(&format!("d{odd}"));
        let _ = std::os::unix::fs::symlink(&none, &link);
        for (args, shown) in [
            (&[odd.as_str()][..], format!("there is no command '{clean}'")),
            (&["read", &format!("-{odd}")], format!("there is no option '-{clean}'")),
            (&["read", "a", &odd], format!("'{clean}' is extra")),
            (&["look", &there, &odd], format!("the path '{clean}' is not")),
            (&["read", &none], format!("b{clean} cannot be read: there is no such file")),
            (&["read", &there], format!("a{clean}:1:1: refused 2")),
            (&["read", &text, "-o", &text], format!("c{clean}, itself")),
            (&["read", &text, "-o", &format!("{none}/x")], format!("b{clean}/x cannot be written")),
            (&["read", &text, "-o", &link], format!("d{clean} cannot be written: it is a symbolic link")),
            (
                &["correct", &text, "0", "1"],
                format!("c{clean} looks like text, not bytes, and is unchanged\n  This makes bytes of it: edn read FILE -o FILE.cbor\n"),
            ),
            (&["correct", &there, "0/7", "1"], format!("a{clean}: refused 17")),
            (&["correct", &there, "0", "..."], format!("a{clean} is unchanged.")),
            (&["correct", &none, "0", "1"], format!("b{clean} cannot be corrected: there is no such file")),
            (&["check", &there], format!("a{clean}: a sheet, 2 bytes")),
            (&["check", &there, &none], format!("b{clean}: cannot be read")),
            (&["print", &text], format!("c{clean} could be text as well")),
        ] {
            let o = edn(args, b"");
            let said = String::from_utf8([o.stderr, o.stdout].concat()).unwrap();
            assert!(said.contains(&shown), "{shown:?} is not in {said:?}");
            assert!(!said.contains(|c| c != '\n' && all.contains(c)), "{said:?}");
        }
    }
}

#[test]
fn a_shown_line_hides_nothing() {
    let all: String = hidden().filter(|&c| c >= ' ').collect();
    for part in all.chars().collect::<Vec<_>>().chunks(20) {
        let odd: String = part.iter().collect();
        let clean = "\u{fffd}".repeat(part.len());
        let said = fails(&["read", "-"], format!("/\t{odd}/ ... / {odd}\t").as_bytes(), 1);
        let indent = " ".repeat(part.len() + 2);
        assert!(said.contains(&format!("dots\n    /\t{clean}/ ... / {clean}\t\n     \t{indent}^\n")), "{said:?}");
        // so is TEXT
        let said = fails(&["correct", "-", "0", &format!("\"{odd}\" 1")], &[1], 1);
        assert!(said.contains(&format!("\n    \"{clean}\" 1\n")), "{said:?}");
    }
    // bytes under 20 hex are no tokens
    for c in (1..0x20u8).filter(|c| !matches!(c, 9 | 10 | 13)) {
        let said = fails(&["read", "-"], &[c], 1);
        assert!(said.contains("\n    \u{fffd}\n    ^\n"), "{said:?}");
    }
}
