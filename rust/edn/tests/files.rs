//! What becomes of people's files: none is lost, torn, or changed in what it was beside its bytes, whatever comes in between.
mod run;

use run::system::{attribute, is_root, set_attribute};
use run::{edn, failed, fails, fed, ok, shell, Folder, EDN};
use std::fs::{self, File, OpenOptions, Permissions};
use std::os::fd::AsRawFd;
use std::os::unix::fs::{chown, symlink, MetadataExt, PermissionsExt};
use std::os::unix::process::{CommandExt, ExitStatusExt};
use std::path::Path;
use std::process::{Child, Command, Output, Stdio};
use std::sync::OnceLock;
use std::thread::sleep;
use std::time::Duration;

const SIGXFSZ: i32 = 25;
/// A user whom rights bind, and who owns nothing.
const NOBODY: u32 = 65_534;
const SHEET: [u8; 3] = [0x82, 0x01, 0x02];

fn mode(path: &str) -> u32 {
    fs::metadata(path).unwrap().mode() & 0o7777
}

fn set_mode(path: impl AsRef<Path>, mode: u32) {
    fs::set_permissions(path, Permissions::from_mode(mode)).unwrap();
}

/// `edn` as a user whom rights bind, even where the tests are run by the superuser, and wherever the program stands.
fn bound() -> Command {
    static PROGRAM: OnceLock<File> = OnceLock::new();
    if !is_root() {
        return Command::new(EDN);
    }
    let program = PROGRAM.get_or_init(|| File::open(EDN).unwrap());
    let mut command = Command::new(format!("/proc/self/fd/{}", program.as_raw_fd()));
    command.uid(NOBODY).gid(NOBODY);
    command
}

/// A folder which that user can enter and owns.
fn bound_folder(name: &str) -> Folder {
    let f = Folder::within(&std::env::temp_dir(), name);
    set_mode(&f.0, 0o755);
    give(&f.0);
    f
}

fn give(path: impl AsRef<Path>) {
    if is_root() {
        chown(path, Some(NOBODY), Some(NOBODY)).unwrap();
    }
}

/// One line on standard error.
#[track_caller]
fn one_line(o: Output) -> String {
    let said = failed(o, 2);
    assert_eq!(said.lines().count(), 1, "{said}");
    said
}

// ----------------------------------------------------------------------------------------------------------- output that is the input

#[test]
fn no_file_is_written_over_itself() {
    let f = Folder::new("itself");
    let link = f.path("link");
    for (command, content) in [("read", &b"# the source\n[1, 2]\n"[..]), ("print", &SHEET)] {
        let file = f.file("file", content);
        symlink("file", &link).unwrap();
        fs::hard_link(&file, f.path("name")).unwrap();
        for other in [&file, &f.path("./file"), &link, &f.path("name")] {
            let mut runs = vec![edn(&[command, &file, "-o", other], b""), edn(&[command, other, "-o", &file], b"")];
            // standard input is the file
            runs.push(Command::new(EDN).args([command, "-", "-o", other]).stdin(File::open(&file).unwrap()).output().unwrap());
            runs.push(Command::new(EDN).args([command, "/dev/stdin", "-o", other]).stdin(File::open(&file).unwrap()).output().unwrap());
            // standard output is
            let append = || OpenOptions::new().append(true).open(&file).unwrap();
            runs.push(Command::new(EDN).args([command, other]).stdout(append()).output().unwrap());
            runs.push(Command::new(EDN).args([command, other, "-o", "/dev/stdout"]).stdout(append()).output().unwrap());
            runs.push(Command::new(EDN).args([command, "-"]).stdin(File::open(other).unwrap()).stdout(append()).output().unwrap());
            for o in runs {
                assert!(one_line(o).contains("is the input"), "{command} {other}");
                assert_eq!(fs::read(&file).unwrap(), content, "{command} {other}");
            }
        }
        assert_eq!(f.names(), ["file", "link", "name"]);
        for name in f.names() {
            fs::remove_file(f.path(&name)).unwrap();
        }
    }
}

/// Nor is anything else written into a sheet that is being read.
#[test]
fn no_answer_goes_into_the_sheet() {
    let f = Folder::new("answer");
    let (sheet, other) = (f.file("sheet", SHEET), f.file("other", SHEET));
    for args in [&["look", &sheet, "0"][..], &["check", &sheet], &["check", &other, &sheet], &["correct", &sheet, "0", "1", "-o-"]] {
        let out = OpenOptions::new().append(true).open(&sheet).unwrap();
        assert!(one_line(Command::new(EDN).args(args).stdout(out).output().unwrap()).contains("is the input"));
    }
    let o = Command::new(EDN).args(["correct", "-", "0", "1", "-o", &sheet]).stdin(File::open(&sheet).unwrap()).output().unwrap();
    assert!(one_line(o).contains("is the input"));
    // nor is a source taken for what a killed run left
    let odd = f.file(".sheet.edn-new", "1");
    assert!(fails(&["read", &odd, "-o", &sheet], b"", 2).contains("is the input"));
    assert!(fails(&["read", "-", "-o", &odd], b"1", 2).contains("not finished"));
    assert_eq!((fs::read(&sheet).unwrap(), fs::read(&odd).unwrap()), (SHEET.to_vec(), b"1".to_vec()));
    // a device may be both
    let null = || OpenOptions::new().read(true).write(true).open("/dev/null").unwrap();
    assert!(Command::new(EDN).args(["read", "-", "-o", "/dev/null"]).stdin(null()).stdout(null()).status().unwrap().success());
}

#[test]
fn correct_takes_the_file_itself_for_its_output() {
    let f = Folder::new("same");
    let sheet = f.file("sheet", SHEET);
    let link = f.path("link");
    symlink("sheet", &link).unwrap();
    for (i, (file, out)) in [(&sheet, &sheet), (&sheet, &f.path("./sheet")), (&sheet, &link), (&link, &sheet)].into_iter().enumerate() {
        // under the same lock: while another has it, nothing happens
        let held = File::open(&sheet).unwrap();
        held.try_lock().unwrap();
        let mut child = Command::new(EDN).args(["correct", file, "0/0", &(i + 5).to_string(), "-o", out]).spawn().unwrap();
        sleep(Duration::from_millis(150));
        assert!(child.try_wait().unwrap().is_none());
        assert_eq!(fs::read(&sheet).unwrap()[1] as usize, if i == 0 { 1 } else { i + 4 });
        held.unlock().unwrap();
        assert!(child.wait().unwrap().success());
        assert_eq!(fs::read(&sheet).unwrap()[1] as usize, i + 5);
    }
    assert_eq!(f.names(), ["link", "sheet"]);
}

// ------------------------------------------------------------------------------------------------------------------ what a file keeps

/// An access control list as the system stores it: the owner reads and writes, user 12,345 reads, the group nothing, others nothing.
fn access_list() -> Vec<u8> {
    const VERSION: u32 = 2;
    const NO_ID: u32 = u32::MAX;
    let mut list = VERSION.to_le_bytes().to_vec();
    for (tag, rights, id) in [(0x01u16, 6u16, NO_ID), (0x02, 4, 12_345), (0x04, 0, NO_ID), (0x10, 4, NO_ID), (0x20, 0, NO_ID)] {
        list.extend([tag.to_le_bytes(), rights.to_le_bytes()].concat());
        list.extend(id.to_le_bytes());
    }
    list
}

#[test]
fn owner_mode_and_attributes_stay() {
    let f = Folder::new("keeps");
    let text = f.file("text", "[7, 7]");
    for args in [&["correct", "SHEET", "0/0", "9"][..], &["read", &text, "-o", "SHEET"]] {
        for wanted in [0o640, 0o604, 0o600, 0o666, 0o444, 0o6750] {
            let sheet = f.file("sheet", SHEET);
            if is_root() {
                chown(&sheet, Some(12_345), Some(54_321)).unwrap();
            } else if wanted == 0o444 {
                continue; // rights bind this user
            }
            let noted = set_attribute(&sheet, "user.note", b"checked\0");
            let listed = wanted == 0o640 && set_attribute(&sheet, "system.posix_acl_access", &access_list());
            set_mode(&sheet, wanted);
            let before = fs::metadata(&sheet).unwrap();
            ok(&args.iter().map(|a| if *a == "SHEET" { &sheet } else { *a }).collect::<Vec<_>>(), b"");
            let after = fs::metadata(&sheet).unwrap();
            assert_ne!((after.ino(), fs::read(&sheet).unwrap()), (before.ino(), SHEET.to_vec()));
            assert_eq!((after.uid(), after.gid(), after.mode()), (before.uid(), before.gid(), before.mode()));
            assert_eq!(attribute(&sheet, "user.note"), noted.then(|| b"checked\0".to_vec()));
            assert_eq!(attribute(&sheet, "system.posix_acl_access"), listed.then(access_list));
            fs::remove_file(&sheet).unwrap();
        }
    }
}

/// A folder may hand an access control list down to new files; the sheet had none.
#[test]
fn the_folder_hands_nothing_down() {
    let f = Folder::new("handed");
    let sheet = f.file("sheet", SHEET);
    set_mode(&sheet, 0o640);
    if set_attribute(f.0.to_str().unwrap(), "system.posix_acl_default", &access_list()) {
        assert!(attribute(&f.file("new", b""), "system.posix_acl_access").is_some());
        ok(&["correct", &sheet, "0/0", "9"], b"");
        assert_eq!((attribute(&sheet, "system.posix_acl_access"), mode(&sheet)), (None, 0o640));
    }
}

#[test]
fn links_stay() {
    let f = Folder::new("links");
    fs::create_dir(f.path("far")).unwrap();
    let sheet = f.file("far/sheet", SHEET);
    symlink("far/hop", f.path("link")).unwrap();
    symlink("../far/sheet", f.path("far/hop")).unwrap();
    let link = f.path("link");
    ok(&["correct", &link, "0/0", "9"], b"");
    ok(&["correct", &sheet, "0/1", "8", "-o", &link], b"");
    assert_eq!(fs::read(&sheet).unwrap(), [0x82, 9, 8]);
    assert!(fs::symlink_metadata(&link).unwrap().is_symlink());
    assert!(fs::symlink_metadata(f.path("far/hop")).unwrap().is_symlink());
    // the file on the way stands beside the sheet, not beside the link
    let o = shell("ulimit -c 0; ulimit -f 0; exec \"$@\"", &["correct", &link, "0/0", "1"]);
    assert_eq!(o.status.signal(), Some(SIGXFSZ));
    assert!(Path::new(&f.path("far/.sheet.edn-new")).exists());
    ok(&["read", "-", "-o", &link], b"1");
    assert_eq!((fs::read(&sheet).unwrap(), f.names()), (vec![1], vec!["far".to_string(), "link".to_string()]));
    assert_eq!(fs::read_dir(f.path("far")).unwrap().count(), 2);
}

#[test]
fn hard_links_are_not_parted() {
    let f = Folder::new("names");
    let (sheet, name, other) = (f.file("sheet", SHEET), f.path("name"), f.path("other"));
    fs::hard_link(&sheet, &name).unwrap();
    for args in [
        &["correct", &sheet, "0/0", "9"][..],
        &["correct", &name, "0/0", "9"],
        &["correct", &sheet, "0/0", "9", "-o", &name],
        &["read", "-", "-o", &name],
    ] {
        let said = one_line(edn(args, b"1"));
        assert!(said.contains("it has 2 names") && said.contains("use -o"), "{said}");
    }
    ok(&["correct", &sheet, "0/0", "9", "-o", &other], b"");
    assert_eq!((fs::read(&sheet).unwrap(), fs::read(&other).unwrap()), (SHEET.to_vec(), vec![0x82, 9, 2]));
    assert_eq!(fs::metadata(&sheet).unwrap().nlink(), 2);
    assert_eq!(f.names(), ["name", "other", "sheet"]);
}

#[test]
fn a_link_that_leads_nowhere_is_refused() {
    let f = Folder::new("nowhere");
    let (link, hop) = (f.path("link"), f.path("hop"));
    symlink("hop", &link).unwrap();
    symlink("gone", &hop).unwrap();
    for link in [&link, &hop] {
        for args in [
            &["read", link][..],
            &["print", link],
            &["look", link, "0"],
            &["check", link],
            &["correct", link, "0", "1"],
            &["read", "-", "-o", link],
        ] {
            assert!(one_line(edn(args, b"1")).contains("a symbolic link that leads nowhere"), "{args:?}");
        }
    }
    let around = f.path("around");
    symlink("around", &around).unwrap();
    one_line(edn(&["correct", &around, "0", "1"], b""));
    one_line(edn(&["read", "-", "-o", &around], b"1"));
    assert_eq!(f.names(), ["around", "hop", "link"]);
    assert!(f.names().iter().all(|name| fs::symlink_metadata(f.path(name)).unwrap().is_symlink()));
}

/// Rights to the bytes are not enough where the new file would have another owner.
#[test]
fn an_owner_that_cannot_be_kept() {
    if !is_root() {
        return; // nobody else can make a file that is not theirs
    }
    let f = bound_folder("owner");
    set_mode(&f.0, 0o777);
    let sheet = f.file("sheet", SHEET);
    for (user, group) in [(0, 0), (NOBODY, 0), (0, NOBODY)] {
        chown(&sheet, Some(user), Some(group)).unwrap();
        set_mode(&sheet, 0o666);
        for args in [&["correct", &sheet, "0/0", "9"][..], &["read", "-", "-o", &sheet]] {
            let said = one_line(fed(bound().args(args), b"1"));
            assert!(said.contains("its owner and group cannot be kept"), "{said}");
            let m = fs::metadata(&sheet).unwrap();
            assert_eq!((fs::read(&sheet).unwrap(), m.uid(), m.gid(), f.names().len()), (SHEET.to_vec(), user, group, 1));
        }
    }
}

// -------------------------------------------------------------------------------------------------------------------- the file beside

/// A run that is killed while it writes: the sheet is whole, what is left is for the owner alone, and the next run clears it away.
#[test]
fn what_a_killed_run_leaves() {
    let f = Folder::new("left");
    let sheet = f.path("sheet");
    let beside = f.path(".sheet.edn-new");
    let long = [vec![0x59, 0x20, 0x00], vec![7; 0x2000]].concat();
    for (bytes, limit) in [(&SHEET[..], 0), (&long, 0), (&long, 1)] {
        fs::write(&sheet, bytes).unwrap();
        set_mode(&sheet, 0o644);
        let script = format!("umask 0; ulimit -c 0; ulimit -f {limit}; exec \"$@\"");
        let o = shell(&script, &["correct", &sheet, "0", &format!("h'{}'", "05".repeat(0x2000))]);
        assert_eq!(o.status.signal(), Some(SIGXFSZ));
        assert_eq!((fs::read(&sheet).unwrap(), mode(&sheet)), (bytes.to_vec(), 0o644));
        assert_eq!(mode(&beside), 0o600);
        ok(&["correct", &sheet, "0", "7"], b"");
        assert_eq!((fs::read(&sheet).unwrap(), mode(&sheet)), (vec![7], 0o644));
        assert_eq!(f.names(), ["sheet"]);
    }
    // a run that is refused removes it too
    let o = shell("ulimit -c 0; ulimit -f 0; exec \"$@\"", &["correct", &sheet, "0", "8"]);
    assert_eq!((o.status.signal(), f.names().len()), (Some(SIGXFSZ), 2));
    fails(&["correct", &sheet, "0", "..."], b"", 1);
    assert_eq!((fs::read(&sheet).unwrap(), f.names()), (vec![7], vec!["sheet".to_string()]));
    // a file that was not there has its own mode from the start
    fs::remove_file(&sheet).unwrap();
    let text = f.file("text", "1");
    let o = shell("umask 027; ulimit -c 0; ulimit -f 0; exec \"$@\"", &["read", &text, "-o", &sheet]);
    assert_eq!((o.status.signal(), mode(&beside)), (Some(SIGXFSZ), 0o640));
    assert_eq!(shell("umask 027; exec \"$@\"", &["read", &text, "-o", &sheet]).status.code(), Some(0));
    assert_eq!((fs::read(&sheet).unwrap(), mode(&sheet)), (vec![1], 0o640));
    assert_eq!(f.names(), ["sheet", "text"]);
}

/// The system follows 40 links, and names a file that was removed by a link that leads to another name.
#[test]
fn links_are_followed_as_the_system_does() {
    let f = Folder::new("chain");
    let sheet = f.file("0", SHEET);
    for i in 1..=41 {
        symlink((i - 1).to_string(), f.path(&i.to_string())).unwrap();
    }
    assert_eq!(fs::read(f.path("40")).unwrap(), SHEET);
    ok(&["correct", &f.path("40"), "0/0", "9"], b"");
    assert!(fs::read(f.path("41")).is_err());
    fails(&["correct", &f.path("41"), "0/0", "8"], b"", 2);
    assert_eq!(fs::read(&sheet).unwrap(), [0x82, 9, 2]);

    let other = f.file("removed (deleted)", SHEET);
    f.file("removed", SHEET);
    let script = "cd \"$(dirname \"$2\")\" && exec 7<>removed && rm removed && exec \"$1\" correct /dev/fd/7 0/0 9";
    one_line(shell(script, &[&other]));
    assert_eq!(fs::read(&other).unwrap(), SHEET);
}

/// A file that is removed while a run waits for it is made anew.
#[test]
fn a_file_that_is_removed_meanwhile() {
    let f = Folder::new("removed");
    let (text, out) = (f.file("text", "7"), f.file("out", SHEET));
    let held = File::open(&out).unwrap();
    held.try_lock().unwrap();
    let child = Command::new(EDN).args(["read", &text, "-o", &out]).stderr(Stdio::piped()).spawn().unwrap();
    sleep(Duration::from_millis(150));
    fs::remove_file(&out).unwrap();
    held.unlock().unwrap();
    let o = child.wait_with_output().unwrap();
    assert!(o.status.success(), "{}", String::from_utf8_lossy(&o.stderr));
    assert_eq!((fs::read(&out).unwrap(), f.names()), (vec![7], vec!["out".to_string(), "text".to_string()]));
}

/// Nothing stands in the new file before its owner is right, its mode is set when all else is, and it is on the disk before it takes the
/// sheet's place.
#[test]
fn the_steps_of_a_replacement() {
    let f = Folder::new("steps");
    let library = f.path("steps.so");
    let source = Path::new(env!("CARGO_MANIFEST_DIR")).join("tests/faults/steps.c");
    let cc = ["-std=c99", "-Wall", "-Wextra", "-Werror", "-fPIC", "-shared", "-o", &library];
    assert!(Command::new("cc").args(cc).arg(source).status().unwrap().success());
    let (sheet, steps) = (f.file("sheet", SHEET), f.path("steps"));
    let mut wanted = vec!["write", "fchmod", "fsync", "rename", "fsync of the folder"];
    if is_root() {
        give(&sheet);
        wanted.insert(0, "fchown");
    }
    let mut correct = Command::new(EDN);
    correct.args(["correct", &sheet, "0/0", "9"]).env("LD_PRELOAD", library).env("STEPS", &steps);
    assert!(correct.status().unwrap().success());
    assert_eq!(fs::read_to_string(steps).unwrap().lines().collect::<Vec<_>>(), wanted);
}

#[test]
fn what_stands_in_the_way_is_named() {
    let f = bound_folder("way");
    let (sheet, beside) = (f.file("sheet", SHEET), f.path(".sheet.edn-new"));
    give(&sheet);
    let refused = || {
        let said = one_line(fed(bound().args(["correct", &sheet, "0/0", "9"]), b""));
        assert!(said.contains(&format!("{beside} stands in the way")), "{said}");
        assert_eq!(fs::read(&sheet).unwrap(), SHEET);
        said
    };
    // another user's
    f.file(".sheet.edn-new", b"theirs");
    set_mode(&beside, 0);
    assert!(refused().contains("you do not have the rights"));
    set_mode(&beside, 0o600);
    assert_eq!(fs::read(&beside).unwrap(), b"theirs");
    fs::remove_file(&beside).unwrap();
    // a link, which is not followed
    let precious = f.file("precious", b"precious");
    give(&precious);
    symlink(&precious, &beside).unwrap();
    refused();
    assert_eq!(fs::read(&precious).unwrap(), b"precious");
    fs::remove_file(&beside).unwrap();
    // a folder
    fs::create_dir(&beside).unwrap();
    refused();
    fs::remove_dir(&beside).unwrap();
    assert!(fed(bound().args(["correct", &sheet, "0/0", "9"]), b"").status.success());
    assert_eq!(fs::read(&sheet).unwrap(), [0x82, 9, 2]);
}

#[test]
fn long_names() {
    let f = Folder::new("long");
    for name in ["n".repeat(245), "n".repeat(246), "n".repeat(247), "n".repeat(255), "ü".repeat(127)] {
        let sheet = f.path(&name);
        ok(&["read", "-", "-o", &sheet], b"[1, 2]");
        ok(&["correct", &sheet, "0/0", "9"], b"");
        assert_eq!(fs::read(&sheet).unwrap(), [0x82, 9, 2]);
        // what is left there is found again
        let o = shell("ulimit -c 0; ulimit -f 0; exec \"$@\"", &["correct", &sheet, "0/0", "1"]);
        assert_eq!((o.status.signal(), f.names().len()), (Some(SIGXFSZ), 2));
        ok(&["correct", &sheet, "0/0", "8"], b"");
        assert_eq!((fs::read(&sheet).unwrap(), f.names()), (vec![0x82, 8, 2], vec![name]));
        fs::remove_file(&sheet).unwrap();
    }
}

#[test]
fn what_is_no_plain_file_is_written_to() {
    let f = Folder::new("pipes");
    let fifo = f.path("fifo");
    assert!(Command::new("mkfifo").arg(&fifo).status().unwrap().success());
    let mut cat = Command::new("cat").arg(&fifo).stdout(Stdio::piped()).spawn().unwrap();
    ok(&["read", "-", "-o", &fifo], b"[1, 2]");
    let mut got = Vec::new();
    std::io::Read::read_to_end(cat.stdout.as_mut().unwrap(), &mut got).unwrap();
    assert!(cat.wait().unwrap().success());
    assert_eq!(got, SHEET);
    assert!(one_line(edn(&["correct", &fifo, "0", "1"], b"")).contains("no plain file"));
    assert!(one_line(edn(&["correct", f.0.to_str().unwrap(), "0", "1"], b"")).contains("it is a folder"));
    for odd in ["none/", "none/.", "."] {
        one_line(edn(&["read", "-", "-o", &f.path(odd)], b"1"));
    }
    assert_eq!(f.names(), ["fifo"]);
}

// ------------------------------------------------------------------------------------------------------------------ several runs at once

fn start(args: &[&str]) -> Child {
    Command::new(EDN).args(args).stdin(Stdio::null()).stdout(Stdio::null()).stderr(Stdio::piped()).spawn().unwrap()
}

/// Whether a correction counts; one that does not says that another is under way.
fn counts(child: Child) -> bool {
    let o = child.wait_with_output().unwrap();
    if o.status.success() {
        return true;
    }
    assert!(one_line(o).contains("under way"));
    false
}

#[test]
fn corrections_at_once_all_count() {
    let f = Folder::new("once");
    for (rounds, runs) in [(60, 2), (5, 8)] {
        for _ in 0..rounds {
            let sheet = f.file("sheet", [&[0x80 + runs as u8][..], &vec![0; runs]].concat());
            let started: Vec<_> = (0..runs).map(|i| start(&["correct", &sheet, &format!("0/{i}"), "1"])).collect();
            let counted: Vec<u8> = started.into_iter().map(|child| counts(child).into()).collect();
            assert_eq!(fs::read(&sheet).unwrap()[1..], counted);
            assert!(counted.contains(&1));
            assert_eq!(f.names(), ["sheet"]);
        }
    }
}

#[test]
fn a_new_file_made_at_once() {
    let f = Folder::new("new");
    let new = f.path("new");
    let texts: Vec<_> = (0..8u8).map(|i| f.file(&format!("text{i}"), format!("h'{}'", format!("{i:02x}").repeat(0x2000)))).collect();
    for _ in 0..5 {
        let started: Vec<_> = texts.iter().map(|text| start(&["read", text, "-o", &new])).collect();
        assert!(started.into_iter().all(counts));
        let bytes = fs::read(&new).unwrap();
        assert!(bytes.len() == 0x2003 && bytes[3..].iter().all(|&b| b == bytes[3]));
        assert_eq!(f.names().len(), 9);
        fs::remove_file(&new).unwrap();
    }
}

#[test]
fn a_correction_that_waited_long_enough_is_refused() {
    let f = Folder::new("waits");
    let (sheet, other) = (f.file("sheet", SHEET), f.file("other", SHEET));
    let held = File::open(&sheet).unwrap();
    held.try_lock().unwrap();
    // the second waits at the file on its way
    let beside = File::create(f.path(".other.edn-new")).unwrap();
    beside.try_lock().unwrap();
    let runs: Vec<_> = [&sheet, &other].map(|sheet| (sheet, start(&["correct", sheet, "0/0", "9"]))).into();
    for (sheet, run) in runs {
        let said = one_line(run.wait_with_output().unwrap());
        assert!(said.contains(&format!("another correction of {sheet} is under way")), "{said}");
        assert_eq!(fs::read(sheet).unwrap(), SHEET);
    }
    assert_eq!(f.names(), [".other.edn-new", "other", "sheet"]);
}

/// Whether a process has a file open.
fn has_open(child: &Child, path: &str) -> bool {
    let open = fs::read_dir(format!("/proc/{}/fd", child.id())).unwrap();
    open.filter_map(|fd| fs::read_link(fd.ok()?.path()).ok()).any(|file| file == Path::new(path))
}

/// Other programs know of no lock.
#[test]
fn a_sheet_that_another_program_changes_meanwhile() {
    let f = Folder::new("meanwhile");
    let (sheet, beside) = (f.path("sheet"), f.path(".sheet.edn-new"));
    let changes: [fn(&str); 4] = [
        |sheet| fs::write(sheet, [0x82, 7, 7]).unwrap(),
        |sheet| fs::write(sheet, [1]).unwrap(),
        |sheet| {
            fs::write(format!("{sheet}.new"), [0x82, 7, 7]).unwrap();
            fs::rename(format!("{sheet}.new"), sheet).unwrap();
        },
        |sheet| set_mode(sheet, 0o600),
    ];
    for change in changes {
        fs::write(&sheet, SHEET).unwrap();
        set_mode(&sheet, 0o644);
        // the run is kept at the file on its way, where it has read the sheet already
        let held = File::create(&beside).unwrap();
        held.try_lock().unwrap();
        let mut run = start(&["correct", &sheet, "0/0", "9"]);
        while !has_open(&run, &beside) {
            assert!(run.try_wait().unwrap().is_none());
            sleep(Duration::from_micros(100));
        }
        change(&sheet);
        let (bytes, rights) = (fs::read(&sheet).unwrap(), mode(&sheet));
        held.unlock().unwrap();
        assert!(one_line(run.wait_with_output().unwrap()).contains("another program changed it meanwhile"));
        assert_eq!((fs::read(&sheet).unwrap(), mode(&sheet), f.names()), (bytes, rights, vec!["sheet".to_string()]));
    }
}

// ------------------------------------------------------------------------------------------------------------------- kills and failures

#[test]
fn a_kill_tears_nothing() {
    let f = Folder::new("kill");
    let whole = [5u8, 6].map(|i| [vec![0x59, 0x40, 0x00], vec![i; 0x4000]].concat());
    let texts = [5u8, 6].map(|i| format!("h'{}'", format!("{i:02x}").repeat(0x4000)));
    let sheet = f.file("sheet", &whole[1]);
    for round in 0..200 {
        let mut run = start(&["correct", &sheet, "0", &texts[round % 2]]);
        // from before the program begins to after its end
        sleep(Duration::from_micros(round as u64 % 50 * 80));
        run.kill().unwrap();
        run.wait().unwrap();
        assert!(whole.contains(&fs::read(&sheet).unwrap()));
        ok(&["correct", &sheet, "0", &texts[round % 2]], b"");
        assert_eq!((fs::read(&sheet).unwrap() == whole[round % 2], f.names()), (true, vec!["sheet".to_string()]));
    }
}

#[test]
fn a_write_that_fails() {
    let f = Folder::new("fails");
    let (sheet, text) = (f.file("sheet", SHEET), f.file("text", "1"));
    for args in [&["correct", &sheet, "0/0", "9"][..], &["read", &text, "-o", &sheet], &["read", &text, "-o", &f.path("new")]] {
        let said = one_line(shell("ulimit -f 0; trap '' XFSZ; exec \"$@\"", args));
        assert!(said.contains("File too large"), "{said}");
        assert_eq!((fs::read(&sheet).unwrap(), f.names()), (SHEET.to_vec(), vec!["sheet".to_string(), "text".to_string()]));
    }
    for args in [
        &["read", &text][..],
        &["print", &sheet],
        &["look", &sheet, "0"],
        &["check", &sheet, &sheet],
        &["correct", &sheet, "0", "1", "-o-"],
        &["--help"],
    ] {
        let said = one_line(shell("exec \"$@\" > /dev/full", args));
        assert!(said.contains("standard output cannot be written: No space left"), "{said}");
    }
    let said = one_line(edn(&["read", &text, "-o", "/dev/full"], b""));
    assert!(said.contains("/dev/full cannot be written: No space left"), "{said}");
}

#[test]
fn a_folder_without_the_right_to_write() {
    let f = bound_folder("folder");
    let sheet = f.file("sheet", SHEET);
    give(&sheet);
    set_mode(&f.0, 0o555);
    for args in [&["correct", &sheet, "0/0", "9"][..], &["read", "-", "-o", &sheet], &["read", "-", "-o", &f.path("new")]] {
        let said = one_line(fed(bound().args(args), b"1"));
        assert!(said.contains("no file can be made beside it: you do not have the rights for it"), "{said}");
        assert_eq!((fs::read(&sheet).unwrap(), f.names()), (SHEET.to_vec(), vec!["sheet".to_string()]));
    }
    // a file without it, in a folder that has it
    set_mode(&f.0, 0o755);
    set_mode(&sheet, 0o444);
    for args in [&["correct", &sheet, "0/0", "9"][..], &["read", "-", "-o", &sheet]] {
        assert!(one_line(fed(bound().args(args), b"1")).contains(": you do not have the rights for it"));
        assert_eq!((fs::read(&sheet).unwrap(), f.names()), (SHEET.to_vec(), vec!["sheet".to_string()]));
    }
}

/// Such a folder cannot be synced either; the correction stands all the same.
#[test]
fn a_folder_that_may_not_be_listed() {
    let f = bound_folder("unlisted");
    let sheet = f.file("sheet", SHEET);
    give(&sheet);
    set_mode(&f.0, 0o300);
    let o = fed(bound().args(["correct", &sheet, "0/0", "9"]), b"");
    set_mode(&f.0, 0o700);
    assert_eq!((o.status.code(), o.stderr, fs::read(&sheet).unwrap()), (Some(0), vec![], vec![0x82, 9, 2]));
    assert_eq!(f.names(), ["sheet"]);
}

#[test]
fn names_without_a_folder() {
    let f = Folder::new("relative");
    f.file("sheet", SHEET);
    symlink("sheet", f.path("link")).unwrap();
    for args in [&["correct", "sheet", "0/0", "9"][..], &["correct", "./link", "0/1", "8"], &["correct", "link", "0/1", "7", "-o", "new"]] {
        let o = fed(Command::new(EDN).args(args).current_dir(&f.0), b"");
        assert_eq!((o.status.code(), o.stderr), (Some(0), vec![]));
    }
    assert_eq!((fs::read(f.path("sheet")).unwrap(), fs::read(f.path("new")).unwrap()), (vec![0x82, 9, 8], vec![0x82, 9, 7]));
    assert_eq!(f.names(), ["link", "new", "sheet"]);
}
