//! The library as others link it: the C example, with every warning an error, and on a small stack.
mod support;

use std::process::Command;
use support::{root, run, Folder, ARCHIVE};

/// By the commands that stand in the example.
#[test]
fn the_example_in_c() {
    let folder = Folder::new("linking");
    let program = folder.path("sheet");
    let mut compile = Command::new("cc");
    compile.args(["-std=c99", "-Wall", "-Wextra", "-Werror", "-pedantic", "-I"]).arg(root().join("include"));
    run(compile.arg(root().join("examples/sheet.c")).arg(ARCHIVE).arg("-o").arg(&program));
    assert_eq!(
        run(&mut Command::new(&program)),
        "read: 19 bytes\nitem: from 12 to 15\n{1: \"catalyst\", 2: h'0207', 3: [true, false]}\nread: refused 5 at 6: dots\n"
    );
}

/// Through the wrapper and on a thread, with the deepest sheets. What each function takes is measured by examples/stack.c.
#[test]
fn a_stack_of_128_kilobytes_is_enough() {
    let work = || {
        for (open, close) in [("[", "]"), ("{1: ", "}"), ("1(", ")"), ("<<", ">>"), ("{_ [1]: ", "}")] {
            let text = format!("{}(_ h'01', h'02'){}", open.repeat(15), close.repeat(15));
            let bytes = edn::read(&text).unwrap();
            edn::check(&bytes).unwrap();
            edn::print(&bytes).unwrap();
            edn::look_up(&bytes, &[0]).unwrap();
            assert_eq!(edn::correct(&bytes, &[0], &text).unwrap(), bytes);
        }
    };
    std::thread::Builder::new().stack_size(128 * 1024).spawn(work).unwrap().join().unwrap();
}
