//! The C example compiles against the header, without a warning, links with the proved library, and prints what it should.

use std::path::Path;
use std::process::Command;

const PRINTED: &str = "\
typed listing: yes, 4 matches, 4 strings
  at 1 to 2
  at 1 to 2
  at 2 to 4
  at 4 to 6
typed listing, with a family: yes, 6 matches, 6 strings
  at 1 to 2
  at 1 to 2
  at 2 to 4
  at 4 to 5
  at 4 to 5
  at 4 to 6
listing: yes, 4 matches, 4 strings
  at 1 to 2
  at 1 to 2
  at 2 to 4
  at 4 to 6
typed quick, mistyped: refused 10 at 11
read: 3 codes
quick, of what was read: yes, 2 codes walked or built
snippet of 1 to 2: 10 20
";

#[test]
fn the_c_example_prints_what_each_call_answers() {
    let root = Path::new(env!("CARGO_MANIFEST_DIR")).join("..");
    let program = Path::new(env!("CARGO_TARGET_TMPDIR")).join("panel");
    let compiled = Command::new("cc")
        .args(["-std=c99", "-Wall", "-Wextra", "-Werror", "-pedantic", "-Iinclude", "examples/panel.c"])
        .args(["target/staticlib/libjullpinay.a", "-o"])
        .arg(&program)
        .current_dir(&root)
        .output()
        .expect("cc starts");
    assert!(compiled.status.success(), "{}", String::from_utf8_lossy(&compiled.stderr));

    let ran = Command::new(&program).output().expect("the example starts");
    assert!(ran.status.success());
    assert_eq!(String::from_utf8_lossy(&ran.stdout), PRINTED);
}
