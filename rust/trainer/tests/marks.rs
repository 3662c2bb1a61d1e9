//! The mark EF BB BF that some editors put before a text is passed over, in plans and in scripts, in
//! files and on the standard input. Places are told as without it, and bytes stay as they are.

mod common;

use std::path::PathBuf;

use common::{run, run_on, text};
use trainer::plan::PlanFile;

const MARK: &[u8] = &[0xEF, 0xBB, 0xBF];

fn marked(contents: &[u8]) -> Vec<u8> {
    [MARK, contents].concat()
}

/// A file that is there as long as this is.
struct Kept(PathBuf);

impl Kept {
    fn new(name: &str, contents: &[u8]) -> Kept {
        let file = format!("pandabrass-{}-{name}", std::process::id());
        let path = std::env::temp_dir().join(file);
        std::fs::write(&path, contents).unwrap();
        Kept(path)
    }

    fn name(&self) -> String {
        self.0.to_string_lossy().to_string()
    }
}

impl Drop for Kept {
    fn drop(&mut self) {
        let _ = std::fs::remove_file(&self.0);
    }
}

#[test]
fn before_a_plans_text() {
    let (plan, bytes) = (text("plans/two.plan"), run(&["encode", "plans/two.plan"]));
    let file = Kept::new("marked.plan", &marked(plan.as_bytes()));
    assert_eq!(run(&["encode", &file.name()]), bytes);
    assert_eq!(run_on(&marked(plan.as_bytes()), &["encode", "-"]), bytes);
}

#[test]
fn before_hex_digits() {
    let bytes = run(&["encode", "plans/two.plan"]);
    let file = Kept::new("marked.hex", &marked(bytes.0.as_bytes()));
    assert_eq!(run(&["encode", &file.name()]), bytes);
    assert_eq!(run_on(&marked(bytes.0.as_bytes()), &["encode", "-"]), bytes);
}

#[test]
fn before_a_script() {
    let script = "plan bytes 08 42 11 24 92 4C 06 00 00 00 20\nlaunch 0 0 0\nexpect ok\n";
    let plain = run_on(script.as_bytes(), &["run", "-"]);
    assert_eq!(plain.2, 0, "{}", plain.1);
    assert_eq!(run_on(&marked(script.as_bytes()), &["run", "-"]), plain);
    let file = Kept::new("marked.run", &marked(script.as_bytes()));
    let (out, err, status) = run(&["run", &file.name()]);
    let same = |text: &str| text.lines().take(2).map(str::to_string).collect::<Vec<_>>();
    assert_eq!((same(&out), err.as_str(), status), (same(&plain.0), "", 0));
}

/// A mistake's line, column and excerpt are those of the text without the mark.
#[test]
fn places_are_not_moved() {
    let cases: [(&[u8], &str); 5] = [
        (b"slots 2 3\n", "check"),
        (b"slots 2\nrouter r0\nactive a at r9.0\n", "check"),
        (b"slots 40\nrouter r0\nactive a at r0.0\npassive p at r0.1\n", "check"),
        (b"# a comment\xFF\nslots 2\n", "check"),
        (b"plan bytes 08 42 11 24 92 4C 06 00 00 00 20\nsing 1\n", "run"),
    ];
    for (contents, command) in cases {
        let plain = run_on(contents, &[command, "-"]);
        assert_ne!(plain.2, 0);
        assert!(format!("{}{}", plain.0, plain.1).contains("-:"), "{plain:?}");
        assert_eq!(run_on(&marked(contents), &[command, "-"]), plain);
    }
}

/// Only the first is passed over: a second mark is a sign of the text.
#[test]
fn only_one_is_passed_over() {
    let twice = marked(&marked(b"slots 2\n"));
    let (_, err, status) = run_on(&twice, &["check", "-"]);
    assert_eq!(status, 2);
    assert!(err.starts_with("-:1:1: "), "{err}");
}

/// A plan's bytes are not a text: they are kept, also where they begin like the mark. Such bytes have
/// 29 routers (the five highest bits of EF), so no plan that loads is taken for a marked text.
#[test]
fn bytes_are_kept() {
    let bytes = marked(&[0x11, 0x24, 0x92, 0x4C, 0x06, 0x00]);
    let plan = PlanFile::of_contents("", bytes.clone()).unwrap();
    assert_eq!(plan.bytes, bytes);
    assert_eq!(plan.load().map(|_| ()).unwrap_err().number(), 2);
    let (out, err, status) = run_on(&bytes, &["encode", "-"]);
    assert_eq!((out.as_str(), status), ("EF BB BF 11 24 92 4C 06 00\n", 1), "{err}");
    // T's bytes behind the mark are not T.
    let t = marked(&PlanFile::t().bytes);
    assert_eq!(PlanFile::of_contents("", t.clone()).unwrap().bytes, t);
}
