//! The script `pandabrass` at the root: it builds what is missing or old, says how far it is, and runs
//! the program. Here `rt` and `cargo` are small scripts that only say what the tools would, and leave
//! the files that they would build.

mod common;

use std::fs;
use std::os::unix::fs::PermissionsExt;
use std::path::{Path, PathBuf};
use std::process::Command;
use std::time::{Duration, SystemTime};

/// A folder with the script, some sources, and the two tools.
struct Place {
    root: PathBuf,
}

const RT: &str = "#!/bin/sh
root=$(dirname \"$0\")/..
echo \"$*\" >> \"$root/asked\"
if [ \"$1\" = lib ]; then
    sed '/^==/d; s/checked=.*/checked=0/' \"$root/told\"
    mkdir -p out && echo lib > out/libexport.a
else
    echo 'fn c1::f: proved'
    cat \"$root/told\"
fi
";
const CARGO: &str = "#!/bin/sh
mkdir -p rust/target/release
printf '#!/bin/sh\\necho ran \"$@\"\\nexit 1\\n' > rust/target/release/pandabrass
chmod +x rust/target/release/pandabrass
";

impl Place {
    fn new(name: &str) -> Place {
        let root = std::env::temp_dir().join(format!("pandabrass-{name}-{}", std::process::id()));
        let place = Place { root };
        place.put_crates(1);
        place.put("rust/Cargo.toml", "workspace", false);
        place.put("scripts/first.run", "script", false);
        place.put("plans/t.plan", "plan", false);
        place.put("tools/rt", RT, true);
        place.put("tools/cargo", CARGO, true);
        place.put("pandabrass", &common::text("pandabrass"), true);
        place.put("tools/library.sh", &common::text("tools/library.sh"), true);
        place
    }

    /// Crates c1, c2, .. of which each needs the one before, export over the last, and one beside them;
    /// and what `rt` says when they are proved.
    fn put_crates(&self, count: usize) {
        let mut list = "# NAME: DEP ..\nbeside: c1\nc1:\n".to_string();
        (2..=count).for_each(|n| list += &format!("c{n}: c{}\n", n - 1));
        self.put(
            "crates.txt",
            &format!("{list}export staticlib: c{count}  # the library\n"),
            false,
        );
        let names = (1..=count).map(|n| format!("c{n}"));
        for name in names.chain(["beside", "export"].map(str::to_string)) {
            self.put(&format!("crates/{name}/src/lib.rt"), "code", false);
        }
        let told =
            (1..=count).map(|n| format!("== c{n}\ncrate c{n}: modules loaded=3 checked=40\n"));
        self.put("told", &told.collect::<String>(), false);
    }

    fn put(&self, file: &str, text: &str, runs: bool) {
        let path = self.root.join(file);
        fs::create_dir_all(path.parent().unwrap()).unwrap();
        fs::write(&path, text).unwrap();
        let mode = if runs { 0o755 } else { 0o644 };
        fs::set_permissions(&path, fs::Permissions::from_mode(mode)).unwrap();
    }

    /// Makes a file newer than all others.
    fn renew(&self, file: &str) {
        let file = fs::File::options().write(true).open(self.root.join(file)).unwrap();
        file.set_modified(SystemTime::now() + Duration::from_secs(5)).unwrap();
    }

    /// The script, from another folder.
    fn script(&self) -> Command {
        let mut script = Command::new("bash");
        script.arg(self.root.join("pandabrass")).args(["check", "a plan"]);
        script.env("PATH", format!("{}:/usr/bin:/bin", self.root.join("tools").display()));
        for name in ["PANDABRASS_STATICLIB", "CARGO_TARGET_DIR", "RT_JOBS"] {
            script.env_remove(name);
        }
        script.current_dir(Path::new("/"));
        script
    }

    /// What the script says: output, messages, exit status.
    fn run(&self) -> (String, String, Option<i32>) {
        let done = self.script().output().unwrap();
        let text = |bytes: Vec<u8>| String::from_utf8_lossy(&bytes).to_string();
        (text(done.stdout), text(done.stderr), done.status.code())
    }
}

impl Drop for Place {
    fn drop(&mut self) {
        let _ = fs::remove_dir_all(&self.root);
    }
}

#[test]
fn what_is_missing_is_built_and_nothing_else() {
    let place = Place::new("builds");
    let (out, err, status) = place.run();
    assert_eq!((out.as_str(), status), ("ran check a plan\n", Some(1)), "{err}");
    assert!(err.contains("building the proved library") && err.contains("building the program"));
    assert_eq!(place.run(), ("ran check a plan\n".to_string(), String::new(), Some(1)));
    place.renew("plans/t.plan");
    let (_, err, _) = place.run();
    assert!(err.contains("the program") && !err.contains("the proved library"), "{err}");
}

#[test]
fn what_is_old_is_built_again() {
    let place = Place::new("old");
    place.run();
    place.renew("crates/c1/src/lib.rt");
    let (_, err, _) = place.run();
    assert!(err.contains("building the proved library"), "{err}");
}

/// What is below the library is proved first, several at a time; `rt` says each crate again then.
#[test]
fn how_far_it_is_is_told() {
    let place = Place::new("progress");
    place.put_crates(21);
    let (_, err, status) = place.run();
    assert_eq!(status, Some(1), "{err}");
    let asked = fs::read_to_string(place.root.join("asked")).unwrap();
    assert_eq!(asked, "all check --jobs 4\nlib\n");
    let lines: Vec<&str> = err.lines().filter(|line| line.contains("crates proved")).collect();
    let told =
        |count| format!("pandabrass: {count} of 22 crates proved (c{count}), about 1 min left");
    assert_eq!(lines, [told(10), told(20)], "{err}");
}

/// What was proved before counts as done, and tells nothing of the time.
#[test]
fn what_was_proved_before_takes_no_time() {
    let place = Place::new("unchanged");
    place.put_crates(10);
    let told = (1..=10).map(|n| format!("== c{n}\n"));
    place.put("told", &told.collect::<String>(), false);
    let (_, err, _) = place.run();
    assert!(err.contains("pandabrass: 10 of 11 crates proved (c10)\n"), "{err}");
}

#[test]
fn a_library_that_is_given_is_not_built() {
    let place = Place::new("given");
    place.put("elsewhere/libexport.a", "lib", false);
    place.put("tools/rt", "#!/bin/sh\nexit 1\n", true);
    let mut script = place.script();
    let done = script.env("PANDABRASS_STATICLIB", place.root.join("elsewhere")).output().unwrap();
    let err = String::from_utf8_lossy(&done.stderr).to_string();
    assert_eq!(done.status.code(), Some(1), "{err}");
    assert!(!err.contains("the proved library"), "{err}");
}

#[test]
fn a_proof_that_fails_is_told() {
    let place = Place::new("unproved");
    place.put("tools/rt", "#!/bin/sh\necho 'logic=not-proved'\nexit 1\n", true);
    let (out, err, status) = place.run();
    assert_eq!((out.as_str(), status), ("", Some(2)));
    assert!(err.contains("logic=not-proved") && err.contains("this failed"), "{err}");
    assert!(!place.root.join("target/staticlib/libexport.a").exists());
}

#[test]
fn a_build_that_fails_is_told() {
    let place = Place::new("fails");
    place.put("tools/cargo", "#!/bin/sh\necho no such crate\nexit 101\n", true);
    let (out, err, status) = place.run();
    assert_eq!((out.as_str(), status), ("", Some(2)));
    assert!(err.contains("no such crate") && err.contains("this failed"), "{err}");
}
