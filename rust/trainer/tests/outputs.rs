//! Each command's output, errors and exit status are those that are stored in tests/expected.
//! With PANDABRASS_STORE=1 they are stored anew; look at the difference before it is kept.

mod common;

use common::{files, root, run};

/// The commands with the names of the files they are compared with.
fn cases() -> Vec<(String, Vec<String>)> {
    let mut cases = Vec::new();
    let mut add = |name: &str, args: &[&str]| {
        let args = args.iter().map(|arg| arg.to_string()).collect();
        cases.push((name.to_string(), args));
    };
    add("none", &[]);
    add("help", &["--help"]);
    add("unknown", &["sing"]);
    for command in ["show", "check", "encode", "decode", "run", "orders", "lesson", "replay"] {
        add(&format!("help-{command}"), &[command, "--help"]);
        add(&format!("option-{command}"), &[command, "--no-such-option"]);
    }
    for command in ["check", "encode", "decode", "run", "orders", "replay"] {
        add(&format!("nothing-{command}"), &[command]);
    }
    add("show-none", &["show"]);
    add("show-json", &["show", "--json"]);
    add("show-largest-all", &["show", "plans/largest.plan", "--all"]);
    add("show-hex", &["show", "08 42 11 24 92 4C 06 00 00 00 20"]);
    add("show-refused", &["show", "plans/refused/6-clockwise.plan"]);
    add("show-missing", &["show", "plans/nowhere.plan"]);
    let refused = files("plans/refused", ".plan");
    for file in &refused {
        add(&stem("check", file), &["check", file]);
    }
    let mut json = vec!["check", "--json", "plans/t.plan"];
    json.extend(refused.iter().map(String::as_str));
    add("check-json", &json);
    for file in files("plans", ".plan") {
        add(&stem("show", &file), &["show", &file]);
        add(&stem("check", &file), &["check", &file]);
        add(&stem("encode", &file), &["encode", &file]);
        add(&stem("decode", &file), &["decode", &file]);
    }
    add("encode-json", &["encode", "plans/t.plan", "--json"]);
    add("encode-refused", &["encode", "plans/refused/6-clockwise.plan"]);
    add("decode-refused", &["decode", "plans/refused/4-active-3.plan"]);
    add("decode-hex", &["decode", "0842112492 4C06000000 20"]);
    for file in files("scripts", ".run") {
        add(&stem("run", &file), &["run", &file]);
        add(&stem("brief", &file), &["run", &file, "--brief"]);
    }
    add("run-json", &["run", "scripts/declined.run", "--json"]);
    add("run-wash-json", &["run", "scripts/wash.run", "--json"]);
    add("run-order", &["run", "scripts/orders.run", "--order", "CBA", "--brief"]);
    add("run-order-gaps", &["run", "scripts/replies.run", "--order", "B2A+ba", "--brief"]);
    add("run-order-wrong", &["run", "scripts/orders.run", "--order", "CBB"]);
    add("run-order-blocks", &["run", "scripts/replies.run", "--order", "AB"]);
    add("orders", &["orders", "scripts/orders.run"]);
    add("orders-json", &["orders", "scripts/orders.run", "--json"]);
    add("orders-replies", &["orders", "scripts/replies.run"]);
    add("orders-sampled", &["orders", "scripts/replies.run", "--samples", "5", "--seed=7"]);
    add("orders-none", &["orders", "scripts/first.run"]);
    add("orders-number", &["orders", "scripts/orders.run", "--samples", "many"]);
    add("lessons", &["lesson"]);
    add("lesson-json", &["lesson", "3", "--json"]);
    add("lesson-13", &["lesson", "13"]);
    for lesson in 1..=12 {
        add(&format!("lesson-{lesson}-question"), &["lesson", &lesson.to_string()]);
        add(&format!("lesson-{lesson}-answer"), &["lesson", &lesson.to_string(), "--answers"]);
    }
    for file in files("rust/trainer/tests/bad", ".plan") {
        add(&stem("bad-plan", &file), &["check", &file]);
    }
    for file in files("rust/trainer/tests/bad", ".run") {
        add(&stem("bad-run", &file), &["run", "--brief", &file]);
    }
    cases
}

/// "check" and "plans/t.plan" give "check-t".
fn stem(command: &str, file: &str) -> String {
    let name = file.rsplit('/').next().unwrap_or(file);
    format!("{command}-{}", name.rsplit_once('.').map_or(name, |(stem, _)| stem))
}

#[test]
fn outputs_are_as_stored() {
    let store = std::env::var_os("PANDABRASS_STORE").is_some();
    let folder = root().join("rust/trainer/tests/expected");
    let mut differ = Vec::new();
    let cases = cases();
    for (name, args) in &cases {
        let words: Vec<&str> = args.iter().map(String::as_str).collect();
        let (out, err, status) = run(&words);
        check_width(name, &format!("{out}{err}"));
        let command = words.join(" ");
        let found =
            format!("$ pandabrass {command}\n{out}---- errors\n{err}---- status {status}\n");
        let file = folder.join(format!("{name}.txt"));
        if store {
            std::fs::write(&file, &found).unwrap();
        } else if std::fs::read_to_string(&file).ok().as_deref() != Some(found.as_str()) {
            differ.push(format!("{}:\n{found}", file.display()));
        }
    }
    let stored = std::fs::read_dir(folder).unwrap().count();
    assert!(differ.is_empty(), "{} differ:\n{}", differ.len(), differ.join("\n"));
    assert_eq!(stored, cases.len(), "every stored file belongs to a case");
}

/// The lines of an output fit 100 columns, but for JSON and bytes, which are one line.
fn check_width(name: &str, output: &str) {
    if name.contains("json") || name.starts_with("encode") {
        return;
    }
    for line in output.lines() {
        let alone = !line.contains(' ');
        assert!(line.chars().count() <= 100 || alone, "{name}: {line}");
    }
}

#[test]
fn the_page_is_written() {
    let page = std::env::temp_dir().join(format!("pandabrass-page-{}.html", std::process::id()));
    let file = page.to_string_lossy().to_string();
    let (out, err, status) = run(&["replay", "scripts/declined.run", "-o", &file]);
    assert_eq!((err.as_str(), status), ("", 0));
    assert!(out.contains("69 calls"), "{out}");
    let text = std::fs::read_to_string(&page).unwrap();
    assert!(text.contains("pandabrass-run/") && text.contains("</html>"));
    std::fs::remove_file(&page).unwrap();
    let (_, err, status) = run(&["replay", "scripts/declined.run", "-o", "/no/such/folder/page"]);
    assert_eq!(status, 2);
    assert!(err.contains("cannot be written"), "{err}");
}

#[test]
fn files_are_written_and_read_again() {
    let file = std::env::temp_dir().join(format!("pandabrass-plan-{}", std::process::id()));
    let name = file.to_string_lossy().to_string();
    assert_eq!(run(&["encode", "plans/three.plan", "--bytes", "-o", &name]).2, 0);
    let bytes = run(&["encode", "plans/three.plan"]).0;
    assert_eq!(run(&["encode", &name]).0, bytes, "bytes as they are");
    assert_eq!(run(&["decode", &name, "-o", &name]).2, 0);
    assert_eq!(run(&["encode", &name]).0, bytes, "text");
    std::fs::write(&file, &bytes).unwrap();
    assert_eq!(run(&["encode", &name]).0, bytes, "hex digits");
    std::fs::remove_file(&file).unwrap();
}
