//! `lesson`: the points that students get wrong, by the proved rule and by the student's.

use std::io::IsTerminal;

use super::{Args, Command, Done, FINE, UNREAD};
use crate::lesson::{self, Lesson, LESSONS};
use crate::print::{map, output, wrap, Colour, Json, Paint};

/// The command.
pub const LESSON: Command = Command {
    name: "lesson",
    usage: "[N] [--answers] [--json]",
    summary: "what students get wrong: a question, then both rules side by side",
    help: "\
Without N the lessons are listed. A lesson asks its question first; the answer comes on the Enter
key, or at once with --answers. Its script (scripts/lessons) is played twice: by the proved library,
and by the model with the rule that students write instead, up to where the two part, and on. Where
students think of another order or of another program, both are played by the proved library.
",
    flags: &["--answers", "--json"],
    options: &[],
    run,
};

fn run(args: &Args) -> Done {
    let paint = args.paint();
    let [name] = args.names.as_slice() else {
        return match args.names.len() {
            0 if args.has("--json") => Done::text(format!("{}\n", list_json().write()), FINE),
            0 => Done::text(list(paint), FINE),
            _ => Done::error("one lesson at a time\n", UNREAD),
        };
    };
    let number = name.parse::<usize>().ok().and_then(|number| number.checked_sub(1));
    let Some(lesson) = number.and_then(|number| LESSONS.get(number)) else {
        return Done::error(format!("no lesson '{name}': 1 to {}\n", LESSONS.len()), UNREAD);
    };
    if args.has("--json") {
        let answer = lesson::play(lesson, Paint::none());
        let value = Json::Object(vec![
            ("lesson", Json::text(name)),
            ("title", Json::text(lesson.title)),
            ("question", Json::text(lesson.question)),
            ("answer", Json::text(answer + lesson.answer)),
        ]);
        return Done::text(format!("{}\n", value.write()), FINE);
    }
    let question = question(lesson, paint);
    if args.has("--answers") {
        return Done::text(question + &answer(lesson, paint), FINE);
    }
    if !(std::io::stdin().is_terminal() && std::io::stdout().is_terminal()) {
        return Done::text(question + "The answer: --answers\n", FINE);
    }
    let asked = question + &paint.text(Colour::Dim, "Enter shows the answer .. ");
    if let Err(unwritten) = output::out(asked.as_bytes()) {
        return unwritten.into();
    }
    let _ = std::io::stdin().read_line(&mut String::new());
    Done::text(answer(lesson, paint), FINE)
}

fn list(paint: Paint) -> String {
    let mut text = String::new();
    for (number, lesson) in LESSONS.iter().enumerate() {
        let title = paint.text(Colour::Bold, lesson.title);
        text += &format!("{:>3}  {title}\n", number + 1);
        text += &format!("       scripts/lessons/{}\n", lesson.file);
    }
    text + "pandabrass lesson N asks the question; docs/TRAINING.md is for teachers.\n"
}

fn list_json() -> Json {
    Json::list(LESSONS.iter().enumerate(), |(number, lesson)| {
        Json::Object(vec![
            ("lesson", Json::Number(number + 1)),
            ("title", Json::text(lesson.title)),
            ("script", Json::text(format!("scripts/lessons/{}", lesson.file))),
        ])
    })
}

fn question(lesson: &Lesson, paint: Paint) -> String {
    let title = paint.text(Colour::Bold, lesson.title);
    let mut text = format!("{title}\n\n");
    // Comments and expectations would tell the answer.
    let statements = lesson.script.lines().filter_map(|line| line.split('#').next());
    for line in statements.map(str::trim_end).filter(|line| !line.is_empty()) {
        if !line.starts_with("expect") {
            text += &format!("    {line}\n");
        }
    }
    let map = map::text(&lesson::script(lesson).plan);
    text + &format!("\n{map}\n{}\n\n", wrap(lesson.question, 0, 0))
}

fn answer(lesson: &Lesson, paint: Paint) -> String {
    let played = lesson::play(lesson, paint);
    format!("{played}\n{}\n", wrap(lesson.answer, 0, 0))
}
