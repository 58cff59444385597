//! Runs, refusals, and threads.

use mainctx::{run, Fault};
use std::thread;

const THREADS: u32 = 8;
const ROUNDS: usize = 100;

/// A log in each of so many ticks.
fn script_of(ticks: u32) -> Vec<u8> {
    format!(
        r#"{{"version": 1, "ticks": {ticks}, "tick_us": 1000, "loops": [0], "procs": [{{"do": [["log", 7]], "keep": null}}],
            "lanes": [{{"contexts": 1, "start": [["attach", 0, 0, {{"kind": ["idle"], "call": 0}}], ["run", 0]]}}]}}"#
    )
    .into_bytes()
}

fn text_of(ticks: u32) -> String {
    let lines = (0..ticks)
        .map(|tick| format!("{tick} dispatch ctx 0 source 1 priority 200 depth 1\n{tick} log 7\n"));
    "thread 0\n".to_owned() + &lines.collect::<String>()
}

#[test]
fn a_short_text() {
    assert_eq!(run(&script_of(2)), Ok(text_of(2)));
}

/// The lines of README.md of the repository.
#[test]
fn what_the_first_page_says() -> Result<(), Fault> {
    let text = mainctx::run(br#"{"version": 1, "ticks": 1, "tick_us": 1, "lanes": [{"contexts": 1, "start": [["log", 7]]}]}"#)?;
    assert_eq!(text, "thread 0\n0 log 7\n0 end\n");
    assert_eq!(mainctx::run(b"{}"), Err(mainctx::Fault::Shape));
    Ok(())
}

#[test]
fn a_text_that_is_longer_than_the_first_room() {
    assert_eq!(run(&script_of(4096)), Ok(text_of(4096)));
}

#[test]
fn each_class_of_fault() {
    let faults: [(&[u8], Fault); 5] = [
        (b"", Fault::NotJson),
        (b"[]", Fault::Shape),
        (br#"{"version": 1, "ticks": 0, "tick_us": 1, "lanes": [{"contexts": 1, "start": []}]}"#, Fault::Limit),
        (br#"{"version": 1, "ticks": 1, "tick_us": 1, "loops": [1], "lanes": [{"contexts": 1, "start": []}]}"#, Fault::Reference),
        (br#"{"version": 1, "ticks": 1, "tick_us": 1, "fds": [[[1, 1], [1, 0]]], "lanes": [{"contexts": 1, "start": []}]}"#, Fault::Rule),
    ];
    for (script, fault) in faults {
        assert_eq!(run(script), Err(fault));
    }
}

/// In a run of one tick the lane polls, attaches, begins its loop, iterates, dispatches, logs, returns and rests.
#[test]
fn what_is_asked_of_a_run() -> Result<(), Fault> {
    let script = script_of(1);
    assert_eq!(mainctx::check(&script)?, "");
    assert!(mainctx::check(b"{}")?.contains(r#""class":"shape""#));
    let account = mainctx::account(&script, 0, u64::MAX)?;
    assert!(account.contains(r#""did":"dispatched","context":0,"source":1,"lines":["0 dispatch ctx 0 source 1 priority 200 depth 1"]"#));
    assert_eq!(
        mainctx::account(&script, 1, 1)?.lines().nth(1),
        account.lines().nth(2)
    );
    assert!(mainctx::why(&script, 0..=0)?.contains("to be dispatched"));
    assert_eq!(mainctx::why(b"", 0..=0), Err(Fault::NotJson));
    assert_eq!(mainctx::text(&script, false)?, text_of(1));
    assert!(mainctx::summary(&script)?.contains("dispatched once, tick 0 (0 ms)\n"));
    assert_eq!(
        mainctx::notes(&script)?,
        "Nothing is known in which GLib would do otherwise.\n"
    );
    assert_eq!(mainctx::steps(&script, Some(1), 0..=0)?, "");
    assert!(mainctx::steps(&script, None, 0..=0)?.contains("source 0.1 is dispatched"));
    assert_eq!(mainctx::stack(&script, 0, 1, None)?, "");
    assert!(mainctx::stack(&script, 0, 0, Some(0))?.contains("before its first step\n"));
    assert!(mainctx::timeline(&script, None, 0..=0, 0)?.contains("  0.1 idle"));
    Ok(())
}

/// By docs/NAMES.md: `ui` is context 0, `twice` and its call are slot and procedure 0, and the version is 2 where none is given.
#[test]
fn a_script_with_names() -> Result<(), Fault> {
    let named = br#"{"form": "names", "ticks": 1, "tick": "1 us", "threads": {"main": {"contexts": ["ui"], "start": [
        {"attach": "twice", "to": "ui", "idle": true, "call": "on_idle"}, {"iterate": "ui"}]}},
        "procedures": {"on_idle": {"do": [{"log": "hello"}]}}}"#;
    let numbers = mainctx::translate(named)?;
    let text = "thread 0\n0 dispatch ctx 0 source 1 priority 200 depth 1\n0 log 0\n0 iterate ctx 0 true\n0 end\n";
    assert_eq!(run(numbers.as_bytes())?, text);
    assert_eq!(mainctx::translate(numbers.as_bytes())?, numbers);
    assert_eq!(run(named), Err(Fault::Shape));
    assert_eq!(mainctx::check(named)?, "");
    let words = "thread main\n0 ms  dispatch twice -> on_idle (DEFAULT_IDLE)\n0 ms  log \"hello\"\n0 ms  iterate ui: true\n0 ms  end\n";
    assert_eq!(mainctx::text(named, false)?, words);
    let told = "  twice, idle, priority DEFAULT_IDLE: to be dispatched\n";
    assert!(mainctx::why(named, 0..=0)?.contains(told));
    assert!(mainctx::why(numbers.as_bytes(), 0..=0)?
        .contains("  source 1, idle, priority 200: to be dispatched\n"));
    assert!(mainctx::account(named, 0, 0)?.contains(r#""threads":["main"],"contexts":["ui"]"#));
    let unknown =
        br#"{"form": "names", "ticks": 1, "threads": {"main": {"start": [{"run": "none"}]}}}"#;
    assert_eq!(mainctx::translate(unknown), Err(Fault::Shape));
    assert!(mainctx::check(unknown)?.contains(r#""class":"reference""#));
    Ok(())
}

#[test]
fn a_fault_is_an_error() {
    let fault: Box<dyn std::error::Error + Send + Sync> = Fault::Limit.into();
    assert_eq!(fault.to_string(), "script: limit");
}

#[test]
fn eight_threads_at_once() {
    thread::scope(|scope| {
        for ticks in 1..=THREADS {
            scope.spawn(move || {
                for _ in 0..ROUNDS {
                    assert_eq!(run(&script_of(ticks)), Ok(text_of(ticks)));
                }
            });
        }
    });
}
