//! Help is printed where it is asked for by an option's name, and an option's value never
//! asks for it: status 0 stands for `accepted` otherwise.

mod scratch;

use std::fs::copy;

use scratch::{check, recheck, run, run_in, sample, Run, Scratch};

/// Runs the list with the value of one option exchanged, in both ways of writing it.
fn exchanged(scratch: &Scratch, list: &[&str], option: &str, value: &str) -> [Run; 2] {
    let at = list.iter().position(|word| *word == option).unwrap();
    let apart = [&list[..=at], &[value], &list[at + 2..]].concat();
    let joined = format!("{option}={value}");
    let joined = [&list[..at], &[&joined], &list[at + 2..]].concat();
    [apart, joined].map(|list| run_in(&scratch.0, &list))
}

/// The options with a value, read off the help text: `  --name WORD`.
fn valued(command: &str) -> Vec<String> {
    let (_, help, _) = run(&[command, "--help"]);
    let capital = |word: &str| word.starts_with(|first: char| first.is_ascii_uppercase());
    let option = |line: &str| {
        let mut words = line.strip_prefix("  --")?.split(' ');
        let name = words.next()?;
        words.next().filter(|word| capital(word)).map(|_| format!("--{name}"))
    };
    help.lines().filter_map(option).collect()
}

/// No option's value is help. Where a file of that name is there, it is the file that is lent.
fn values_are_no_help(scratch: &Scratch, list: &[&str], made: &str) {
    let options = valued(list[0]);
    assert_eq!(options.len(), list.iter().filter(|word| word.starts_with("--")).count());
    for (option, value) in options.iter().flat_map(|option| [(option, "--help"), (option, "-h")]) {
        for (status, out, _) in exchanged(scratch, list, option, value) {
            let answered = out.starts_with("0 ");
            assert!(!out.contains("usage"), "{option} {value}");
            assert_eq!(
                (status == 0, answered),
                (option == made, option == made),
                "{option} {value}"
            );
        }
        let at = list.iter().position(|word| word == option).unwrap();
        let _ = copy(list[at + 1], scratch.0.join(value));
        let named = scratch.exists(value);
        for (status, out, _) in exchanged(scratch, list, option, value) {
            assert_eq!((status == 0, out.starts_with("0 ")), (named, named), "{option} {value}");
        }
        let _ = std::fs::remove_file(scratch.0.join(value));
    }
}

#[test]
fn values_of_check() {
    let scratch = Scratch::new("help-check");
    let mut plan = reference::samples::plan();
    (plan.info, plan.resources) = (Some(b"info".to_vec()), Some(b"resources".to_vec()));
    let inputs = plan.covered().build();
    let signature = scratch.file("signature", &inputs.signature);
    let (cache, image) = (scratch.file("cache", &inputs.cache), sample("image.bin"));
    let (info, resources) = (scratch.file("info", b"info"), scratch.file("code", b"resources"));
    let marks = scratch.path("marks");
    let mut list = check(&signature, &image, &cache);
    list.extend(["--info-plist", &info, "--code-resources", &resources, "--marks", &marks]);
    list.extend(["--launch-type", "0", "--validation-category", "0"]);
    assert_eq!(run(&list).0, 0);
    values_are_no_help(&scratch, &list, "--marks");
}

#[test]
fn values_of_recheck() {
    let scratch = Scratch::new("help-recheck");
    let (signature, image) = (sample("signature.bin"), sample("image.bin"));
    let page = scratch.file("page", &std::fs::read(image).unwrap()[..4096]);
    let marks = scratch.file("marks", &[0, 0, 0]);
    let list = recheck(&signature, ["0", "1"], &page, &marks);
    assert_eq!(run(&list).0, 0);
    values_are_no_help(&scratch, &list, "none");
}

/// Behind `--` there are words alone.
#[test]
fn words_are_no_help() {
    let scratch = Scratch::new("help-words");
    for (command, word) in ["show", "explain"].into_iter().flat_map(|c| [(c, "--help"), (c, "-h")])
    {
        let (status, out, _) = run_in(&scratch.0, &[command, "--", word]);
        assert_eq!((status, out.as_str()), (2, ""), "{command} -- {word}");
    }
    copy(sample("signature.bin"), scratch.0.join("-h")).unwrap();
    let (status, out, _) = run_in(&scratch.0, &["show", "--", "-h"]);
    assert!(status == 0 && out.starts_with("blobs"));
}

#[test]
fn help_that_is_asked_for() {
    for command in ["check", "recheck", "show", "explain"] {
        let title = format!("usage: trewizlow {command}");
        for list in [&[command, "--help"][..], &[command, "--json", "-h"], &["help", command]] {
            let (status, out, err) = run(list);
            assert!(status == 0 && out.starts_with(&title) && err.is_empty(), "{list:?}");
        }
    }
    for list in [&["--help"][..], &["-h"], &["help"], &["help", "--help"], &["--version", "-h"]] {
        let (status, out, _) = run(list);
        assert!(status == 0 && out.starts_with("usage: trewizlow COMMAND"), "{list:?}");
    }
    for list in [["--version"], ["-V"]] {
        let (status, out, _) = run(&list);
        assert!(status == 0 && out.starts_with("trewizlow "), "{list:?}");
    }
}
