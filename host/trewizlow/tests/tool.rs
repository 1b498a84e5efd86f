//! The command-line tool on the samples: output, statuses, files.

mod scratch;

use scratch::{check, recheck, refused_by_all, run, sample, with_directory, Scratch, ACCEPTED};

#[test]
fn accepted_and_refused() {
    let (signature, cache) = (sample("signature.bin"), sample("cache.bin"));
    let (image, damaged) = (sample("image.bin"), sample("image-damaged.bin"));
    assert_eq!(run(&check(&signature, &image, &cache)), (0, ACCEPTED.into(), "".into()));
    let line = "31 1 refused: page 1 differs from its code slot\n";
    assert_eq!(run(&check(&signature, &damaged, &cache)), (1, line.into(), "".into()));
    let mut json = check(&signature, &damaged, &cache);
    json.push("--json");
    let object = "{\"number\":31,\"place\":1,\"accepted\":false,\
                  \"message\":\"page 1 differs from its code slot\",\"marks_written\":false}\n";
    assert_eq!(run(&json), (1, object.into(), "".into()));
}

/// Marks are written at 0 and 31 and at no other number.
#[test]
fn marks_of_a_check() {
    let scratch = Scratch::new("marks");
    let (signature, cache) = (sample("signature.bin"), sample("cache.bin"));
    let marks = scratch.path("marks");
    let with_marks = |image: &str, cache: &str| {
        let mut list = check(&signature, image, cache);
        list.extend(["--marks", &marks]);
        run(&list).0
    };
    assert_eq!(with_marks(&sample("image.bin"), &scratch.file("empty", b"")), 1);
    assert!(!scratch.exists("marks"));
    assert_eq!(with_marks(&sample("image-damaged.bin"), &cache), 1);
    assert_eq!(scratch.read("marks"), [0, 1, 0]);
    assert_eq!(with_marks(&sample("image.bin"), &cache), 0);
    assert_eq!(scratch.read("marks"), [0, 0, 0]);
    let image = sample("image.bin");
    let mut list = check(&signature, &image, &cache);
    list.extend(["--marks", &marks, "--json"]);
    assert!(run(&list).1.ends_with(",\"marks_written\":true}\n"));
    assert_eq!(scratch.names(), ["empty", "marks"]);
}

/// A recheck brings the marks file up to date, and leaves it where it is refused.
#[test]
fn marks_of_a_recheck() {
    let scratch = Scratch::new("recheck");
    let signature = sample("signature.bin");
    let image = std::fs::read(sample("image.bin")).unwrap();
    let page = scratch.file("page", &image[4096..8192]);
    let marks = scratch.file("marks", &[0, 1, 1]);
    assert_eq!(run(&recheck(&signature, ["6000", "1"], &page, &marks)).0, 1);
    assert_eq!(scratch.read("marks"), [0, 0, 1]);
    let last = scratch.file("last", &image[8192..]);
    assert_eq!(run(&recheck(&signature, ["0x2000", "1"], &last, &marks)).0, 0);
    assert_eq!(scratch.read("marks"), [0, 0, 0]);
    let (status, out, _) = run(&recheck(&signature, ["0", "1"], &last, &marks));
    assert!(status == 1 && out.starts_with("33 0 refused: "));
    let bad = scratch.file("bad", &[0, 2, 0]);
    let (status, out, _) = run(&recheck(&signature, ["6000", "1"], &page, &bad));
    assert!(status == 1 && out.starts_with("34 1 refused: the mark of page 1"));
    assert_eq!(scratch.read("bad"), [0, 2, 0]);
    assert_eq!(scratch.names(), ["bad", "last", "marks", "page"]);
}

/// A recheck's 0 says what it means, and does not say that the image is accepted.
#[test]
fn what_a_recheck_says() {
    let scratch = Scratch::new("says");
    let signature = sample("signature.bin");
    let image = std::fs::read(sample("image.bin")).unwrap();
    let (page, damaged) = (&image[..4096], [0; 4096]);
    let said = |pages: &[u8], json: &[&'static str]| {
        let (pages, marks) = (scratch.file("pages", pages), scratch.file("marks", &[0, 0, 0]));
        let mut list = recheck(&signature, ["0", "1"], &pages, &marks);
        list.extend(json);
        run(&list)
    };
    let meaning = "no mark is 1 (every page agrees as last examined); \
                   the trust cache was not looked at";
    let (status, out, _) = said(page, &[]);
    assert_eq!((status, out), (0, format!("0 0 pages agree: {meaning}\n")));
    let (_, out, _) = said(page, &["--json"]);
    let object = format!(
        "{{\"number\":0,\"place\":0,\"pages_agree\":true,\"message\":\"{meaning}\",\
         \"marks_written\":true}}\n"
    );
    assert_eq!(out, object);
    let (status, out, _) = said(&damaged, &["--json"]);
    assert!(status == 1 && out.contains("\"pages_agree\":false"));
    let (status, out, _) = said(b"", &["--json"]);
    assert!(status == 1 && out.contains("\"pages_agree\":null"));
    assert!(out.contains("\"number\":33") && out.contains("\"marks_written\":false"));
}

#[test]
fn launch_facts_and_side_files() {
    let scratch = Scratch::new("facts");
    let mut plan = reference::samples::plan();
    plan.info = Some(b"info".to_vec());
    plan.resources = Some(Vec::new());
    plan.category = 1;
    let inputs = plan.covered().build();
    let signature = scratch.file("signature", &inputs.signature);
    let (image, cache) = (sample("image.bin"), scratch.file("cache", &inputs.cache));
    let (info, resources) = (scratch.file("info", b"info"), scratch.file("resources", b""));
    let mut list = check(&signature, &image, &cache);
    let mut next = |more: &[&'static str], side: [&str; 2]| {
        list.extend(more);
        let mut list = list.clone();
        list.extend(["--info-plist", side[0], "--code-resources", side[1]]);
        run(&list).1.split_once(' ').unwrap().0.to_string()
    };
    assert_eq!(next(&[], [&resources, &resources]), "22");
    assert_eq!(next(&[], [&info, &resources]), "29");
    assert_eq!(next(&["--launch-type=1", "--validation-category", "1"], [&info, &resources]), "29");
    assert_eq!(next(&["--on-system-volume"], [&info, &resources]), "30");
    assert_eq!(next(&["--parent-is-init"], [&info, &resources]), "0");
}

#[test]
fn show_prints_parts() {
    let signature = sample("signature.bin");
    let (status, out, _) = run(&["show", &signature]);
    assert_eq!(status, 0);
    for part in ["com.example.solver", "0x20400", "entitlements", "CMS signature", "code slots"] {
        assert!(out.contains(part), "{part} is missing");
    }
    let (status, out, _) = run(&["show", "--json", &signature]);
    let hash = trewizlow::cdhash(&std::fs::read(&signature).unwrap()).hash;
    let hash: String = hash.iter().map(|byte| format!("{byte:02x}")).collect();
    assert!(status == 0 && out.contains(&format!("\"cdhash\":\"{hash}\"")));
    assert!(out.contains("\"well_formed\":true") && out.contains("all of its tests pass"));
    let (status, out, _) = run(&["show", &sample("cache.bin")]);
    assert!(status == 1 && out.starts_with("2 0 refused: "));
    let (_, out, _) = run(&["show", "--json", &sample("cache.bin")]);
    assert!(out.contains("\"well_formed\":false") && !out.contains("accepted"));
}

/// The samples' signature with these flags.
fn with_flags(scratch: &Scratch, flags: u32) -> String {
    with_directory(scratch, |directory| directory.flags = flags)
}

#[test]
fn show_names_flags() {
    let scratch = Scratch::new("flags");
    let signature = with_flags(&scratch, 0x1_0002);
    let (status, out, err) = run(&["show", &signature]);
    assert!(status == 0 && out.contains("  flags          0x10002 (CS_ADHOC, CS_RUNTIME)\n"));
    assert_eq!(err, "");
    let (_, out, _) = run(&["show", "--json", &signature]);
    assert!(out.contains("\"flags\":65538,\"flag_names\":[\"CS_ADHOC\",\"CS_RUNTIME\"]"));
    assert!(!out.contains("flags_not_allowed"));
}

/// Refusal 46, naming what is not allowed.
#[test]
fn flags_that_are_not_allowed() {
    let scratch = Scratch::new("not-allowed");
    let signature = with_flags(&scratch, 0x8000_0042);
    refused_by_all(
        &scratch,
        &signature,
        "46 0 refused: the directory's flags hold a bit that is not allowed",
        "the directory's flags, 0x80000042, hold what is not allowed (46): \
         0x40, CS_DATAVAULT_CONTROLLER",
    );
    let (status, out, _) = run(&["show", "--json", &signature]);
    assert!(status == 1 && out.starts_with("{\"number\":46,\"place\":0,"));
    assert!(out.contains("\"flags_not_allowed\":[\"0x40\",\"CS_DATAVAULT_CONTROLLER\"]"));
}

/// Refusal 15, naming the limit.
#[test]
fn code_limit_that_is_too_large() {
    let scratch = Scratch::new("limit");
    let limit = 17_179_869_185;
    let signature = with_directory(&scratch, |directory| directory.code_limit64 = limit);
    refused_by_all(
        &scratch,
        &signature,
        "15 0 refused: the directory's code limit is above 17,179,869,184",
        "the directory's codeLimit64, 17179869185, is above 17179869184 (15)",
    );
    let (status, out, _) = run(&["show", "--json", &signature]);
    assert!(status == 1 && out.starts_with("{\"number\":15,\"place\":0,"));
    assert!(out.contains("\"code_limit64\":17179869185"));
}

/// `show` says which field the code limit is: codeLimit64 where the version has it and it is not
/// 0, be it the smaller one.
#[test]
fn show_names_the_field_of_the_code_limit() {
    let scratch = Scratch::new("chosen");
    let cases = [(0x20300, 0, 10_000, "codeLimit"), (0x20300, 9999, 9999, "codeLimit64")];
    let others = [(0x20600, 12_288, 12_288, "codeLimit64"), (0x202FF, 9, 10_000, "codeLimit")];
    for (version, large, limit, field) in cases.into_iter().chain(others) {
        let signature = with_directory(&scratch, |directory| {
            (directory.version, directory.code_limit64) = (version, large);
        });
        let (status, out, err) = run(&["show", &signature]);
        assert_eq!((status, err.as_str()), (0, ""));
        assert!(out.contains(&format!("  code limit     {limit} bytes ({field})\n")), "{out}");
        let (_, out, _) = run(&["show", "--json", &signature]);
        let members = format!("\"code_limit\":{limit},\"code_limit_field\":\"{field}\"");
        assert!(out.contains(&members) && !out.contains("code_limit64\":"), "{out}");
    }
}

/// Refusal 35, naming the offset.
#[test]
fn scatter_offset_that_is_not_0() {
    let scratch = Scratch::new("scatter");
    let signature = with_directory(&scratch, |directory| directory.scatter_offset = 0x60);
    refused_by_all(
        &scratch,
        &signature,
        "35 0 refused: the directory has a scatterOffset that is not 0",
        "the directory's scatterOffset, 0x60, is not 0 (35): its code slots do not cover the \
         image from byte 0 upward",
    );
    let (status, out, _) = run(&["show", "--json", &signature]);
    assert!(status == 1 && out.starts_with("{\"number\":35,\"place\":0,"));
    assert!(out.contains("\"scatter_offset\":96"));
}

/// A directory of an older version has its identifier there, and of an unknown one nothing is
/// said.
#[test]
fn no_scatter_offset_in_another_version() {
    let scratch = Scratch::new("older");
    for (version, wanted) in [(0x200FF, 0), (0x20601, 1)] {
        let signature = with_directory(&scratch, |directory| {
            (directory.version, directory.scatter_offset) = (version, 0x60);
        });
        let (status, _, err) = run(&["show", &signature]);
        assert_eq!((status, err.as_str()), (wanted, ""));
        let (_, out, _) = run(&["show", "--json", &signature]);
        assert!(!out.contains("scatter_offset"));
    }
}

/// The bits and names of `explain 46` are those that `show` lets pass, each of them; it notes
/// the others and nothing else.
#[test]
fn explain_names_the_allowed_flags() {
    let scratch = Scratch::new("allowed");
    let (_, out, _) = run(&["explain", "46"]);
    let listed: Vec<&str> = out.split([',', ';', ':']).map(str::trim).collect();
    // The mask and the nine.
    assert_eq!(out.matches("CS_").count(), 10);
    for bit in (0..32).map(|i| 1u32 << i) {
        let signature = with_flags(&scratch, bit);
        let (status, shown, err) = run(&["show", &signature]);
        let named = shown.lines().find_map(|line| line.trim().strip_prefix("flags "));
        let name = named.and_then(|flags| flags.split(['(', ')']).nth(1));
        let allowed = name.is_some_and(|name| listed.contains(&&*format!("{name} {bit:#x}")));
        assert_eq!((status == 0, err.is_empty()), (allowed, allowed), "{bit:#x}");
    }
}

#[test]
fn explain_every_number() {
    for rule in trewizlow::RULES {
        let (status, out, _) = run(&["explain", &rule.number.to_string()]);
        assert!(status == 0 && out.starts_with(&format!("{}: ", rule.number)));
    }
    assert_eq!(run(&["explain"]).1.lines().count(), trewizlow::RULES.len());
}

/// A number that the table does not have is an error that says which it has.
#[test]
fn explain_unknown_numbers() {
    let last = trewizlow::RULES.last().unwrap().number;
    let numbers: Vec<u32> = trewizlow::RULES.iter().map(|rule| rule.number).collect();
    let gap = (0..last).find(|number| !numbers.contains(number)).unwrap();
    for word in [gap.to_string(), (last + 1).to_string(), "4294967296".to_string(), "x".to_string()]
    {
        let (status, out, err) = run(&["explain", &word]);
        assert_eq!((status, out.as_str()), (2, ""));
        let sentence = format!("number {word:?} is not in this tool's table, which has 0 to ");
        assert!(err.contains(&sentence) && err.contains(&last.to_string()));
    }
    let (_, _, err) = run(&["explain", "\x1b[31m\n"]);
    assert!(err.contains("number \"\\u{1b}[31m\\n\" is not"), "{err}");
}
