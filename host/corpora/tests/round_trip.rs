//! The files of crates/cases are those that make-corpora writes. What is written is read back,
//! and the reference's answers on what was read are the lines that go with the files.

use std::path::Path;

use corpora::answers::answer;
use corpora::case::MARKS;
use corpora::file::Reader;
use corpora::subjects;

#[test]
fn files_are_as_made() {
    let folder = Path::new(env!("CARGO_MANIFEST_DIR")).join("../../crates/cases");
    let mut stdout = String::new();
    for made in subjects::make() {
        assert_eq!(made.fault(), None);
        let data = std::fs::read(folder.join("data").join(made.name)).unwrap();
        assert!(data == made.data, "{} differs", made.name);
        stdout += &made.lines.concat();
    }
    assert!(std::fs::read_to_string(folder.join("stdout")).unwrap() == stdout, "stdout differs");
}

#[test]
fn cases_are_read_back() {
    let (mut reader, mut marks) = (Reader::default(), Vec::new());
    for made in subjects::make() {
        let mut at = 0;
        for line in &made.lines {
            let (head, next) = reader.read(&made.data, at).expect("a whole case");
            let fields = reader.fields();
            if head.named.contains(&MARKS) {
                marks = fields[MARKS].to_vec();
            }
            let printed = answer(head.operation, &fields, &mut marks).1;
            assert_eq!(&format!("{}: {printed}\n", head.name), line);
            at = next;
        }
        assert_eq!(at, made.data.len(), "{}", made.name);
    }
}
