//! `trewizlow check`.

use trewizlow::{
    check, read, Launch, Verdict, MOST_CACHE_BYTES, MOST_SIDE_FILE_BYTES, MOST_SIGNATURE_BYTES,
};

use crate::arguments::{Arguments, Names};
use crate::command::Command;
use crate::files::{mebibytes, notes, Input, Lent, Opened};
use crate::help;
use crate::json;
use crate::kinds;
use crate::out::Out;
use crate::outcome::Outcome;
use crate::progress::during;
use crate::remarks::remarks;

pub const COMMAND: Command = Command {
    called: &["check"],
    names: Names {
        valued: &[
            "--signature",
            "--image",
            "--cache",
            "--info-plist",
            "--code-resources",
            "--launch-type",
            "--validation-category",
            "--marks",
        ],
        flags: &["--on-system-volume", "--on-authorized-volume", "--parent-is-init"],
    },
    help: help::CHECK,
    run,
};

fn fact(arguments: &Arguments, name: &str) -> Result<u8, String> {
    let number = arguments.number(name, u8::MAX.into())?;
    Ok(number.unwrap_or(0) as u8)
}

fn launch(arguments: &Arguments) -> Result<Launch, String> {
    Ok(Launch {
        on_authorized_volume: arguments.flag("--on-authorized-volume"),
        on_system_volume: arguments.flag("--on-system-volume"),
        launch_type: fact(arguments, "--launch-type")?,
        validation_category: fact(arguments, "--validation-category")?,
        parent_is_init: arguments.flag("--parent-is-init"),
    })
}

/// The files of a check, all open and none read.
struct Inputs {
    signature: Opened,
    cache: Opened,
    info: Option<Opened>,
    resources: Option<Opened>,
    image: Opened,
}

impl Inputs {
    /// The image comes last: where it is a pipe, opening it waits for whoever writes it.
    fn open(arguments: &Arguments) -> Result<Inputs, String> {
        let signature = arguments.wanted_path("--signature")?;
        let image = arguments.wanted_path("--image")?;
        let cache = arguments.wanted_path("--cache")?;
        let side_file = |name| arguments.path(name).map(Opened::new).transpose();
        Ok(Inputs {
            signature: Opened::new(signature)?,
            cache: Opened::new(cache)?,
            info: side_file("--info-plist")?,
            resources: side_file("--code-resources")?,
            image: Opened::new(image)?,
        })
    }

    fn all(&self) -> Vec<Input> {
        let wanted = [&self.signature, &self.image, &self.cache];
        let all = wanted.into_iter().chain(&self.info).chain(&self.resources);
        all.map(Opened::input).collect()
    }

    /// The small files are read first. Of the image no byte past the code limit is read, and
    /// none where the signature or a side file's length is refused whatever the image is.
    fn lend(self) -> Result<Files, String> {
        let side_file =
            |file: Option<Opened>| file.map(|f| f.read(MOST_SIDE_FILE_BYTES)).transpose();
        let signature = self.signature.read(MOST_SIGNATURE_BYTES)?;
        let cache = self.cache.read(MOST_CACHE_BYTES)?;
        let (info, resources) = (side_file(self.info)?, side_file(self.resources)?);
        let long = info.iter().chain(&resources).any(Lent::is_long);
        let wanted = if long { 0 } else { read(&signature.bytes).code_limit };
        let image = self.image.image(wanted)?;
        Ok(Files { signature, image, cache, info, resources })
    }
}

/// The files of a check as they are lent.
struct Files {
    signature: Lent,
    image: Lent,
    cache: Lent,
    info: Option<Lent>,
    resources: Option<Lent>,
}

impl Files {
    /// The verdict and the marks.
    fn check(&self, launch: Launch) -> (Verdict, Vec<u8>) {
        let lent = trewizlow::Lent {
            signature: &self.signature.bytes,
            image: &self.image.bytes,
            cache: &self.cache.bytes,
            info_plist: self.info.as_ref().map(|file| &*file.bytes),
            code_resources: self.resources.as_ref().map(|file| &*file.bytes),
            launch,
        };
        let mut marks = vec![0; read(&self.signature.bytes).code_slots as usize];
        let what = format!("checking {}", mebibytes(&self.image.bytes));
        let verdict = during(&what, || check(&lent, &mut marks));
        (verdict, marks)
    }

    fn notes(&self, refused: bool) -> Vec<String> {
        let files = [&self.signature, &self.cache, &self.image];
        let lengths = notes(refused, files.into_iter().chain(&self.info).chain(&self.resources));
        lengths.into_iter().chain(remarks(&self.signature)).collect()
    }
}

fn as_json(verdict: &Verdict, written: &Result<bool, String>, signature: &[u8]) -> String {
    let accepted = ("accepted", verdict.accepted().to_string());
    let mut members = json::answer(verdict.number, verdict.place, accepted, &verdict.sentence());
    members.extend(json::marks(written));
    members.extend(kinds::warning_member(signature));
    json::object(&members) + "\n"
}

fn run(arguments: &Arguments) -> Result<Outcome, String> {
    arguments.no_words()?;
    let launch = launch(arguments)?;
    let inputs = Inputs::open(arguments)?;
    let out = arguments.path("--marks").map(|path| Out::new(path, inputs.all())).transpose()?;
    let files = inputs.lend()?;
    let (verdict, marks) = files.check(launch);
    let written = match out.filter(|_| verdict.wrote_marks()) {
        Some(out) => out.write(&marks).map(|()| true),
        None => Ok(false),
    };
    let text = match arguments.json() {
        true => as_json(&verdict, &written, &files.signature.bytes),
        false => format!("{verdict}\n"),
    };
    Ok(Outcome {
        text,
        passed: verdict.accepted(),
        notes: files.notes(!verdict.accepted()),
        warnings: kinds::warning(&files.signature.bytes).into_iter().collect(),
        failure: written.err(),
    })
}
