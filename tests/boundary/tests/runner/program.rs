//! The program, run in a folder of its own.

use std::fs::{self, File};
use std::io::{ErrorKind, Write};
use std::path::{Path, PathBuf};
use std::process::{self, Command, Output, Stdio};
use std::sync::atomic::{AtomicUsize, Ordering};
use std::thread;
use std::time::Duration;

/// The name of the file that it reads.
const MODEL: &str = "model";

/// A temporary folder: the program's own within it, and the input beside that.
struct Folder {
    path: PathBuf,
}

impl Folder {
    fn new() -> Folder {
        static FOLDERS: AtomicUsize = AtomicUsize::new(0);
        let number = FOLDERS.fetch_add(1, Ordering::Relaxed);
        let name = format!("creol-runner-{}-{number}", process::id());
        let folder = Folder {
            path: std::env::temp_dir().join(name),
        };
        fs::create_dir_all(folder.own()).expect("a temporary folder");
        folder
    }

    fn own(&self) -> PathBuf {
        self.path.join("own")
    }

    fn input(&self) -> PathBuf {
        self.path.join("input")
    }
}

impl Drop for Folder {
    fn drop(&mut self) {
        let _ = fs::remove_dir_all(&self.path);
    }
}

/// What the program writes with this model file, or with none, and this input, which is
/// the same for a file and for a pipe.
pub fn written(model: Option<&[u8]>, input: &[u8]) -> Vec<u8> {
    run(model, |program, folder| {
        fs::write(folder.input(), input).expect("an input");
        let input = File::open(folder.input()).expect("the input");
        let output = program.stdin(input).output();
        output.expect("the program runs")
    })
}

/// The same with an input that comes in pieces, and not all at once.
pub fn written_from_pieces(model: Option<&[u8]>, pieces: &[&[u8]]) -> Vec<u8> {
    run(model, |program, _| {
        let program = program.stdin(Stdio::piped()).stdout(Stdio::piped());
        let mut child = program.stderr(Stdio::piped()).spawn().expect("the program");
        let mut pipe = child.stdin.take().expect("its input");
        for piece in pieces {
            match pipe.write_all(piece) {
                // It need not wait for what it does not read.
                Err(error) if error.kind() == ErrorKind::BrokenPipe => break,
                result => result.expect("its input"),
            }
            thread::sleep(Duration::from_millis(2));
        }
        drop(pipe);
        child.wait_with_output().expect("the program ends")
    })
}

fn run(model: Option<&[u8]>, start: impl FnOnce(&mut Command, &Folder) -> Output) -> Vec<u8> {
    let folder = Folder::new();
    let file = folder.own().join(MODEL);
    if let Some(model) = model {
        fs::write(&file, model).expect("a model file");
    }
    let mut program = Command::new(env!("CREOL_RUNNER"));
    let output = start(program.current_dir(folder.own()), &folder);
    assert!(output.status.success(), "{output:?}");
    assert!(output.stderr.is_empty(), "{output:?}");
    let kept = model.is_none_or(|model| fs::read(&file).is_ok_and(|bytes| bytes == model));
    let files = usize::from(model.is_some());
    assert!(kept && count(&folder.own()) == files, "a file is written");
    output.stdout
}

fn count(folder: &Path) -> usize {
    fs::read_dir(folder).expect("the folder").count()
}

/// What the program and the independent engine's runner write; panics where they differ.
pub fn compared(model: Option<&[u8]>, input: &[u8]) -> Vec<u8> {
    let found = written(model, input);
    assert_written(model, input, &found);
    found
}

/// That the independent engine's runner writes these bytes.
pub fn assert_written(model: Option<&[u8]>, input: &[u8], found: &[u8]) {
    let model = model.unwrap_or_default();
    let expected = independent::runner(model, input);
    if found != expected {
        let shown = |bytes: &[u8]| String::from_utf8_lossy(bytes).into_owned();
        panic!(
            "{}\nin place of\n{}\nfor the input\n{}\nand the model\n{}",
            shown(found),
            shown(&expected),
            input.escape_ascii(),
            shown(model)
        );
    }
}

/// The answers among the lines that are written.
pub fn answers(written: &[u8]) -> Vec<i32> {
    let written = std::str::from_utf8(written).expect("ASCII");
    let answers = written
        .lines()
        .filter_map(|line| line.strip_prefix("answer="));
    answers
        .map(|answer| answer.parse().expect("a number"))
        .collect()
}
