//! One of our programs, run on standard input.
use std::fs::{self, File};
use std::path::{Path, PathBuf};
use std::process::{Command, Stdio};

pub struct Program {
    program: PathBuf,
    folder: PathBuf,
}

impl Program {
    pub fn new(program: &Path, folder: &Path) -> Self {
        let program = program.canonicalize().unwrap_or_else(|e| panic!("{}: {e}", program.display()));
        Program { program, folder: folder.to_path_buf() }
    }

    /// What the program prints for this standard input.
    pub fn run(&self, input: &[u8]) -> String {
        let (from, to) = (self.folder.join("stdin"), self.folder.join("stdout"));
        fs::write(&from, input).expect("the folder is writable");
        let status = Command::new(&self.program)
            .stdin(Stdio::from(File::open(&from).expect("it was just written")))
            .stdout(Stdio::from(File::create(&to).expect("the folder is writable")))
            .status()
            .unwrap_or_else(|e| panic!("{}: {e}", self.program.display()));
        let text = String::from_utf8_lossy(&fs::read(&to).expect("it was just written")).into_owned();
        match status.success() {
            true => text,
            false => format!("{text}({status})\n"),
        }
    }
}
