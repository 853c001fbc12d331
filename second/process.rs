//! The programs run as processes: a folder with `net.tsv` in it, standard input from a pipe, and what is written
//! compared byte by byte.

use std::fs::{self, File};
use std::io::{self, Write};
use std::os::unix::fs::FileExt;
use std::path::{Path, PathBuf};
use std::process::{Command, Output, Stdio};
use std::thread;

/// What stands under the name `net.tsv`.
#[derive(Clone, Copy)]
pub enum Net<'a> {
    File(&'a [u8]),
    /// Nothing, which counts as an empty file.
    Absent,
    /// A folder, which can be opened but not read and counts as an empty file too.
    Directory,
}

/// A folder of our own, removed with everything in it at the end.
pub struct Folder {
    path: PathBuf,
    note: File,
}

impl Folder {
    pub fn new() -> io::Result<Folder> {
        let path = std::env::temp_dir().join(format!("mpakirovu-second-{}", std::process::id()));
        fs::create_dir_all(&path)?;
        let note = File::create(path.join("case"))?;
        Ok(Folder { path, note })
    }

    /// Leaves word of the case at work, for the reader of a run that hangs or dies.
    pub fn note(&self, case: &str) -> io::Result<()> {
        self.note.set_len(0)?;
        self.note.write_all_at(format!("{case}\n").as_bytes(), 0)
    }

    /// Runs a program here on what stands as `net.tsv` and a standard input, and compares what it writes.
    pub fn compare(&self, program: &Path, net: Net, input: &[u8], chunk: usize, expected: &[u8]) -> Result<(), String> {
        let output =
            self.run(program, net, input, chunk).map_err(|error| format!("{}: {error}\n", program.display()))?;
        if output.stdout == expected && output.status.code().is_some() {
            return Ok(());
        }
        let net = match net {
            Net::File(_) => "the file above",
            Net::Absent => "absent",
            Net::Directory => "a folder",
        };
        Err(format!(
            "program {}, net.tsv {net}\nstandard input, {} bytes: {}\nexpected {}\nfound    {}\nended with {}\n",
            program.display(),
            input.len(),
            input.escape_ascii(),
            expected.escape_ascii(),
            output.stdout.escape_ascii(),
            output.status
        ))
    }

    /// The input goes in by pieces, so that the program has to read more than once.
    fn run(&self, program: &Path, net: Net, input: &[u8], chunk: usize) -> io::Result<Output> {
        self.hold(net)?;
        let mut child =
            Command::new(program).current_dir(&self.path).stdin(Stdio::piped()).stdout(Stdio::piped()).spawn()?;
        let stdin = child.stdin.take();
        thread::scope(|scope| {
            scope.spawn(move || {
                if let Some(mut stdin) = stdin {
                    // A program that ends early closes its end, and the rest goes nowhere.
                    let _ = input.chunks(chunk).try_for_each(|piece| stdin.write_all(piece));
                }
            });
            child.wait_with_output()
        })
    }

    fn hold(&self, net: Net) -> io::Result<()> {
        let path = self.path.join("net.tsv");
        if path.is_dir() {
            fs::remove_dir(&path)?;
        } else if path.exists() {
            fs::remove_file(&path)?;
        }
        match net {
            Net::File(bytes) => fs::write(path, bytes),
            Net::Absent => Ok(()),
            Net::Directory => fs::create_dir(path),
        }
    }
}

impl Drop for Folder {
    fn drop(&mut self) {
        // Nothing is lost if the folder stays behind.
        let _ = fs::remove_dir_all(&self.path);
    }
}
