//! The program, run on a text.
use std::env;
use std::io::Write;
use std::path::PathBuf;
use std::process::{Child, Command, Stdio};
use std::thread;
use std::time::Duration;

/// Between the pieces of a text, so that the program reads them one by one.
const PAUSE: Duration = Duration::from_millis(2);

pub struct Program(PathBuf);

impl Program {
    /// The one that `SIZHBANTO_REPORT` names, or the repository's.
    pub fn found() -> Result<Self, String> {
        let path = match env::var_os("SIZHBANTO_REPORT") {
            Some(path) => PathBuf::from(path),
            None => crate::examples::repository().join("crates/report/out/report"),
        };
        if path.is_file() {
            return Ok(Self(path));
        }
        let path = path.display();
        Err(format!(
            "there is no {path}: run tools/build_report at the top of the repository first"
        ))
    }

    /// What it prints for a text that comes in so many pieces, or what went wrong. It has to read
    /// the text to its end and to exit with 0.
    pub fn printed(&self, text: &[u8], pieces: usize) -> Result<Vec<u8>, String> {
        let mut command = Command::new(&self.0);
        command.stdin(Stdio::piped()).stdout(Stdio::piped());
        let mut child = command
            .spawn()
            .map_err(|error| format!("it can't be run: {error}"))?;
        let mut stdin = child.stdin.take().expect("a pipe");
        thread::scope(|scope| {
            let writer = scope.spawn(move || {
                let size = text.len().div_ceil(pieces).max(1);
                for (k, piece) in text.chunks(size).enumerate() {
                    if k > 0 {
                        thread::sleep(PAUSE);
                    }
                    stdin.write_all(piece)?;
                }
                Ok::<(), std::io::Error>(())
            });
            let printed = output(child)?;
            let written = writer.join().expect("a writer without a panic");
            written.map_err(|error| format!("it did not read the text to its end: {error}"))?;
            Ok(printed)
        })
    }
}

fn output(child: Child) -> Result<Vec<u8>, String> {
    let output = child
        .wait_with_output()
        .map_err(|error| format!("its output can't be read: {error}"))?;
    if output.status.success() {
        return Ok(output.stdout);
    }
    Err(format!("it ended with {}", output.status))
}
