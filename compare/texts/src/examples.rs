//! The scenes of the folder `examples` of the repository, each with its report.
use std::fs;
use std::path::{Path, PathBuf};

pub fn repository() -> &'static Path {
    let here = Path::new(env!("CARGO_MANIFEST_DIR"));
    here.ancestors().nth(2).expect("the repository")
}

/// A scene's name, its text, and the report that stands beside it.
pub struct Example {
    pub name: String,
    pub text: Vec<u8>,
    pub report: Vec<u8>,
}

/// All of them by name, or which file can't be read.
pub fn examples() -> Result<Vec<Example>, String> {
    let folder = repository().join("examples");
    let read = |path: &Path| fs::read(path).map_err(|error| format!("{}: {error}", path.display()));
    let entries =
        fs::read_dir(&folder).map_err(|error| format!("{}: {error}", folder.display()))?;
    let mut scenes: Vec<PathBuf> = entries.flatten().map(|entry| entry.path()).collect();
    scenes.retain(|path| path.extension().is_some_and(|ending| ending == "scene"));
    scenes.sort();
    let example = |path: &PathBuf| {
        Ok(Example {
            name: path.display().to_string(),
            text: read(path)?,
            report: read(&path.with_extension("report"))?,
        })
    };
    scenes.iter().map(example).collect()
}
