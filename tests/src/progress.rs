//! Notes which case each thread is at. If a call never returns or kills the judge, the scripts
//! print the notes (`tests/build.sh`).

use std::fs::File;
use std::os::unix::fs::FileExt;
use std::path::Path;

pub struct Progress(Option<File>);

impl Progress {
    /// The notes of a thread, in the folder that JUDGE_NOTES names. Without it nothing is noted.
    pub fn of(thread: usize) -> Progress {
        Progress(std::env::var_os("JUDGE_NOTES").and_then(|folder| {
            File::create(Path::new(&folder).join(format!("thread{thread}"))).ok()
        }))
    }

    pub fn at(&mut self, note: &str) {
        if let Some(file) = &self.0 {
            // a note that cannot be written is no reason to stop
            let _ = file.write_all_at(format!("{note:<60}\n").as_bytes(), 0);
        }
    }

    pub fn done(&mut self) {
        self.at("done");
    }
}
