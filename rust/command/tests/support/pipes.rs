//! Named pipes, through which a command gets a volume at the time that a test wants.

use std::fs::File;
use std::io::Write;
use std::os::unix::fs::OpenOptionsExt;
use std::process::{Child, Command};
use std::thread;
use std::time::Duration;

use super::Folder;

const O_NONBLOCK: i32 = 0o4000;

impl Folder {
    pub fn make_pipe(&self, name: &str) {
        let made = Command::new("mkfifo").arg(self.0.join(name)).status();
        assert!(made.unwrap().success());
    }

    /// Opens a pipe for writing as soon as the command has opened it for reading. If the command
    /// ends before that, so does the test.
    pub fn open_pipe(&self, name: &str, child: &mut Child) -> File {
        let path = self.0.join(name);
        let mut options = File::options();
        options.write(true);
        loop {
            // To open it in the plain way would wait for a reader that may never come. The first one
            // stays open meanwhile, or the reader might see an end.
            let first = options.clone().custom_flags(O_NONBLOCK).open(&path);
            if first.is_ok() {
                return options.open(&path).unwrap();
            }
            assert_eq!(child.try_wait().unwrap(), None, "the command ended early");
            thread::sleep(Duration::from_millis(5));
        }
    }

    /// Sends all of a volume through a pipe.
    pub fn feed(&self, name: &str, child: &mut Child, bytes: &[u8]) {
        let mut pipe = self.open_pipe(name, child);
        pipe.write_all(bytes).unwrap();
    }
}
