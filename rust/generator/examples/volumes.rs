//! Writes the volumes on which checksums are measured into a folder that is there.
//!
//! usage: volumes FOLDER

use std::fs;
use std::path::PathBuf;
use std::process::ExitCode;

use generator::bench::data_inputs;

/// The files, in the order of the inputs.
const NAMES: [&str; 3] = ["one_block.vol", "blocks_of_1000.vol", "blocks_of_100.vol"];

fn main() -> ExitCode {
    let mut words = std::env::args_os().skip(1);
    let (Some(folder), None) = (words.next(), words.next()) else {
        eprintln!("usage: volumes FOLDER");
        return ExitCode::FAILURE;
    };
    for (name, input) in NAMES.into_iter().zip(data_inputs()) {
        let path = PathBuf::from(&folder).join(name);
        if let Err(error) = fs::write(&path, input.volume) {
            eprintln!("volumes: {}: {error}", path.display());
            return ExitCode::FAILURE;
        }
    }
    ExitCode::SUCCESS
}
