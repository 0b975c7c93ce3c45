//! usage: look FILE..
//! Prints what the proved tool and the independent checker tell differently of each file: status 1 where they do of one.

use compare::beside::Buffer;
use std::fs;
use std::io;
use std::process::ExitCode;

fn main() -> io::Result<ExitCode> {
    let mut code = ExitCode::SUCCESS;
    let mut buffer = Buffer::default();
    for path in std::env::args_os().skip(1) {
        let path = path.to_string_lossy().into_owned();
        match buffer.compare_replayed(&fs::read(&path)?) {
            Ok(_) => println!("{path}: no difference"),
            Err(difference) => {
                println!("{path}: {difference}");
                code = ExitCode::FAILURE;
            }
        }
    }
    Ok(code)
}
