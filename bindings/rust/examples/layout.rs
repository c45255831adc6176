//! Lays a description out: `cargo run --example layout FILE.kcb`.

use std::process::ExitCode;

fn main() -> ExitCode {
    let path = match std::env::args().nth(1) {
        Some(path) => path,
        None => {
            eprintln!("usage: layout FILE.kcb");
            return ExitCode::FAILURE;
        }
    };
    let description = match std::fs::read(&path) {
        Ok(bytes) => bytes,
        Err(error) => {
            eprintln!("{path}: {error}");
            return ExitCode::FAILURE;
        }
    };
    match callbridge::lay_out(&description) {
        Ok((layout, placements)) => {
            println!("{} bytes of values, {} bytes of stack", layout.values, layout.area);
            for (index, one) in placements.iter().enumerate() {
                println!("argument {index}: {} bytes in {}", one.size, one.place);
            }
            ExitCode::SUCCESS
        }
        Err(refusal) => {
            eprintln!("{path}: {refusal}");
            ExitCode::FAILURE
        }
    }
}
