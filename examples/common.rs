//! What the programs over a stored stream share.
use std::io::{self, StdoutLock, Write};
use std::process::ExitCode;

/// Runs a program on the stream of the file that its argument names. The status is 2 where that cannot be read, 3 where the lines cannot
/// be written.
pub fn run(name: &str, program: impl Fn(&[u8], &mut StdoutLock) -> io::Result<()>) -> ExitCode {
    let args: Vec<_> = std::env::args_os().collect();
    let [_, path] = &args[..] else {
        eprintln!("usage: {name} FILE");
        return ExitCode::from(2);
    };
    let stream = match std::fs::read(path) {
        Ok(stream) => stream,
        Err(error) => {
            eprintln!("{}: {error}", path.display());
            return ExitCode::from(2);
        }
    };
    let mut out = io::stdout().lock();
    if let Err(error) = program(&stream, &mut out).and_then(|()| out.flush()) {
        eprintln!("{name}: standard output cannot be written: {error}");
        return ExitCode::from(3);
    }
    ExitCode::SUCCESS
}
