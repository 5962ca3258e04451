use command::failure::Failure;
use command::standard;
use std::ffi::OsString;
use std::io::{BufWriter, Write};
use std::process::ExitCode;

fn main() -> ExitCode {
    let given: Vec<OsString> = std::env::args_os().skip(1).collect();
    let mut out = BufWriter::new(std::io::stdout().lock());
    let done = match standard::output_closed() {
        true => Err(Failure::new("standard output: it is closed")),
        false => command::commands::main(&given, &mut out),
    };
    let flushed = out.flush().map_err(command::commands::cannot_write);
    // what could not be written is not tried again, nor told twice
    std::mem::forget(out);
    match done.and(flushed) {
        Ok(()) => ExitCode::SUCCESS,
        Err(failure) => {
            if !failure.message.is_empty() {
                standard::complain(&failure.message);
            }
            ExitCode::from(failure.status)
        }
    }
}
