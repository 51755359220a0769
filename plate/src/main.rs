use std::process::ExitCode;

fn main() -> ExitCode {
    plate::run()
}
