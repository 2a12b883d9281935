//! The same as `numbers`, with a library that HELVIDRANE_FAULT makes wrong.

fn main() -> std::process::ExitCode {
    library::numbers::main()
}
