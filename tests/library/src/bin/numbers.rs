//! numbers [SEED COUNT]: compares every number of every C function with the model's.

fn main() -> std::process::ExitCode {
    library::numbers::main()
}
