#![forbid(unsafe_code)]

fn main() -> std::process::ExitCode {
    gukoremo_cli::main()
}
