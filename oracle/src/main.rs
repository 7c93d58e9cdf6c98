//! The program: a sheet in, what the Rust answers out. `oracle --help` lists the commands.

fn main() {
    std::process::exit(oracle::cli::main());
}
