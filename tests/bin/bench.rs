//! `bench` times the C exports beside the model; `bench --store FILE` writes a store of 2,000,000
//! entries.

#[cfg(archive)]
fn main() -> std::io::Result<()> {
    let arguments: Vec<String> = std::env::args().skip(1).collect();
    match &arguments[..] {
        [flag, file] if flag == "--store" => vihtumora_tests::bench::write(file),
        _ => {
            vihtumora_tests::bench::print();
            Ok(())
        }
    }
}

#[cfg(not(archive))]
fn main() -> std::process::ExitCode {
    eprintln!("bench: built without the archive of the C exports, so there is nothing to time");
    std::process::ExitCode::FAILURE
}
