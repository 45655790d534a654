//! Writes the example plans that are made in Rust into the folder `examples/` of the repository, and beside each text
//! of that folder the listing of its plan file, by the account.

use plans::examples::{examples, files_with, folder};

fn main() -> std::io::Result<()> {
    for example in examples() {
        std::fs::write(folder().join(example.name), &example.bytes)?;
        println!("{}: {} bytes", example.name, example.bytes.len());
    }
    for text in files_with("txt") {
        let plan = std::fs::read(text.with_extension("plan"))?;
        let listing = account::listing::listing(&plan);
        std::fs::write(text.with_extension("listing"), &listing)?;
        println!("the listing of {}", text.display());
    }
    Ok(())
}
