//! Writes the samples into examples/.

fn main() -> std::io::Result<()> {
    for sample in samples::all() {
        let folder = samples::folder().join(sample.name);
        std::fs::create_dir_all(&folder)?;
        for (name, bytes) in sample.files() {
            std::fs::write(folder.join(name), bytes)?;
        }
    }
    Ok(())
}
