use rasuvelk::{Growth, Image, Validation};

fn main() -> Result<(), Box<dyn std::error::Error>> {
    let mut image = Image::open(std::fs::read("../examples/sample.xls")?, Validation::Strict)?;
    for start in image.chain_starts() {
        println!("chain from sector {start}: {} bytes", image.chain(start)?.len());
    }
    image.set_growth(Growth::AsNeeded);
    image.write(0, 4096, b"one more")?;
    std::fs::write("target/edited.xls", image.bytes())?;
    Ok(())
}
