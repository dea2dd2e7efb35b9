//! How many bytes each layer of a tile takes, in its canonical form: weigh < tile

use std::io::Read;
use std::process::ExitCode;

fn weigh(bytes: &[u8]) -> Result<(), libmvt::Error> {
    let tile = libmvt::read(bytes)?;
    for layer in tile.layers().filter(|layer| layer.version() == 2) {
        let alone = libmvt::extract(bytes, &[layer.name()])?;
        println!("{:>10}  {}", alone.len(), layer.name());
    }
    Ok(())
}

fn main() -> ExitCode {
    let mut bytes = Vec::new();
    if let Err(why) = std::io::stdin().read_to_end(&mut bytes) {
        eprintln!("weigh: {why}");
        return ExitCode::from(3);
    }
    match weigh(&bytes) {
        Ok(()) => ExitCode::SUCCESS,
        Err(why) => {
            eprintln!("weigh: {why}");
            ExitCode::FAILURE
        }
    }
}
