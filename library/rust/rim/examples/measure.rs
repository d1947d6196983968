//! Prints the report of a manifest, whose files are read from the folder in which this is started, as `rim measure` reads them:
//!
//!     cargo run --offline --example measure -- MANIFEST

use std::error::Error;

fn main() -> Result<(), Box<dyn Error>> {
    let path = std::env::args().nth(1).ok_or("usage: measure MANIFEST")?;
    let manifest = std::fs::read(path)?;
    let paths = rim::manifest_paths(&manifest)?;
    let contents = paths.iter().map(std::fs::read).collect::<Result<Vec<_>, _>>()?;
    let files: Vec<(&str, &[u8])> = paths.iter().zip(&contents).map(|(path, bytes)| (path.as_str(), bytes.as_slice())).collect();
    let report = rim::measure(&manifest, &files)?;
    for launch in &report.launches {
        match launch.rim {
            Ok(rim) => println!("{} {}", launch.name, rim),
            Err(why) => println!("{} refused {}", launch.name, why.word()),
        }
    }
    println!("pages {}", report.pages);
    Ok(())
}
