//! A whole host: it types a sheet as ./typesheet does. cargo run --example first ../../examples/1-add.sheet
use swartabelk::Table;

fn main() -> Result<(), Box<dyn std::error::Error>> {
    let sheet = std::fs::read(std::env::args().nth(1).ok_or("which sheet?")?)?;
    let mut table = Table::new();
    match table.sheet(&sheet)? {
        Some(value) => println!("type {} {}", value.ty().number(), table.spell(value.ty())),
        None => println!("none"),
    }
    println!("entries {}", table.entries());
    Ok(())
}
