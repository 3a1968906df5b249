//! Two clients, four nodes, any two pieces make the page, one node may lie, pieces of up to 8 bytes.

use jolbizna::{Measures, Title};

fn main() -> Result<(), u32> {
    let mut title = Title::fresh(Measures::new(2, 4, 2, 1, 8))?;
    let (sequence, client) = title.deposit(0, &[0x41])?;
    println!("DEPOSIT {client} {sequence}");
    if let Some(((sequence, writer), page)) = title.read(1)? {
        println!("READ 1 {sequence} {writer} {:02X}", page[0]);
    }
    Ok(())
}
