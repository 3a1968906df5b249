//! Four samples of 24 bits, lowest byte first, are deposited by byte plane, read by another client and restored.

use jolbizna::{recordings, Measures, Title};

fn hex(bytes: &[u8]) -> String {
    bytes.iter().map(|byte| format!("{byte:02X}")).collect()
}

fn main() -> Result<(), u32> {
    let recording = [0x4A, 2, 0, 0x91, 3, 0, 0xC7, 3, 0, 0xE2, 4, 0];
    let (mut planes, mut restored) = ([0; 12], [0; 12]);
    recordings::rearrange(&recording, &mut planes)?;
    println!("REARRANGE {} {}", hex(&recording), hex(&planes));
    let mut title = Title::fresh(Measures::new(2, 4, 2, 1, 16))?;
    let (sequence, client) = title.deposit(0, &planes)?;
    println!("DEPOSIT {client} {sequence}");
    let ((sequence, writer), page) = title.read(1)?.expect("a page was deposited");
    println!("READ 1 {sequence} {writer} {}", hex(&page));
    recordings::restore(&page, &mut restored)?;
    println!("RESTORE {}", hex(&restored));
    assert_eq!(restored, recording);
    Ok(())
}
