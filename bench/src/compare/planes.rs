//! A recording by byte plane, and the way back, as document 02 (l) says: all first bytes of the samples, then all second, and so on.

use jolbizna::Answer;

pub fn planes(width: usize, data: &[u8], out: &mut [u8]) -> Answer {
    proper(width, data, out)?;
    let samples: Vec<&[u8]> = data.chunks(width).collect();
    let bytes = (0..width).flat_map(|p| samples.iter().map(move |sample| sample[p]));
    put(bytes, out);
    Ok(0)
}

pub fn samples(width: usize, data: &[u8], out: &mut [u8]) -> Answer {
    proper(width, data, out)?;
    let count = data.len() / width;
    // Of no samples there is no plane, and no chunk may have 0 bytes.
    let planes: Vec<&[u8]> = data.chunks(count.max(1)).collect();
    let bytes = (0..count).flat_map(|s| planes.iter().map(move |plane| plane[s]));
    put(bytes, out);
    Ok(0)
}

fn proper(width: usize, data: &[u8], out: &[u8]) -> Result<(), u32> {
    if out.len() < data.len() {
        Err(2)
    } else if !(1..=8).contains(&width) || !data.len().is_multiple_of(width) {
        Err(15)
    } else {
        Ok(())
    }
}

fn put(bytes: impl Iterator<Item = u8>, out: &mut [u8]) {
    for (place, byte) in out.iter_mut().zip(bytes) {
        *place = byte;
    }
}
