use lanolin::{Geometry, Gstate, Pair, Tag, MASK_TYPE, TYPE_USERATTR};

fn main() -> Result<(), Box<dyn std::error::Error>> {
    let image = std::fs::read("samples/q212.pair")?; // the deadline of its slot 0
    let (b0, b1) = image.split_at(128);
    let geometry = Geometry { block_size: 128, prog_size: 16 };
    let pair = Pair { geometry, images: [b0, b1], numbers: [0, 1] };
    let record = pair.fetch(0, 0)?.record;
    let key = Tag::new(TYPE_USERATTR + 0x74, 0, 0);
    let mut seconds = [0; 4];
    let found = pair.get_slice(record, Gstate::default(), MASK_TYPE, key, 0, &mut seconds)?;
    if found.size() != 4 { return Err(format!("deadline of {} bytes", found.size()).into()); }
    println!("{}", u32::from_le_bytes(seconds));
    Ok(())
}
