//! What makes a set of volumes something else than a whole archive.

use crate::image;
use crate::rng::Rng;

/// Takes out one volume or more; at least one stays.
pub fn leave_out(rng: &mut Rng, volumes: &mut Vec<Vec<u8>>) {
    let stay = rng.between(1, volumes.len() as u64 - 1) as usize;
    // Mostly few are missing.
    let stay = stay.max(rng.index(volumes.len()));
    while volumes.len() > stay {
        volumes.remove(rng.index(volumes.len()));
    }
}

/// Gives one volume another file system ID, mostly one bit apart.
pub fn foreign(rng: &mut Rng, volumes: &mut [Vec<u8>]) {
    let volume = any(rng, volumes);
    let id = &mut volume[image::FILE_SYSTEM];
    if rng.once_in(4) {
        id.iter_mut().for_each(|byte| *byte = !*byte);
    } else {
        id[rng.index(16)] ^= 1 << rng.below(8);
    }
    image::reseal(&mut volume[..80]);
}

/// Adds a volume whose number is there already: the same bytes once more, or
/// with another previous hash where one may stand.
pub fn double(rng: &mut Rng, volumes: &mut Vec<Vec<u8>>) {
    let mut copy = any(rng, volumes).clone();
    let first = copy[image::SEQUENCE] == [0; 8];
    if !first && rng.once_in(2) {
        copy[image::PREVIOUS][rng.index(32)] ^= 1;
        image::reseal(&mut copy[..80]);
    }
    volumes.push(copy);
}

/// Changes one bit of one volume, or takes away its last byte.
pub fn damage(rng: &mut Rng, volumes: &mut [Vec<u8>]) {
    let volume = any(rng, volumes);
    if rng.once_in(4) {
        volume.pop();
    } else {
        let place = rng.index(volume.len());
        volume[place] ^= 1 << rng.below(8);
    }
}

/// Puts one to three bytes that stand in no text into the texts of one block,
/// whose checksum is right again then. Where no volume has a text, one is
/// damaged.
pub fn bad_text(rng: &mut Rng, volumes: &mut [Vec<u8>]) {
    let mut blocks = Vec::new();
    for (place, volume) in volumes.iter().enumerate() {
        for block in image::blocks(volume) {
            let texts = image::texts(&volume[block.clone()]);
            if texts.iter().any(|text| !text.is_empty()) {
                blocks.push((place, block, texts));
            }
        }
    }
    if blocks.is_empty() {
        return damage(rng, volumes);
    }
    let has_several = |texts: &Vec<_>| texts.len() > 1;
    if rng.once_in(2) && blocks.iter().any(|(_, _, texts)| has_several(texts)) {
        blocks.retain(|(_, _, texts)| has_several(texts));
    }
    let (place, block, texts) = blocks.swap_remove(rng.index(blocks.len()));
    let image = &mut volumes[place][block];
    let bytes: Vec<usize> = texts.into_iter().flatten().collect();
    for _ in 0..rng.between(1, 3) {
        image[rng.pick(&bytes)] = 0xFF;
    }
    image::reseal(image);
}

fn any<'a>(rng: &mut Rng, volumes: &'a mut [Vec<u8>]) -> &'a mut Vec<u8> {
    let place = rng.index(volumes.len());
    &mut volumes[place]
}
