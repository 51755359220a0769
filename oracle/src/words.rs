//! Masks in words, as document 02's C-18 has them, written from that request alone: "voxel i in bit i%64 of word i/64, unused bits zero".
//!
//! Records hold a mask as a list of entries, of any length. At the border a list of L entries is lent as the words that L voxels need, a
//! bit set exactly where its entry is 1; read back, the words are L entries of 0 and 1.

/// The words that so many voxels need.
pub fn needed(voxels: usize) -> usize {
    (voxels + 63) / 64
}

/// The border: the words that a list of entries is lent as.
pub fn lent(entries: &[u8]) -> Vec<u64> {
    entries.chunks(64).map(|part| part.iter().rev().fold(0, |word, entry| 2 * word + (*entry == 1) as u64)).collect()
}

/// The border: so many entries read back from words.
pub fn read_back(words: &[u64], entries: usize) -> Vec<u32> {
    words.iter().flat_map(|word| (0..64).map(move |bit| (*word / (1 << bit) % 2) as u32)).take(entries).collect()
}

/// Whether voxel i is in a mask.
pub fn voxel(words: &[u64], i: usize) -> bool {
    words[i / 64] >> (i % 64) & 1 == 1
}

/// A mask's words.
pub fn of(voxels: &[bool]) -> Vec<u64> {
    let mut words = vec![0; needed(voxels.len())];
    for i in (0..voxels.len()).filter(|i| voxels[*i]) {
        words[i / 64] |= 1 << (i % 64);
    }
    words
}

/// How many voxels are in a mask.
pub fn counted(words: &[u64]) -> u32 {
    words.iter().map(|word| word.count_ones()).sum()
}

/// How many of the voxels below `next` are in a mask.
pub fn counted_below(words: &[u64], next: usize) -> u64 {
    (0..next).filter(|i| voxel(words, *i)).count() as u64
}

/// Whether a bit is set that stands for none of so many voxels, in as many words as they need.
pub fn unused_set(words: &[u64], voxels: usize) -> bool {
    voxels % 64 != 0 && words[voxels / 64] >> (voxels % 64) != 0
}
