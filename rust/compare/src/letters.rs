//! The letters of a run's nodes: equal nodes get equal letters, and no others do. A step's is its label; a group's is found in an
//! open hash table over the bytes of the groups met before.

use runfold::MAX_NODES;

/// Twice as many places as there can be groups, a power of two.
const PLACES: usize = 2 * MAX_NODES;

pub struct Letters {
    /// The letter of the group at a place, less 255; 0 where there is none.
    places: Vec<u32>,
    /// Where the group of each letter from 256 on begins and ends.
    groups: Vec<(usize, usize)>,
}

impl Default for Letters {
    fn default() -> Letters {
        Letters { places: vec![0; PLACES], groups: Vec::with_capacity(MAX_NODES) }
    }
}

/// The bytes as words of eight, each multiplied into what was before.
fn hash(bytes: &[u8]) -> u64 {
    let mix = |hash: u64, word: u64| (hash.rotate_left(5) ^ word).wrapping_mul(0x9E37_79B9_7F4A_7C15);
    let words = bytes.chunks_exact(8);
    let rest = words.remainder().iter().fold(bytes.len() as u64, |word, &byte| word << 8 | byte as u64);
    words.map(|word| u64::from_le_bytes(word.try_into().expect("eight bytes"))).fold(mix(0, rest), mix)
}

impl Letters {
    /// Forgets all groups, before another run.
    pub fn clear(&mut self) {
        if !self.groups.is_empty() {
            self.places.fill(0);
            self.groups.clear();
        }
    }

    /// The letter of the node with these bytes of the run.
    pub fn letter(&mut self, run: &[u8], begin: usize, end: usize) -> u32 {
        let node = &run[begin..end];
        if node[0] == 0x10 {
            return node[1] as u32;
        }
        // The high bits are the well mixed ones.
        let mut place = (hash(node) >> 32) as usize % PLACES;
        loop {
            match self.places[place] {
                0 => {
                    self.groups.push((begin, end));
                    self.places[place] = self.groups.len() as u32;
                    return 255 + self.groups.len() as u32;
                }
                known => {
                    let (begin, end) = self.groups[known as usize - 1];
                    if &run[begin..end] == node {
                        return 255 + known;
                    }
                }
            }
            place = (place + 1) % PLACES;
        }
    }
}

#[cfg(test)]
mod tests {
    use super::Letters;

    #[test]
    fn equal_nodes_alone_have_equal_letters() {
        // Step 05, group 05 with a step 01, with a step 02, and with a step 01 again, all of them one behind the other.
        let run = [0x10, 5, 0x11, 5, 0x10, 1, 0x12, 0x11, 5, 0x10, 2, 0x12, 0x11, 5, 0x10, 1, 0x12];
        let mut letters = Letters::default();
        let mut all = || [(0, 2), (2, 7), (7, 12), (12, 17)].map(|(begin, end)| letters.letter(&run, begin, end));
        assert_eq!(all(), [5, 256, 257, 256]);
        assert_eq!(all(), [5, 256, 257, 256]);
        letters.clear();
        assert_eq!(letters.letter(&run, 7, 12), 256);
    }
}
