// What a mount owes to the blocks of a memory, by docs/formats.md, docs/trees.md and docs/mounting.md alone.

use crate::tables::{Map, Maps};

pub type Blocks = Vec<Vec<u32>>;

// The volume that is there.
pub struct Found {
    pub generation: u32,
    pub maps: Maps,
    // How high its trees are.
    pub heights: Vec<u32>,
}

// The refusal that is due, as it is printed.
pub fn check(blocks: &Blocks) -> Result<Found, String> {
    let no_volume = || "refused 13".to_string();
    let even = slot(blocks, 0).ok_or_else(no_volume)?;
    let odd = slot(blocks, 1).ok_or_else(no_volume)?;
    let (generation, roots) = if even.0 + 1 == odd.0 {
        odd
    } else if odd.0 + 1 == even.0 {
        even
    } else {
        return Err(no_volume());
    };
    let mut maps: Maps = vec![None; 24];
    let mut heights = Vec::new();
    for clone in 0..24 {
        if let Some((height, root)) = roots[clone] {
            let mut map = Map::new();
            let due = Due {
                level: height - 1,
                low: 0,
                high: 10_000,
                root: true,
            };
            walk(blocks, root, due, &mut map)
                .map_err(|block| format!("refused 15 block {block} clone {clone}"))?;
            maps[clone] = Some(map);
            heights.push(height);
        }
    }
    Ok(Found {
        generation,
        maps,
        heights,
    })
}

fn kind(word: u32) -> u32 {
    word >> 28
}

fn payload(word: u32) -> u32 {
    word & 0x0fff_ffff
}

// The generation and the roots (height and block) of a slot that may stand in a block.
fn slot(blocks: &Blocks, block: usize) -> Option<(u32, Vec<Option<(u32, u32)>>)> {
    let words = &blocks[block];
    if kind(words[0]) != 6 || payload(words[0]) % 2 != block as u32 {
        return None;
    }
    if words[25..].iter().any(|word| *word != 0) {
        return None;
    }
    let mut roots = Vec::new();
    for word in &words[1..25] {
        if *word == 0 {
            roots.push(None);
            continue;
        }
        let (height, root) = (payload(*word) / 65_536, payload(*word) % 65_536);
        if kind(*word) != 7
            || !(1..=5).contains(&height)
            || !(2..blocks.len() as u32).contains(&root)
        {
            return None;
        }
        roots.push(Some((height, root)));
    }
    Some((payload(words[0]), roots))
}

// What a block is due for.
struct Due {
    level: u32,
    low: u32,
    high: u32,
    root: bool,
}

// The rows below a block, or the first block that is off the layout.
fn walk(blocks: &Blocks, block: u32, due: Due, rows: &mut Map) -> Result<(), u32> {
    let entries = entries(&blocks[block as usize], due.level).ok_or(block)?;
    let speeds: Vec<u32> = entries.iter().map(|entry| entry.0).collect();
    let ascend = speeds.windows(2).all(|two| two[0] < two[1]);
    let below = speeds.iter().all(|speed| *speed < due.high);
    let from = match (due.level, speeds.first()) {
        (0, None) => true,
        (0, Some(first)) => *first >= due.low,
        (_, None) => false,
        (_, Some(first)) => *first == due.low,
    };
    let fewest = match (due.root, due.level) {
        (false, _) => 7,
        (true, 0) => 0,
        (true, _) => 2,
    };
    let ranged = entries.iter().all(|entry| match due.level {
        0 => entry.1 <= 18_000,
        _ => (2..blocks.len() as u32).contains(&entry.1),
    });
    if !(ascend && below && from && entries.len() >= fewest && ranged) {
        return Err(block);
    }
    for (i, (speed, value)) in entries.iter().enumerate() {
        if due.level == 0 {
            rows.insert(*speed, *value as i32 - 9_000);
            continue;
        }
        let high = speeds.get(i + 1).copied().unwrap_or(due.high);
        let child = Due {
            level: due.level - 1,
            low: *speed,
            high,
            root: false,
        };
        walk(blocks, *value, child, rows)?;
    }
    Ok(())
}

// The entries of a tree block of a level, if its words are the encoding of one.
fn entries(words: &[u32], level: u32) -> Option<Vec<(u32, u32)>> {
    let header = words[0];
    let count = match level {
        0 if kind(header) == 1 => payload(header),
        _ if level > 0 && kind(header) == 2 && payload(header) / 256 == level => {
            payload(header) % 256
        }
        _ => return None,
    };
    if count > 15 || words[1] != 0 {
        return None;
    }
    let end = 2 + 2 * count as usize;
    if words[end..].iter().any(|word| *word != 0) {
        return None;
    }
    let mut entries = Vec::new();
    for two in words[2..end].chunks(2) {
        if kind(two[0]) != 3 || kind(two[1]) != if level == 0 { 4 } else { 5 } {
            return None;
        }
        entries.push((payload(two[0]), payload(two[1])));
    }
    Some(entries)
}
