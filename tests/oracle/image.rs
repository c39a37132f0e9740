// Images of memories that a mount must refuse or take: volumes that are built here, most of them with something wrong.

use crate::layout::{check, Blocks};
use crate::program::{run, Answers};
use crate::rng::Rng;
use crate::script;
use crate::tables::{Call, Tables};
use crate::{hold, nothing_more, Seen};
use std::fmt::Write;

// A tree that is to be written: a leaf's rows, or an index block's children under their separators.
#[derive(Clone)]
enum Tree {
    Leaf(Vec<(u32, i32)>),
    Index(u32, Vec<(u32, Tree)>),
}

struct Builder<'a> {
    rng: &'a mut Rng,
    blocks: Blocks,
    // Blocks that nothing was written to.
    free: Vec<u32>,
}

// The sizes of the parts of n, each 7 to 15; as many parts as there can be where they are to be small.
fn parts(rng: &mut Rng, n: usize, small: bool) -> Vec<usize> {
    let (fewest, most) = (n.div_ceil(15), n / 7);
    let count = if small {
        most
    } else {
        rng.range(fewest as u64, most as u64) as usize
    };
    let mut sizes = vec![7; count];
    let mut left = n - 7 * count;
    while left > 0 {
        let i = rng.below(count as u64) as usize;
        if sizes[i] < 15 {
            sizes[i] += 1;
            left -= 1;
        }
    }
    sizes
}

// A tree of some rows, with as many blocks as there can be where they are to be small.
fn make_tree(rng: &mut Rng, rows: Vec<(u32, i32)>, small: bool) -> (u32, Tree) {
    if rows.len() < 14 || (rows.len() < 16 && rng.once_in(2)) {
        return (1, Tree::Leaf(rows));
    }
    // Each part under the least speed that it may have.
    let mut level: Vec<(u32, Tree)> = Vec::new();
    let mut from = 0;
    let mut last = 0;
    for size in parts(rng, rows.len(), small) {
        let part = rows[from..from + size].to_vec();
        let low = if from == 0 {
            0
        } else {
            rng.range(last as u64 + 1, part[0].0 as u64) as u32
        };
        last = part[size - 1].0;
        from += size;
        level.push((low, Tree::Leaf(part)));
    }
    let mut height = 1;
    while level.len() > 15 || (level.len() >= 14 && rng.once_in(3)) {
        let mut above = Vec::new();
        let mut rest = level.into_iter();
        for size in parts(rng, rest.len(), small) {
            let part: Vec<(u32, Tree)> = rest.by_ref().take(size).collect();
            above.push((part[0].0, Tree::Index(height, part)));
        }
        level = above;
        height += 1;
    }
    (height + 1, Tree::Index(height, level))
}

impl Builder<'_> {
    // Writes a tree to free blocks: its root.
    fn write(&mut self, tree: &Tree) -> Option<u32> {
        let entries: Vec<(u32, u32)> = match tree {
            Tree::Leaf(rows) => rows
                .iter()
                .map(|(s, a)| (*s, 0x4000_0000 + (*a + 9_000) as u32))
                .collect(),
            Tree::Index(_, children) => {
                let mut entries = Vec::new();
                for (low, child) in children {
                    entries.push((*low, 0x5000_0000 + self.write(child)?));
                }
                entries
            }
        };
        let header = match tree {
            Tree::Leaf(_) => 0x1000_0000,
            Tree::Index(level, _) => 0x2000_0000 + level * 256,
        };
        if self.free.is_empty() {
            return None;
        }
        let block = self
            .free
            .swap_remove(self.rng.below(self.free.len() as u64) as usize);
        let words = &mut self.blocks[block as usize];
        words.fill(0);
        words[0] = header + entries.len() as u32;
        for (i, (speed, value)) in entries.iter().enumerate() {
            words[2 + 2 * i] = 0x3000_0000 + speed;
            words[3 + 2 * i] = *value;
        }
        Some(block)
    }

    // A copy of a tree with another angle in one of its rows: what is not on the way to it is shared.
    fn write_altered(&mut self, root: u32, level: u32) -> Option<u32> {
        if self.free.is_empty() {
            return None;
        }
        let mut words = self.blocks[root as usize].clone();
        let count = (words[0] & 0xff) as u64;
        if count > 0 {
            let at = 3 + 2 * self.rng.below(count) as usize;
            words[at] = if level == 0 {
                0x4000_0000 + (self.rng.angle() + 9_000) as u32
            } else {
                0x5000_0000 + self.write_altered(words[at] & 0xffff, level - 1)?
            };
        }
        if self.free.is_empty() {
            return None;
        }
        let block = self
            .free
            .swap_remove(self.rng.below(self.free.len() as u64) as usize);
        self.blocks[block as usize] = words;
        Some(block)
    }
}

// How many rows a tree has.
fn how_many(rng: &mut Rng, blocks: u64) -> usize {
    let most = match rng.below(4) {
        0 => 16,
        1 => 60,
        _ => 9 * blocks,
    };
    rng.below(most.min(9_000)) as usize
}

fn write_slot(words: &mut [u32], generation: u32, roots: &[u32]) {
    words.fill(0);
    words[0] = 0x6000_0000 + generation;
    words[1..25].copy_from_slice(roots);
}

// A volume: clones with trees of their own, the same trees, and trees that share blocks.
fn volume(rng: &mut Rng, count: u64, width: usize) -> Blocks {
    let mut blocks = vec![vec![0; width]; count as usize];
    if rng.once_in(3) {
        // What no volume uses may hold anything.
        for block in &mut blocks {
            block.fill_with(|| rng.next() as u32);
        }
    }
    let generation = rng.pick(&[1, 2, 7, 1_000_000, 268_435_454, 268_435_455]);
    let mut builder = Builder {
        blocks,
        free: (2..count as u32).collect(),
        rng,
    };
    let mut roots = vec![0u32; 24];
    // The first tree of a large volume may be as high as a tree gets.
    let mut tall = count >= 1_200 && builder.rng.once_in(2);
    for _ in 0..builder.rng.below(14) {
        let clone = builder.rng.below(24) as usize;
        let there: Vec<u32> = roots.iter().copied().filter(|root| *root != 0).collect();
        let root = match builder.rng.below(4) {
            0 if !there.is_empty() => Some(builder.rng.pick(&there)),
            1 if !there.is_empty() => {
                let root = builder.rng.pick(&there);
                let height = (root & 0x0fff_ffff) / 65_536;
                let altered = builder.write_altered(root & 0xffff, height - 1);
                altered.map(|block| 0x7000_0000 + height * 65_536 + block)
            }
            _ => {
                let mut rows = crate::tables::Map::new();
                let rows_drawn = if tall {
                    9_000
                } else {
                    how_many(builder.rng, count)
                };
                for _ in 0..rows_drawn {
                    rows.insert(builder.rng.below(10_000) as u32, builder.rng.angle());
                }
                let small = tall || builder.rng.once_in(2);
                let (height, tree) = make_tree(builder.rng, rows.into_iter().collect(), small);
                tall = false;
                let block = builder.write(&tree);
                block.map(|block| 0x7000_0000 + height * 65_536 + block)
            }
        };
        if let Some(root) = root {
            roots[clone] = root;
        }
    }
    let mut before = roots.clone();
    if builder.rng.once_in(2) {
        before[builder.rng.below(24) as usize] = 0;
    }
    let mut blocks = builder.blocks;
    write_slot(&mut blocks[(generation % 2) as usize], generation, &roots);
    write_slot(
        &mut blocks[(1 - generation % 2) as usize],
        generation - 1,
        &before,
    );
    blocks
}

fn kind(word: u32) -> u32 {
    word >> 28
}

// A block of a kind, if there is one that looks like it.
fn some_block(rng: &mut Rng, blocks: &Blocks, kinds: &[u32]) -> Option<usize> {
    let like = |b: &usize| kinds.contains(&kind(blocks[*b][0])) && blocks[*b][1] == 0;
    let found: Vec<usize> = (2..blocks.len()).filter(like).collect();
    if found.is_empty() {
        None
    } else {
        Some(rng.pick(&found))
    }
}

// Something goes wrong, or at least differs.
fn spoil(rng: &mut Rng, blocks: &mut Blocks) -> Option<()> {
    let count = blocks.len() as u64;
    let width = blocks[0].len() as u64;
    match rng.below(22) {
        // A word.
        0 => {
            let (b, i) = (rng.below(count) as usize, rng.below(width) as usize);
            blocks[b][i] = rng.next() as u32;
        }
        // A bit.
        1 => {
            let b = some_block(rng, blocks, &[1, 2]).unwrap_or(0);
            blocks[b][rng.below(width) as usize] ^= 1 << rng.below(32);
        }
        // Two blocks.
        2 => blocks.swap(rng.below(count) as usize, rng.below(count) as usize),
        // A child.
        3 | 4 => {
            let b = some_block(rng, blocks, &[2])?;
            let n = (blocks[b][0] & 0xff).clamp(1, 15) as u64;
            let any = rng.below(count);
            let child = rng.pick(&[
                0,
                1,
                2,
                count,
                count + 1,
                4_096,
                65_535,
                65_536,
                0x0fff_ffff,
                any,
            ]);
            blocks[b][3 + 2 * rng.below(n) as usize] = 0x5000_0000 + child as u32;
        }
        // A child that another block has, of whatever level.
        5 | 6 => {
            let b = some_block(rng, blocks, &[2])?;
            let other = some_block(rng, blocks, &[1, 2])?;
            let n = (blocks[b][0] & 0xff).clamp(1, 15) as u64;
            blocks[b][3 + 2 * rng.below(n) as usize] = 0x5000_0000 + other as u32;
        }
        // A generation.
        7 => {
            let b = rng.below(2) as usize;
            blocks[b][0] = (blocks[b][0] & 0xf000_0000)
                | (rng.pick(&[0, 1, 2, 3, 5, 0x0fff_fffe, 0x0fff_ffff]) & 0x0fff_ffff);
        }
        8 => {
            let b = rng.below(2) as usize;
            let by = rng.pick(&[1, 2, 3, 4]);
            blocks[b][0] = if rng.once_in(2) {
                blocks[b][0].wrapping_add(by)
            } else {
                blocks[b][0].wrapping_sub(by)
            };
        }
        // A height.
        9 => {
            let (b, i) = (rng.below(2) as usize, 1 + rng.below(24) as usize);
            let height = rng.pick(&[0, 1, 2, 3, 4, 5, 6, 7, 255, 4_095]);
            blocks[b][i] = 0x7000_0000 + height * 65_536 + (blocks[b][i] & 0xffff);
        }
        // A root.
        10 => {
            let (b, i) = (rng.below(2) as usize, 1 + rng.below(24) as usize);
            let any = rng.below(count);
            let root = rng.pick(&[0, 1, 2, count, 65_535, any]) as u32;
            blocks[b][i] = (blocks[b][i] & 0xffff_0000) | root;
        }
        // A speed or separator: one less or more, or another.
        11 | 12 => {
            let b = some_block(rng, blocks, &[1, 2])?;
            let n = (blocks[b][0] & 0xff).clamp(1, 15) as u64;
            let i = 2 + 2 * rng.below(n) as usize;
            blocks[b][i] = match rng.below(4) {
                0 => blocks[b][i].wrapping_add(1),
                1 => blocks[b][i].wrapping_sub(1),
                2 => 0x3000_0000 + rng.below(10_002) as u32,
                _ => 0x3000_2710,
            };
        }
        // Fewer entries: of a block the last ones go.
        13 | 14 => {
            let b = some_block(rng, blocks, &[1, 2])?;
            let n = (blocks[b][0] & 0xff).min(15);
            let k = rng.pick(&[0, 1, 2, 6, 7, 8]).min(n);
            blocks[b][0] = (blocks[b][0] & !0xff) | k;
            blocks[b][2 + 2 * k as usize..].fill(0);
        }
        // The count alone.
        15 => {
            let b = some_block(rng, blocks, &[1, 2])?;
            let k = rng.pick(&[0, 1, 6, 7, 15, 16, 17, 255]);
            blocks[b][0] = (blocks[b][0] & !0xff) | k;
        }
        // Two entries change places, or become one.
        16 => {
            let b = some_block(rng, blocks, &[1, 2])?;
            let n = (blocks[b][0] & 0xff).clamp(1, 15) as u64;
            let (i, j) = (2 + 2 * rng.below(n) as usize, 2 + 2 * rng.below(n) as usize);
            if rng.once_in(2) {
                blocks[b].swap(i, j);
                blocks[b].swap(i + 1, j + 1);
            } else {
                blocks[b][i] = blocks[b][j];
            }
        }
        // An angle.
        17 => {
            let b = some_block(rng, blocks, &[1])?;
            let n = (blocks[b][0] & 0xff).clamp(1, 15) as u64;
            let angle = rng.pick(&[0, 1, 17_999, 18_000, 18_001, 0x0fff_ffff]);
            blocks[b][3 + 2 * rng.below(n) as usize] = 0x4000_0000 + angle;
        }
        // A level.
        18 => {
            let b = some_block(rng, blocks, &[1, 2])?;
            blocks[b][0] = rng.pick(&[
                0x1000_0000,
                0x2000_0000,
                0x2000_0100,
                0x2000_0200,
                0x2000_0400,
                0x2000_0500,
            ]) + (blocks[b][0] & 0xff);
        }
        // A kind.
        19 => {
            let b = some_block(rng, blocks, &[1, 2])?;
            let i = rng.below(width) as usize;
            blocks[b][i] = (blocks[b][i] & 0x0fff_ffff) | (rng.below(16) as u32) << 28;
        }
        // A word behind the entries or the roots, or the second of the block.
        20 => {
            let b = if rng.once_in(3) {
                rng.below(2) as usize
            } else {
                some_block(rng, blocks, &[1, 2])?
            };
            let i = if rng.once_in(3) {
                1
            } else {
                rng.range(25, width - 1) as usize
            };
            blocks[b][i] = rng.pick(&[0, 1, 0x3000_0000, 0x8000_0000]);
        }
        // A slot in the other's block, or twice.
        _ => {
            if rng.once_in(2) {
                blocks.swap(0, 1);
            } else {
                blocks[0] = blocks[1].clone();
            }
        }
    }
    Some(())
}

fn image(rng: &mut Rng, count: u64, width: usize) -> Blocks {
    if rng.once_in(30) {
        let mut blocks = vec![vec![0; width]; count as usize];
        for block in &mut blocks {
            block.fill_with(|| rng.next() as u32);
        }
        return blocks;
    }
    let mut blocks = volume(rng, count, width);
    for _ in 0..rng.below(4) {
        spoil(rng, &mut blocks);
    }
    blocks
}

fn raw_lines(text: &mut String, blocks: &Blocks) {
    for (b, words) in blocks.iter().enumerate() {
        write!(text, "raw {b}").unwrap();
        for word in words {
            if word % 3 == 0 {
                write!(text, " {word}").unwrap();
            } else {
                write!(text, " {word:#x}").unwrap();
            }
        }
        text.push('\n');
    }
}

// What is asked of an image that mounts.
fn questions(rng: &mut Rng, tables: Tables) -> Vec<Call> {
    let mut calls: Vec<Call> = (0..24).map(|n| Call::List(n, 0, 10_000)).collect();
    let length = rng.range(5, 120);
    calls.append(&mut script::calls(rng, tables, length));
    calls
}

// Some images of one size, one after the other over the same memory.
pub fn try_images(binary: &str, rng: &mut Rng, seen: &mut Seen) -> Result<(), String> {
    let count = if rng.once_in(8) {
        rng.range(64, 2_400)
    } else {
        rng.range(16, 64)
    };
    let width = rng.range(32, 40) as usize;
    let images: Vec<Blocks> = (0..if count > 64 { 2 } else { 12 })
        .map(|_| image(rng, count, width))
        .collect();
    let mut text = format!("memory {count} {width}\n");
    let mut plans = Vec::new();
    for blocks in &images {
        text.push_str("cut old\n");
        raw_lines(&mut text, blocks);
        text.push_str("raw 4294967295 0\nraw 0\nmount\n");
        let due = check(blocks);
        let calls = match &due {
            Ok(found) => questions(rng, Tables::mounted(&found.maps, found.generation)),
            Err(_) => vec![],
        };
        for call in &calls {
            writeln!(text, "{call}").unwrap();
        }
        plans.push((due, calls));
    }
    let output = run(binary, text)?;
    let mut answers = Answers::new(&output);
    for (i, (due, calls)) in plans.iter().enumerate() {
        one_image(due, calls, count, &mut answers, seen).map_err(|e| format!("image {i}: {e}"))?;
    }
    nothing_more(&mut answers)
}

fn one_image(
    due: &Result<crate::layout::Found, String>,
    calls: &[Call],
    count: u64,
    answers: &mut Answers<'_>,
    seen: &mut Seen,
) -> Result<(), String> {
    let lines = 1 + count as usize;
    let made = ["ok"]
        .iter()
        .cycle()
        .take(lines)
        .chain(&["bad line", "bad line"]);
    for (i, due) in made.enumerate() {
        let got = answers.next().unwrap_or_default();
        if got != *due {
            return Err(format!("line {i}: {got}\ndue: {due}"));
        }
    }
    let got = answers.next().unwrap_or_default();
    seen.images += 1;
    match due {
        Err(refusal) => {
            if got != *refusal {
                return Err(format!("mount: {got}\ndue: {refusal}"));
            }
            seen.refusal(&got);
            Ok(())
        }
        Ok(found) => {
            if got != "ok" {
                return Err(format!("mount: {got}\ndue: ok"));
            }
            seen.mounted += 1;
            for height in &found.heights {
                seen.heights[*height as usize] += 1;
            }
            let mut tables = Tables::mounted(&found.maps, found.generation).on(count, None);
            hold(&mut tables, calls, answers, seen)?;
            Ok(())
        }
    }
}
