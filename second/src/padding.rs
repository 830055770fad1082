//! Padding after RFC 5652, section 6.3, in blocks of 16 cells: the rule, and
//! blocks for a comparison with the answers that are due.

use std::io::{self, Write};

const CELLS: usize = 16;
const NOT_PADDED: usize = 255;

type Block = [u32; CELLS];

/// How many cells are left: tries each of the sixteen strings that the RFC
/// lists, 01, 02 02, and so on.
fn unpadded(block: &Block) -> usize {
    (1..=CELLS)
        .find(|&n| block.ends_with(&vec![n as u32; n]))
        .map_or(NOT_PADDED, |n| CELLS - n)
}

/// A block that ends in n cells of n, behind cells that are no such number.
fn padded(n: usize) -> Block {
    let mut block = [0; CELLS];
    for (i, cell) in block.iter_mut().enumerate() {
        *cell = if i < CELLS - n { 0xA0 + i as u32 } else { n as u32 };
    }
    block
}

/// What a cell is damaged to: each of its bits turned, the numbers around
/// those that padding can have, and some that are equal to one of them in
/// their low or high bytes only.
fn damages(cell: u32) -> Vec<u32> {
    let mut values: Vec<u32> = (0..32).map(|bit| cell ^ 1 << bit).collect();
    values.extend(0..=CELLS as u32 + 1);
    values.extend([u32::MAX, u32::MAX - 15, 1 << 31, cell << 8 | cell, cell.swap_bytes()]);
    values.retain(|&value| value != cell);
    values.sort_unstable();
    values.dedup();
    values
}

fn write(block: &Block, output: &mut impl Write) -> io::Result<()> {
    for cell in block {
        write!(output, "{cell:08X} ")?;
    }
    writeln!(output, "{}", unpadded(block))
}

/// Blocks of each length of content, 0 to 16, as they are and with each cell
/// damaged; a line has the cells and the answer that is due.
pub fn blocks(mut output: impl Write) -> io::Result<()> {
    for n in 0..=CELLS {
        let whole = padded(n);
        write(&whole, &mut output)?;
        for i in 0..CELLS {
            for value in damages(whole[i]) {
                let mut block = whole;
                block[i] = value;
                write(&block, &mut output)?;
            }
        }
    }
    for last in [0, CELLS as u32 + 1, u32::MAX] {
        write(&[last; CELLS], &mut output)?;
    }
    output.flush()
}
