//! How the lines of a sheet stand to each other: whether they are one tree, and how many levels it has.

use crate::refusal::{Number, LEVELS, LINE};

const MOST_LEVELS: usize = 32;

/// What a line says of the lines below it.
#[derive(Clone, Copy)]
pub struct Branch {
    /// How many subtrees follow, a dictionary's counted.
    pub below: u64,
    pub is_extension: bool,
}

#[derive(Clone, Copy)]
struct Subtree {
    levels: usize,
    is_extension: bool,
}

/// Refuses lines that are missing or left over (2), then more than 32 levels (3). From the last line to the first, each
/// line takes its subtrees off those of the lines after it, so that thousands of levels need no recursion.
pub fn check(branches: impl DoubleEndedIterator<Item = Branch>) -> Result<(), Number> {
    let mut subtrees: Vec<Subtree> = Vec::new();
    for branch in branches.rev() {
        if branch.below > subtrees.len() as u64 {
            return Err(LINE);
        }
        let rest = subtrees.len() - branch.below as usize;
        let below = subtrees[rest..].iter().map(|subtree| levels_below(branch, *subtree)).max();
        let levels = below.unwrap_or(0) + !branch.is_extension as usize;
        subtrees.truncate(rest);
        subtrees.push(Subtree { levels, is_extension: branch.is_extension });
    }
    match subtrees[..] {
        [Subtree { levels, .. }] if levels <= MOST_LEVELS => Ok(()),
        [_] => Err(LEVELS),
        _ => Err(LINE),
    }
}

/// An extension's inner line is on its extension's level, unless it is an extension too.
fn levels_below(branch: Branch, subtree: Subtree) -> usize {
    subtree.levels + (branch.is_extension && subtree.is_extension) as usize
}
