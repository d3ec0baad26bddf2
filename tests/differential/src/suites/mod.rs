//! The suites. Each runs in rounds; a round depends on its number alone.

mod blank;
mod broken;
mod fixed;
mod full;
mod kept;
mod lister;
mod lists;
mod marks;
mod names;
mod order;
mod orders;
mod pieces;
mod runs;
mod salvage;
mod salvage_tree;
mod scripts;
mod sound;
mod store;
mod tables;
mod trees;

use crate::rng::Rng;
use crate::tester::Tester;
pub use salvage_tree::kept;

pub struct Suite {
    pub name: &'static str,
    /// How many rounds there are for the number given by `--rounds`.
    pub rounds: fn(u64) -> u64,
    pub run: fn(&mut Rng, u64, &mut Tester),
}

/// The suites that need a program.
pub const LISTER: &str = "lister";
pub const SCRIPTS: &str = "scripts";

pub const SUITES: &[Suite] = &[
    Suite { name: "numbers", rounds: |_| 1, run: fixed::numbers },
    Suite { name: "edges", rounds: |_| 1, run: fixed::edges },
    Suite { name: "format", rounds: |n| 5 * n, run: sound::format },
    Suite { name: "sound", rounds: |n| 4 * n, run: sound::calls },
    Suite { name: "names", rounds: |n| names::ROUNDS * n.div_ceil(500), run: names::run },
    Suite { name: "levels", rounds: |n| 16 * n.div_ceil(500), run: trees::levels },
    Suite { name: "faults", rounds: |n| 2 * n, run: trees::faults },
    Suite { name: "damage", rounds: |n| n.div_ceil(10), run: broken::clauses },
    Suite { name: "largest", rounds: |n| 2 * n.div_ceil(100), run: broken::largest },
    Suite { name: "double", rounds: |n| 2 * n, run: broken::two_clauses },
    Suite { name: "noise", rounds: |n| 5 * n, run: broken::noise },
    Suite { name: "journals", rounds: |n| n.div_ceil(4), run: broken::journals },
    Suite { name: "tables", rounds: |n| n, run: tables::run },
    Suite { name: "tables_largest", rounds: |_| 1, run: tables::largest },
    Suite { name: "salvage", rounds: |n| 20 * n, run: salvage::run },
    Suite { name: "salvage_clauses", rounds: |n| n.div_ceil(100), run: salvage::clauses },
    Suite { name: "salvage_codes", rounds: |n| n.div_ceil(10), run: salvage::codes },
    Suite { name: "salvage_largest", rounds: |_| 1, run: salvage::largest },
    Suite { name: "salvage_tree", rounds: |n| 16 * n, run: salvage_tree::run },
    Suite { name: "salvage_tree_clauses", rounds: |n| n.div_ceil(50), run: salvage_tree::clauses },
    Suite { name: "salvage_tree_lengths", rounds: |_| 1, run: salvage_tree::lengths },
    Suite { name: "salvage_tree_largest", rounds: |_| 1, run: salvage_tree::largest },
    Suite { name: "salvage_tree_flat", rounds: |n| 2 * n, run: salvage_tree::flat },
    Suite { name: "survival", rounds: |_| 1, run: salvage_tree::survival },
    Suite { name: "lists", rounds: |n| n.div_ceil(5), run: lists::run },
    Suite { name: "list_forms", rounds: |_| 1, run: lists::forms },
    Suite { name: "pieces", rounds: |n| n.div_ceil(2), run: pieces::run },
    Suite { name: "pieces_long", rounds: |n| n.div_ceil(250), run: pieces::long },
    Suite { name: "marks", rounds: |n| n, run: marks::run },
    Suite { name: "marks_long", rounds: |n| n.div_ceil(100), run: marks::long },
    Suite { name: "store", rounds: |n| 2 * n, run: store::run },
    Suite { name: "store_puts", rounds: |n| 40 * n.div_ceil(500), run: store::puts },
    Suite { name: "store_lengths", rounds: |_| 1, run: store::lengths },
    Suite { name: "store_forms", rounds: |_| 1, run: store::forms },
    Suite { name: "store_order", rounds: |n| n.div_ceil(50), run: store::order },
    Suite { name: "store_apart", rounds: |n| n.div_ceil(5), run: store::apart },
    Suite { name: "store_long", rounds: |n| n.div_ceil(250), run: store::long },
    Suite { name: "order", rounds: |n| n.div_ceil(25), run: order::all },
    Suite { name: "orders", rounds: |n| n, run: orders::run },
    Suite { name: "kept", rounds: |n| n.div_ceil(5), run: kept::run },
    Suite { name: "blank", rounds: |n| n, run: blank::run },
    Suite { name: "full", rounds: |n| n.div_ceil(4), run: full::run },
    Suite { name: "runs", rounds: |n| n, run: runs::run },
    Suite { name: "long", rounds: |n| n.div_ceil(250), run: runs::long },
    Suite { name: "large", rounds: |n| n.div_ceil(50), run: runs::large },
    Suite { name: "deepest", rounds: |n| n.div_ceil(100), run: runs::deepest },
    Suite { name: LISTER, rounds: |n| n, run: lister::run },
    Suite { name: SCRIPTS, rounds: |n| n, run: scripts::run },
];
