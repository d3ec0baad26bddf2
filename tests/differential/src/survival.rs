//! How many files a salvage of a damaged volume keeps, by kind of damage.

use crate::boxes::{files, History};
use crate::models::{Damaged, Model, MODELS};
use crate::rng::Rng;

/// What is measured: so many volumes, of so many blocks, each damaged so many times by
/// each kind.
pub struct Extent {
    pub volumes: usize,
    pub blocks: usize,
    pub times: usize,
}

/// What became of the files, for one kind of damage.
#[derive(Clone, Copy, Default)]
pub struct Count {
    /// Those of the newest image.
    pub files: u64,
    /// Those with the same path and bytes afterwards, of the newest image or an older.
    pub kept: u64,
    /// Files of the result with other bytes.
    pub wrong: u64,
}

impl Count {
    pub fn percent(&self) -> f64 {
        100.0 * self.kept as f64 / self.files as f64
    }

    fn add(&mut self, given: &Damaged, after: Option<&[u8]>) {
        let (new, result) = (files(given.new), after.map(files).unwrap_or_default());
        let old = given.old.map(files).unwrap_or_default();
        for (path, bytes) in &result {
            let right = [&new, &old].iter().any(|files| files.get(path) == Some(bytes));
            self.kept += u64::from(right && new.contains_key(path));
            self.wrong += u64::from(!right);
        }
        self.files += new.len() as u64;
    }
}

/// Damages volumes by every kind, and salvages each by `salvage`, which gives a sound
/// image or, if it failed, none.
pub fn measure(
    rng: &mut Rng,
    extent: &Extent,
    mut salvage: impl FnMut(&Model, &[u8]) -> Option<Vec<u8>>,
) -> Vec<Count> {
    let mut counts = vec![Count::default(); MODELS.len()];
    for volume in 0..extent.volumes {
        let mut history = History::new(rng, extent.blocks);
        for time in 0..extent.times {
            let turn = volume * extent.times + time;
            history.place = (turn as f64 + 0.5) / (extent.volumes * extent.times) as f64;
            for (model, count) in MODELS.iter().zip(&mut counts) {
                let given = (model.make)(rng, &history);
                let after = salvage(model, &given.image);
                count.add(&given, after.as_deref());
            }
        }
    }
    counts
}

/// Prints a table of what was measured.
pub fn print(extent: &Extent, counts: &[Count]) {
    let Extent { volumes, blocks, times } = extent;
    println!("{volumes} volumes of {blocks} blocks, each damaged {times} times by each kind");
    println!();
    println!("| kind | damage | files | kept | % | wrong |");
    println!("|---|---|--:|--:|--:|--:|");
    for (model, count) in MODELS.iter().zip(counts) {
        let Count { files, kept, wrong } = count;
        println!(
            "| {} | {} | {files} | {kept} | {:.1} | {wrong} |",
            model.name,
            model.damage,
            count.percent()
        );
    }
}
