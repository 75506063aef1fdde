//! The two readers on each corpus, with all settings.

use crate::corpora::{self, Corpus};
use crate::rounds;
use crate::sides;
use second::Settings;

/// Prints the times and gives the number of differences.
pub fn report() -> usize {
    println!("\nChecking.\n");
    println!("| Corpus | settings | ours, ns | second's, ns | ratio | differences |");
    println!("|---|---|---|---|---|---|");
    Settings::ALL.into_iter().map(rows).sum()
}

fn rows(settings: Settings) -> usize {
    let corpora = corpora::all(settings);
    corpora.iter().map(|corpus| row(corpus, settings)).sum()
}

fn row(corpus: &Corpus, settings: Settings) -> usize {
    let sides = sides::both(settings);
    let differences = sides::differences(sides, &corpus.tables);
    let [our_time, second_time] = rounds::medians(sides, &corpus.tables);
    println!(
        "| {} | {settings} | {our_time:.1} | {second_time:.1} | {:.2} | {differences} |",
        corpus.name,
        our_time / second_time
    );
    differences
}
