//! The deepest scenes within the limits, in a thread whose stack is 1 MiB: where it didn't suffice, the program would end
//! by a signal.
use std::thread;

use compare::calls::{AnalyzeLists, AssessLists, DescribeLists, SceneCall};
use compare::fixed::longest_chains;
use compare::rooms;
use generator::lists::SceneLists;
use generator::rng::Rng;

const STACK: usize = 1 << 20;

pub fn table(rng: &mut Rng) -> Result<(), String> {
    let scenes = longest_chains().map(|lists| rooms::enough(rng, lists));
    for case in &scenes {
        let mut analyze = AnalyzeLists::lend(rng, &case.analyze);
        let mut describe = DescribeLists::lend(rng, &case.describe);
        let mut assess = AssessLists::lend(rng, &case.assess);
        let thread = thread::Builder::new().stack_size(STACK);
        let numbers = thread::scope(|scope| {
            let calls = || {
                let analyzed = analyze.call(&case.lists).number;
                let described = describe.call(&case.lists).number;
                [analyzed, described, assess.call(&case.lists).number]
            };
            thread.spawn_scoped(scope, calls).expect("a thread").join()
        });
        if numbers.expect("no panic") != [0; 3] {
            return Err(format!("a refusal of a chain of {}", size(&case.lists)));
        }
    }
    let sizes = scenes.map(|case| size(&case.lists));
    println!(
        "the scene call and its parts ran in a stack of 1 MiB on the longest chains: {}",
        sizes.join("; ")
    );
    Ok(())
}

fn size(lists: &SceneLists) -> String {
    format!(
        "{} components, {} connections",
        lists.ids.len(),
        lists.sources.len()
    )
}
