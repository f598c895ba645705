//! The builds that document 01 sets out, with their answers, and two that are no Feedback.
use generator::kinds::{LAMP, LEVER, REPEATER, TORCH, WIRE};
use generator::lists::SceneLists;

use crate::answer::Assessed;

pub struct Build {
    /// Id, kind and delay word of each component.
    components: &'static [(u64, u8, u16)],
    edges: &'static [(u64, u64)],
    /// Lists 3 to 8, scope and pattern, as `brief` tells them.
    pub answer: &'static str,
}

pub const BUILDS: [Build; 8] = [
    Build {
        components: &[],
        edges: &[],
        answer: "scope 0, pattern 3",
    },
    Build {
        components: &[(1, LEVER, 256), (2, REPEATER, 4), (3, LAMP, 256)],
        edges: &[(1, 2), (2, 3)],
        answer: "scope 0, pattern 0, retained 1, compressed 2, retained 3, edge [1, 2, 3] 4, \
                 label 0 0, label 0 0, label 4 4",
    },
    Build {
        components: &[(1, LEVER, 256), (2, REPEATER, 1), (4, LAMP, 256)],
        edges: &[(1, 2), (2, 4), (1, 4)],
        answer: "scope 1, pattern 0, unequal 4 0 1, retained 1, compressed 2, retained 4, \
                 edge [1, 2, 4] 1, edge [1, 4] 0, label 0 0, label 0 0, label 0 1",
    },
    Build {
        components: &[(1, REPEATER, 1), (2, REPEATER, 1)],
        edges: &[(1, 2), (2, 1)],
        answer: "scope 2, pattern 2, feedback [1, 2], compressed 1, compressed 2, \
                 unsettled, unsettled",
    },
    Build {
        components: &[(1, TORCH, 256), (2, WIRE, 256)],
        edges: &[(1, 2), (2, 1)],
        answer: "scope 2, pattern 1, feedback [1], retained 1, compressed 2, \
                 inverted edge [1, 2, 1] 1, unsettled, unsettled",
    },
    Build {
        components: &[(1, WIRE, 256), (2, WIRE, 256), (3, WIRE, 256)],
        edges: &[(1, 2), (2, 3), (3, 1)],
        answer: "scope 0, pattern 3, compressed 1, compressed 2, compressed 3, \
                 unsettled, unsettled, unsettled",
    },
    // a lone self-edge, and two-way dust beside a device
    Build {
        components: &[(1, TORCH, 256)],
        edges: &[(1, 1)],
        answer: "scope 0, pattern 0, retained 1, inverted edge [1, 1] 1, unsettled",
    },
    Build {
        components: &[(1, WIRE, 256), (2, WIRE, 256), (3, TORCH, 256)],
        edges: &[(1, 2), (2, 1), (2, 3)],
        answer: "scope 0, pattern 0, compressed 1, retained 2, retained 3, edge [2, 1, 2] 0, \
                 edge [2, 3] 0, unsettled, unsettled, unsettled",
    },
];

impl Build {
    pub fn lists(&self) -> SceneLists {
        let mut lists = SceneLists::default();
        for &(id, kind, delay) in self.components {
            lists.push_component(id, kind, delay, 0, [0, 0, 0]);
        }
        for &(source, sink) in self.edges {
            lists.push_connection(source, sink, 1);
        }
        lists
    }
}

/// An answer in words, for a reader.
pub fn brief(ids: &[u64], assessed: &Assessed) -> String {
    let (numbers, entries) = (&assessed.numbers, &assessed.entries);
    let mut words = vec![
        format!("scope {}", numbers.scope),
        format!("pattern {}", numbers.pattern),
    ];
    for (k, kind) in entries.reason_kinds.iter().enumerate() {
        let id = entries.reason_components[k];
        let (low, high) = (entries.reason_minimums[k], entries.reason_maximums[k]);
        words.push(match kind {
            0 => format!("unequal {id} {low} {high}"),
            1 => format!("feedback {:?}", entries.feedback_ids),
            2 => format!("stateful {id}"),
            _ => format!("locked {id}"),
        });
    }
    for (id, mark) in ids.iter().zip(&entries.marks) {
        words.push(format!(
            "{} {id}",
            ["compressed", "retained"][usize::from(*mark)]
        ));
    }
    for edge in entries.projected() {
        let inverted = if edge.inverted { "inverted " } else { "" };
        words.push(format!("{inverted}edge {:?} {}", edge.path, edge.maximum));
    }
    let sums = entries.label_lows.iter().zip(&entries.label_highs);
    for (settled, (low, high)) in entries.label_settled.iter().zip(sums) {
        words.push(match settled {
            1 => format!("label {low} {high}"),
            _ => "unsettled".to_owned(),
        });
    }
    words.join(", ")
}
