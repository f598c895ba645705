//! A scene written as a text.
use generator::lists::{ABSENT_DELAY, SceneLists};

pub fn written(lists: &SceneLists) -> Vec<u8> {
    let mut lines = vec![format!("components={}", lists.ids.len())];
    for i in 0..lists.ids.len() {
        let delay = match lists.delays[i] {
            ABSENT_DELAY => "none".to_owned(),
            own => own.to_string(),
        };
        lines.push(format!("id={}", lists.ids[i]));
        lines.push(format!("kind={}", lists.kinds[i]));
        lines.push(format!("delay={delay}"));
        lines.push(format!("locked={}", lists.locked[i]));
        lines.push(format!("x={}", lists.xs[i]));
        lines.push(format!("y={}", lists.ys[i]));
        lines.push(format!("z={}", lists.zs[i]));
    }
    lines.push(format!("connections={}", lists.sources.len()));
    for i in 0..lists.sources.len() {
        lines.push(format!("source={}", lists.sources[i]));
        lines.push(format!("sink={}", lists.sinks[i]));
        lines.push(format!("transfer={}", lists.transfers[i]));
    }
    ended(&lines)
}

/// Each line with its line feed.
pub fn ended(lines: &[String]) -> Vec<u8> {
    let mut text = lines.join("\n");
    text.push('\n');
    text.into_bytes()
}

/// The lines of a text, each with its line feed; the last one may lack it.
pub fn lines(text: &[u8]) -> Vec<&[u8]> {
    text.split_inclusive(|byte| *byte == b'\n').collect()
}
