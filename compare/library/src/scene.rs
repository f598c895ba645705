//! The ten lists of a scene.
use generator::lists::SceneLists;
use sizhbanto::raw::lent::{Components, Connections, Scene};

/// As the calls are lent them.
pub fn lent(lists: &SceneLists) -> Scene<'_> {
    Scene {
        components: Components {
            ids: (&lists.ids[..]).into(),
            kinds: (&lists.kinds[..]).into(),
            delays: (&lists.delays[..]).into(),
            locked: (&lists.locked[..]).into(),
            xs: (&lists.xs[..]).into(),
            ys: (&lists.ys[..]).into(),
            zs: (&lists.zs[..]).into(),
        },
        connections: Connections {
            sources: (&lists.sources[..]).into(),
            sinks: (&lists.sinks[..]).into(),
            transfers: (&lists.transfers[..]).into(),
        },
    }
}
