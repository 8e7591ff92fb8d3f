//! Where everything stands. The height of a node follows its neighbours: each layer in turn is put as near as possible to where
//! its neighbours are, without leaving its order or coming too close (isotonic regression). At first the squares of the links'
//! heights are made small, which settles the picture as a whole, and then the heights themselves, which makes most links level.
//! The columns come after that: where links are steep, there is more room between two layers.

use super::layers::Layers;
use super::{ordering, Thing};

pub const BOX_HEIGHT: f64 = 38.0;
pub const RADIUS: f64 = 14.0;
/// The second ring of a condition that nobody consumed.
pub const RING: f64 = 17.5;
/// A condition's label stands below it.
pub const LABEL_DROP: f64 = 28.0;
const LABEL_BOTTOM: f64 = 32.0;
/// From a node to the next below: between two nodes that are seen, and where one is a slot.
const APART: f64 = 8.0;
const SLOT_APART: f64 = 8.0;
/// From a circle to a box, at least, and from a label to a box.
const REACH: f64 = 34.0;
const LABEL_REACH: f64 = 5.0;
/// A slot in a gap runs level so far to both sides, to keep off labels.
const LEVEL: f64 = 28.0;
/// A gap without a circle is narrow.
const EMPTY_REACH: f64 = 20.0;
/// How far apart the labels of conditions without any edge stand, and how far below each other these are.
const LOOSE_APART: f64 = 8.0;
const LOOSE_DOWN: f64 = RING + LABEL_BOTTOM + APART;
/// So many of them may make the picture higher; and a column has room for so many in any case.
const LOOSE_FEW: usize = 2;
const LOOSE_ROWS: usize = 8;
/// How often the layers are gone through: as often as there is time for so many nodes, between the least and the most.
const NODE_VISITS: usize = 2_000_000;
const ROUNDS: (usize, usize) = (48, 480);
/// In the first of them a node looks to one side alone.
const ONE_SIDED: usize = 12;
/// Links lower than this pull alike in the end, a little more while it goes on.
const LEAST_SLACK: f64 = 0.5;
const MOST_SLACK: f64 = 16.0;

/// How wide what is written is.
#[derive(Clone, Copy)]
pub struct Sizes {
    /// Of every box.
    pub event: f64,
    /// Of the widest label of a condition.
    pub label: f64,
}

impl Sizes {
    /// From a circle to a box.
    fn reach(self) -> f64 {
        REACH.max(self.label / 2.0 + LABEL_REACH - RING)
    }

    /// From a circle to the next, side by side.
    fn loose_across(self) -> f64 {
        self.label.max(2.0 * RING) + LOOSE_APART
    }
}

pub struct Placing {
    /// The middle of each node.
    pub x: Vec<f64>,
    pub y: Vec<f64>,
    /// The middle of each layer, and half its width.
    pub middle: Vec<f64>,
    pub half: Vec<f64>,
    pub width: f64,
    pub height: f64,
}

impl Placing {
    pub fn of(layers: &Layers, sizes: Sizes) -> Placing {
        let y = heights(layers);
        let half = halves(layers, sizes.event);
        let middle = columns(layers, &y, &half, sizes.reach());
        let x = layers.nodes.iter().map(|node| middle[node.layer]).collect();
        let last = layers.order.len() - 1;
        let width = middle[last] + half[last].max(sizes.label / 2.0);
        let height = layers.order.iter().flatten().map(|node| y[*node] + extent(layers, *node).1).fold(0.0, f64::max);
        let mut placing = Placing { x, y, middle, half, width, height };
        placing.put_loose(layers, sizes.loose_across());
        placing
    }

    /// Puts the conditions without an edge where gap 0 has room above and below the others, and the rest into columns to its left.
    fn put_loose(&mut self, layers: &Layers, across: f64) {
        let ends = layers.order[0].first().zip(layers.order[0].last());
        let (top, bottom) = ends.map_or((0.0, 0.0), |(first, last)| (self.y[*first] - RING, self.y[*last] + LABEL_BOTTOM + APART));
        let rows = |room: f64| (room / LOOSE_DOWN) as usize;
        let (above, below) = (rows(top), rows(self.height + APART - bottom).max(if layers.loose.len() <= LOOSE_FEW { LOOSE_FEW } else { 0 }));
        let column = rows(self.height + APART).max(LOOSE_ROWS);
        let columns = layers.loose.len().saturating_sub(above + below).div_ceil(column);
        self.shift(columns as f64 * across);
        for (number, node) in layers.loose.iter().enumerate() {
            let (columns, top, row) = match number {
                number if number < above => (0, 0.0, number),
                number if number < above + below => (0, bottom, number - above),
                number => (1 + (number - above - below) / column, 0.0, (number - above - below) % column),
            };
            self.x[*node] = self.middle[0] - columns as f64 * across;
            self.y[*node] = top + row as f64 * LOOSE_DOWN + RING;
            self.height = self.height.max(self.y[*node] + LABEL_BOTTOM);
        }
    }

    /// Half of what a slot takes in a layer.
    pub fn slot_half(&self, layer: usize) -> f64 {
        match self.half[layer] {
            half if layer % 2 == 0 && half > 0.0 => LEVEL,
            half => half,
        }
    }

    /// Moves everything to the right.
    fn shift(&mut self, by: f64) {
        self.x.iter_mut().chain(&mut self.middle).for_each(|x| *x += by);
        self.width += by;
    }
}

/// What a node has above and below its middle.
fn extent(layers: &Layers, node: usize) -> (f64, f64) {
    match layers.nodes[node].thing {
        Some(Thing::Event(_)) => (BOX_HEIGHT / 2.0, BOX_HEIGHT / 2.0),
        Some(Thing::Condition(_)) => (RING, LABEL_BOTTOM),
        None => (0.0, 0.0),
    }
}

/// How far the middles of two nodes of a layer have to be apart.
fn apart(layers: &Layers, upper: usize, lower: usize) -> f64 {
    let slot = layers.is_slot(upper) || layers.is_slot(lower);
    extent(layers, upper).1 + extent(layers, lower).0 + if slot { SLOT_APART } else { APART }
}

/// A link pulls a node to its neighbour.
struct Pull {
    neighbour: usize,
    weight: f64,
}

/// The pulls on each node, to the left and to the right. Slots pull each other hard, so that long edges are straight.
fn pulls(layers: &Layers) -> [Vec<Vec<Pull>>; 2] {
    let none = || layers.nodes.iter().map(|_| Vec::new()).collect::<Vec<Vec<Pull>>>();
    let mut pulls = [none(), none()];
    for link in &layers.links {
        let stiff = match (layers.is_slot(link.from), layers.is_slot(link.to)) {
            (true, true) => 6.0,
            (false, false) => 1.0,
            _ => 2.0,
        };
        let weight = stiff * ordering::weight(link.kind) as f64;
        pulls[0][link.to].push(Pull { neighbour: link.from, weight });
        pulls[1][link.from].push(Pull { neighbour: link.to, weight });
    }
    pulls
}

/// The height of each node, from the topmost down. A node in no order is at 0.
fn heights(layers: &Layers) -> Vec<f64> {
    let pulls = pulls(layers);
    let offsets: Vec<Vec<f64>> = layers.order.iter().map(|nodes| offsets(layers, nodes)).collect();
    let mut y = vec![0.0; layers.nodes.len()];
    for (nodes, offsets) in layers.order.iter().zip(&offsets) {
        let half = offsets.last().unwrap_or(&0.0) / 2.0;
        nodes.iter().zip(offsets).for_each(|(node, offset)| y[*node] = offset - half);
    }
    let rounds = (NODE_VISITS / layers.nodes.len().max(1)).clamp(ROUNDS.0, ROUNDS.1);
    for round in 0..rounds {
        let sides: &[_] = match round {
            round if round >= ONE_SIDED => &pulls,
            round if round % 2 == 0 => &pulls[..1],
            _ => &pulls[1..],
        };
        for step in 0..layers.order.len() {
            let layer = if round % 2 == 0 { step } else { layers.order.len() - 1 - step };
            settle(&layers.order[layer], &offsets[layer], sides, slack(round, rounds), &mut y);
        }
    }
    let top = layers.order.iter().filter_map(|nodes| nodes.first()).map(|node| y[*node] - extent(layers, *node).0).fold(f64::INFINITY, f64::min);
    layers.order.iter().flatten().for_each(|node| y[*node] -= top);
    y
}

/// How far each node of a layer is from the first, at least.
fn offsets(layers: &Layers, nodes: &[usize]) -> Vec<f64> {
    let mut offset = 0.0;
    let mut offsets = Vec::with_capacity(nodes.len());
    for (place, node) in nodes.iter().enumerate() {
        offset += if place == 0 { 0.0 } else { apart(layers, nodes[place - 1], *node) };
        offsets.push(offset);
    }
    offsets
}

/// Up to which height links pull by it: without end in the first third, and less and less in what follows.
fn slack(round: usize, rounds: usize) -> f64 {
    if round < rounds / 3 {
        return f64::INFINITY;
    }
    LEAST_SLACK + MOST_SLACK * (rounds - round) as f64 / rounds as f64
}

/// Puts the nodes of a layer as near as possible to where they are pulled. A node without a link stays, if others let it.
fn settle(nodes: &[usize], offsets: &[f64], sides: &[Vec<Vec<Pull>>], slack: f64, y: &mut [f64]) {
    let aims = nodes.iter().zip(offsets).map(|(node, offset)| {
        let (aim, weight) = aim(sides.iter().flat_map(|side| &side[*node]), y, y[*node], slack).unwrap_or((y[*node], 1e-3));
        (aim - offset, weight)
    });
    let levels = isotonic(&aims.collect::<Vec<_>>());
    for ((node, offset), level) in nodes.iter().zip(offsets).zip(levels) {
        y[*node] = level + offset;
    }
}

/// The mean of a node's neighbours by weight, and all the weight. A neighbour that is further off than the slack counts less, in
/// that measure: so the sum of the heights gets least, as at the median, and a far neighbour does not bend the near ones' links.
fn aim<'a>(pulls: impl Iterator<Item = &'a Pull>, y: &[f64], here: f64, slack: f64) -> Option<(f64, f64)> {
    let (mut sum, mut all) = (0.0, 0.0);
    for pull in pulls {
        let height = (y[pull.neighbour] - here).abs();
        let weight = if height > slack { pull.weight * slack / height } else { pull.weight };
        sum += weight * y[pull.neighbour];
        all += weight;
    }
    (all > 0.0).then(|| (sum / all, all))
}

/// The values that never fall and are nearest to the given ones, by weight: a value below the one before is pooled with it.
fn isotonic(aims: &[(f64, f64)]) -> Vec<f64> {
    let mut pools: Vec<(f64, f64, usize)> = Vec::new();
    for (value, weight) in aims {
        let mut pool = (*value, *weight, 1);
        while let Some(last) = pools.last().filter(|last| last.0 >= pool.0) {
            let weight = last.1 + pool.1;
            pool = ((last.0 * last.1 + pool.0 * pool.1) / weight, weight, last.2 + pool.2);
            pools.pop();
        }
        pools.push(pool);
    }
    pools.into_iter().flat_map(|(value, _, size)| std::iter::repeat(value).take(size)).collect()
}

/// Half the width of each layer: of a box, of a circle, or of nothing.
fn halves(layers: &Layers, box_width: f64) -> Vec<f64> {
    let half = |(layer, nodes): (usize, &Vec<usize>)| match layer % 2 {
        1 => box_width / 2.0,
        _ if layer == 0 && !layers.loose.is_empty() || nodes.iter().any(|node| !layers.is_slot(*node)) => RING,
        _ => 0.0,
    };
    layers.order.iter().enumerate().map(half).collect()
}

/// How much more room a link asks for that goes so far up or down.
fn steepness(height: f64) -> f64 {
    height.min(500.0) * 0.14 + (height - 500.0).max(0.0) * 0.05
}

/// The middle of each layer.
fn columns(layers: &Layers, y: &[f64], half: &[f64], reach: f64) -> Vec<f64> {
    let mut steepest = vec![0.0_f64; half.len()];
    for link in &layers.links {
        let layer = layers.nodes[link.to].layer;
        steepest[layer] = steepest[layer].max((y[link.from] - y[link.to]).abs());
    }
    let mut middle = vec![half[0] + if half[0] > 0.0 { reach } else { 0.0 }];
    for layer in 1..half.len() {
        let gap = if layer % 2 == 0 { half[layer] } else { half[layer - 1] };
        let between = if gap > 0.0 { reach } else { EMPTY_REACH } + steepness(steepest[layer]);
        middle.push(middle[layer - 1] + half[layer - 1] + between + half[layer]);
    }
    middle
}

#[cfg(test)]
mod tests {
    use super::super::samples;
    use super::*;

    fn placed(run: &crate::run::Run) -> (Layers, Placing) {
        let mut layers = Layers::of(run);
        ordering::reduce_crossings(&mut layers);
        let placing = Placing::of(&layers, Sizes { event: 80.0, label: 60.0 });
        (layers, placing)
    }

    #[test]
    fn nothing_of_a_layer_overlaps() {
        for (name, run) in samples::all() {
            let (layers, placing) = placed(&run);
            for nodes in &layers.order {
                for pair in nodes.windows(2) {
                    let room = placing.y[pair[1]] - placing.y[pair[0]] - apart(&layers, pair[0], pair[1]);
                    assert!(room > -1e-6, "{name}: {pair:?} {room}");
                }
            }
        }
    }

    #[test]
    fn loose_conditions_are_in_nobodys_way() {
        for (name, run) in samples::all() {
            let (layers, placing) = placed(&run);
            let mut circles = layers.order[0].clone();
            circles.extend(&layers.loose);
            for (number, one) in circles.iter().enumerate() {
                for other in &circles[..number] {
                    let (x, y) = (placing.x[*one] - placing.x[*other], placing.y[*one] - placing.y[*other]);
                    let least = if layers.is_slot(*one) || layers.is_slot(*other) { RING } else { 2.0 * RING };
                    assert!(x.hypot(y) >= least || layers.is_slot(*one) && layers.is_slot(*other), "{name}: {one} {other}");
                }
            }
        }
    }

    #[test]
    fn layers_follow_each_other() {
        for (name, run) in samples::all() {
            let (layers, placing) = placed(&run);
            for layer in 1..layers.order.len() {
                assert!(placing.middle[layer - 1] + placing.half[layer - 1] < placing.middle[layer] - placing.half[layer], "{name}");
            }
            let inside = |node: &usize| placing.y[*node] >= -1e-6 && placing.y[*node] <= placing.height && placing.x[*node] <= placing.width;
            assert!(layers.order.iter().flatten().chain(&layers.loose).all(inside), "{name}");
        }
    }

    #[test]
    fn values_never_fall() {
        assert_eq!(isotonic(&[(1.0, 1.0), (3.0, 1.0), (2.0, 1.0), (4.0, 1.0)]), [1.0, 2.5, 2.5, 4.0]);
        assert_eq!(isotonic(&[(3.0, 1.0), (0.0, 3.0), (0.75, 1.0)]), [0.75, 0.75, 0.75]);
        assert_eq!(isotonic(&[]), [0.0; 0]);
    }

    #[test]
    fn far_neighbours_count_less() {
        let pulls = [0, 1, 2].map(|neighbour| Pull { neighbour, weight: 1.0 });
        let y = [0.0, 10.0, 110.0];
        assert_eq!(aim(pulls.iter(), &y, 10.0, f64::INFINITY), Some((40.0, 3.0)));
        assert_eq!(aim(pulls.iter(), &y, 10.0, 10.0), Some((10.0, 2.1)));
        assert_eq!(aim([].iter(), &y, 10.0, 10.0), None);
    }
}
