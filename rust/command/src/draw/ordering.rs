//! The order of the nodes in each layer, with few crossings: sweeps to and fro that sort each layer by its neighbours, and swaps
//! of nodes that stand side by side. The best order that was seen is kept.

use super::layers::Layers;
use super::Kind;

/// No more sweeps than this, and an end after so many without a better order.
const SWEEPS: usize = 32;
const PATIENCE: usize = 8;

/// The neighbours of each node to one side, with the weights of the links.
type Neighbours = Vec<Vec<(usize, u64)>>;

struct Ordering {
    left: Neighbours,
    right: Neighbours,
    order: Vec<Vec<usize>>,
    /// The place of each node in its layer.
    place: Vec<usize>,
}

/// Orders the nodes of each layer.
pub fn reduce_crossings(layers: &mut Layers) {
    let mut ordering = Ordering::of(layers);
    let mut best = (ordering.crossings(), ordering.order.clone());
    let mut waited = 0;
    for sweep in 0..SWEEPS {
        ordering.sweep(sweep % 2 == 0);
        ordering.swap_neighbours();
        let crossings = ordering.crossings();
        waited += 1;
        if crossings < best.0 {
            best = (crossings, ordering.order.clone());
            waited = 0;
        }
        if best.0 == 0 || waited == PATIENCE {
            break;
        }
    }
    layers.order = best.1;
}

/// An arc that is crossed is worse than a mark: it is what one follows first.
pub fn weight(kind: Kind) -> u64 {
    match kind {
        Kind::Arc => 2,
        Kind::Mark(_) => 1,
    }
}

impl Ordering {
    fn of(layers: &Layers) -> Ordering {
        let mut left = vec![Vec::new(); layers.nodes.len()];
        let mut right = left.clone();
        for link in &layers.links {
            left[link.to].push((link.from, weight(link.kind)));
            right[link.from].push((link.to, weight(link.kind)));
        }
        let mut ordering = Ordering { left, right, order: layers.order.clone(), place: vec![0; layers.nodes.len()] };
        (0..ordering.order.len()).for_each(|layer| ordering.number(layer));
        ordering
    }

    /// Notes the places of a layer's nodes.
    fn number(&mut self, layer: usize) {
        for (place, node) in self.order[layer].iter().enumerate() {
            self.place[*node] = place;
        }
    }

    /// Sorts each layer by its left neighbours, from left to right, or by the right ones, from right to left.
    fn sweep(&mut self, to_right: bool) {
        let layers = self.order.len();
        for step in 1..layers {
            let layer = if to_right { step } else { layers - 1 - step };
            self.sort(layer, to_right);
        }
    }

    /// Sorts a layer by the mean place of each node's neighbours. A node without any stays where it is.
    fn sort(&mut self, layer: usize, by_left: bool) {
        let neighbours = if by_left { &self.left } else { &self.right };
        let mean = |node: usize| {
            let weights: u64 = neighbours[node].iter().map(|(_, weight)| weight).sum();
            let places: u64 = neighbours[node].iter().map(|(other, weight)| self.place[*other] as u64 * weight).sum();
            places as f64 / weights as f64
        };
        let nodes = &self.order[layer];
        let moving: Vec<usize> = (0..nodes.len()).filter(|place| !neighbours[nodes[*place]].is_empty()).collect();
        let mut sorted: Vec<(f64, usize)> = moving.iter().map(|place| (mean(nodes[*place]), nodes[*place])).collect();
        sorted.sort_by(|one, other| one.0.total_cmp(&other.0));
        for (place, (_, node)) in moving.into_iter().zip(sorted) {
            self.order[layer][place] = node;
        }
        self.number(layer);
    }

    /// Swaps two nodes side by side wherever this saves crossings, layer by layer.
    fn swap_neighbours(&mut self) {
        for layer in 0..self.order.len() {
            let mut rounds = 0;
            while self.swap_in(layer) && rounds < 4 {
                rounds += 1;
            }
        }
    }

    fn swap_in(&mut self, layer: usize) -> bool {
        let both_sides = |node: &usize| [self.places(&self.left[*node]), self.places(&self.right[*node])];
        let places: Vec<[Vec<(usize, u64)>; 2]> = self.order[layer].iter().map(both_sides).collect();
        let mut now: Vec<usize> = (0..places.len()).collect();
        let mut better = false;
        for upper in 1..now.len() {
            let (one, other) = (&places[now[upper - 1]], &places[now[upper]]);
            let kept = crossed(&one[0], &other[0]) + crossed(&one[1], &other[1]);
            let swapped = crossed(&other[0], &one[0]) + crossed(&other[1], &one[1]);
            if swapped < kept {
                now.swap(upper - 1, upper);
                better = true;
            }
        }
        self.order[layer] = now.iter().map(|place| self.order[layer][*place]).collect();
        self.number(layer);
        better
    }

    /// The places of neighbours, from top to bottom.
    fn places(&self, neighbours: &[(usize, u64)]) -> Vec<(usize, u64)> {
        let mut places: Vec<(usize, u64)> = neighbours.iter().map(|(node, weight)| (self.place[*node], *weight)).collect();
        places.sort_unstable();
        places
    }

    /// The crossings of all links, by weight.
    fn crossings(&self) -> u64 {
        (1..self.order.len()).map(|layer| self.crossings_before(layer)).sum()
    }

    /// The crossings of the links that end in a layer: links come by their left ends, and each crosses those before it whose
    /// right ends are further down. A tree of sums counts these.
    fn crossings_before(&self, layer: usize) -> u64 {
        let size = self.order[layer].len();
        let mut tree = vec![0; size + 1];
        let (mut all, mut crossings) = (0, 0);
        for node in &self.order[layer - 1] {
            let ends = self.places(&self.right[*node]);
            crossings += ends.iter().map(|(place, weight)| weight * (all - sum_to(&tree, *place + 1))).sum::<u64>();
            for (place, weight) in ends {
                add_at(&mut tree, place + 1, weight);
                all += weight;
            }
        }
        crossings
    }
}

/// The crossings between the links of an upper and a lower node, whose places are sorted.
fn crossed(upper: &[(usize, u64)], lower: &[(usize, u64)]) -> u64 {
    let (mut above, mut next, mut crossings) = (0, 0, 0);
    for (place, weight) in upper {
        while next < lower.len() && lower[next].0 < *place {
            above += lower[next].1;
            next += 1;
        }
        crossings += weight * above;
    }
    crossings
}

/// The sum of the first places of a Fenwick tree.
fn sum_to(tree: &[u64], mut place: usize) -> u64 {
    let mut sum = 0;
    while place > 0 {
        sum += tree[place];
        place &= place - 1;
    }
    sum
}

fn add_at(tree: &mut [u64], mut place: usize, weight: u64) {
    while place < tree.len() {
        tree[place] += weight;
        place += place & place.wrapping_neg();
    }
}

#[cfg(test)]
mod tests {
    use super::super::samples;
    use super::*;

    /// The crossings by the definition: each pair of links between two layers.
    fn crossings_in_pairs(ordering: &Ordering, layers: &Layers) -> u64 {
        let mut crossings = 0;
        for (number, one) in layers.links.iter().enumerate() {
            for other in layers.links[..number].iter().filter(|other| layers.nodes[other.from].layer == layers.nodes[one.from].layer) {
                let place = |node: usize| ordering.place[node] as i64;
                let crossed = (place(one.from) - place(other.from)) * (place(one.to) - place(other.to)) < 0;
                crossings += if crossed { weight(one.kind) * weight(other.kind) } else { 0 };
            }
        }
        crossings
    }

    #[test]
    fn crossings_are_counted() {
        for (name, run) in [("warning", samples::example("flush", "warning")), ("shifts", samples::example("cache", "shifts"))] {
            let mut layers = Layers::of(&run);
            let before = Ordering::of(&layers);
            assert_eq!(before.crossings(), crossings_in_pairs(&before, &layers), "{name}");
            reduce_crossings(&mut layers);
            let after = Ordering::of(&layers);
            assert_eq!(after.crossings(), crossings_in_pairs(&after, &layers), "{name}");
            assert!(after.crossings() < before.crossings(), "{name}");
        }
    }

    #[test]
    fn every_layer_keeps_its_nodes() {
        for (name, run) in samples::all() {
            let mut layers = Layers::of(&run);
            let before = layers.order.clone();
            reduce_crossings(&mut layers);
            for (one, other) in before.iter().zip(&layers.order) {
                let sorted = |nodes: &[usize]| {
                    let mut nodes = nodes.to_vec();
                    nodes.sort_unstable();
                    nodes
                };
                assert_eq!(sorted(one), sorted(other), "{name}");
            }
        }
    }
}
