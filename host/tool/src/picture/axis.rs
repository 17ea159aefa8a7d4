//! The axis of gids by rank: each gid that occurs gets an equal step, since gids reach 63 bits and lie unevenly. And which of
//! its labels can stand side by side.

use super::svg::width;

/// Pixels between two labels that lie flat, and between the feet of two that are turned by 45 degrees.
const GAP: f64 = 8.0;
const TURNED: f64 = 19.0;

pub struct Axis {
    /// Rising, each once.
    gids: Vec<u64>,
    left: f64,
    right: f64,
}

impl Axis {
    pub fn new(mut gids: Vec<u64>, left: f64, right: f64) -> Axis {
        gids.sort_unstable();
        gids.dedup();
        Axis { gids, left, right }
    }

    /// Pixels from one gid to the next; the whole room where there is one gid only.
    pub fn step(&self) -> f64 {
        let steps = self.gids.len().saturating_sub(1).max(1);
        (self.right - self.left) / steps as f64
    }

    /// Where a gid stands; one that was not given stands where the next one does.
    pub fn x(&self, gid: u64) -> f64 {
        if self.gids.len() < 2 {
            return (self.left + self.right) / 2.0;
        }
        let rank = self.gids.partition_point(|other| *other < gid);
        let rank = rank.min(self.gids.len() - 1);
        self.left + self.step() * rank as f64
    }

    pub fn gids(&self) -> &[u64] {
        &self.gids
    }

    /// The labels that find room, those of `first` before all others.
    pub fn labels(&self, first: &[u64], size: f64) -> Labels {
        let widest = self.gids.iter().map(|gid| width(&gid.to_string(), size));
        let widest = widest.fold(0.0, f64::max);
        let turned = self.gids.len() > 1 && widest + GAP > self.step();
        let room = if turned { TURNED } else { 0.0 };
        let mut shown: Vec<u64> = Vec::new();
        for gid in first.iter().chain(&self.gids) {
            let far = |other: &u64| (self.x(*other) - self.x(*gid)).abs() >= room;
            if !shown.contains(gid) && shown.iter().all(far) {
                shown.push(*gid);
            }
        }
        shown.sort_unstable();
        Labels {
            shown,
            turned,
            widest,
        }
    }
}

/// Labels that do not touch each other.
pub struct Labels {
    /// Gids, rising.
    pub shown: Vec<u64>,
    pub turned: bool,
    /// Pixels.
    pub widest: f64,
}

#[cfg(test)]
mod tests {
    use super::*;

    #[test]
    fn gids_stand_by_rank() {
        let axis = Axis::new(vec![u64::MAX, 4, 0, 4], 100.0, 300.0);
        assert_eq!(axis.gids(), [0, 4, u64::MAX]);
        let x: Vec<f64> = axis.gids().iter().map(|gid| axis.x(*gid)).collect();
        assert_eq!(x, [100.0, 200.0, 300.0]);
    }

    #[test]
    fn one_gid_or_none_has_a_place() {
        for gids in [vec![], vec![7]] {
            let axis = Axis::new(gids, 100.0, 300.0);
            assert_eq!(axis.x(7), 200.0);
            assert!(axis.step().is_finite());
            assert!(!axis.labels(&[7], 11.0).turned);
        }
    }

    #[test]
    fn few_labels_lie_flat_and_are_all_there() {
        let labels = Axis::new(vec![0, 4, 6, 9], 0.0, 300.0).labels(&[9], 11.0);
        assert_eq!((labels.shown, labels.turned), (vec![0, 4, 6, 9], false));
    }

    #[test]
    fn labels_that_would_touch_are_left_out_but_not_those_that_matter() {
        let gids: Vec<u64> = (0..200).map(|i| (1 << 62) + i * i).collect();
        let (start, target) = (gids[100], gids[187]);
        let axis = Axis::new(gids, 0.0, 800.0);
        let labels = axis.labels(&[target, start], 11.0);
        assert!(labels.turned);
        assert!(labels.shown.contains(&target) && labels.shown.contains(&start));
        let close = |pair: &[u64]| axis.x(pair[1]) - axis.x(pair[0]) < TURNED;
        assert!(!labels.shown.windows(2).any(close));
        assert!(labels.shown.len() > 30, "{}", labels.shown.len());
    }
}
