//! The whole node simulated: several cores in one process over disks, links and clocks in memory, all from one seed. Faults fall anywhere; then all is
//! mended, and the run is checked. The same seed gives the same run.
pub mod checks;
pub mod disk;
pub mod evil;
pub mod laid;
pub mod plan;
pub mod world;

use crate::settings::Mutant;

/// What came of a run.
pub struct Report {
    /// A hash of all events in their order.
    pub hash: u64,
    pub events: u64,
    pub operations: usize,
    pub crashes: u64,
    pub torn: u64,
    /// Pieces of the log that were read for what is owed, and segments that were removed.
    pub fetches: u64,
    pub removed: u64,
    /// Nodes that were put back from an older and shorter copy of their folder, and those of them that saw it and stopped.
    pub rolled: u64,
    pub caught: u64,
    /// Servers that nodes have given up, counted by both.
    pub given_up: u64,
    /// Which checks failed, and how; none if the run is as it should be.
    pub failures: Vec<String>,
}

/// Runs a seed, with all honest nodes right or all of them wrong in one way.
pub fn run(seed: u64, mutant: Option<Mutant>) -> Report {
    let mut world = world::World::new(plan::Plan::draw(seed, mutant));
    world.run();
    checks::all(&mut world);
    world.report()
}

#[cfg(test)]
mod tests {
    use super::checks::Point;
    use super::plan::Plan;
    use super::world::{World, WALL};
    use super::*;
    use crate::events::exit;

    #[test]
    fn the_same_seed_gives_the_same_run() {
        for seed in 1..4 {
            let (a, b) = (run(seed, None), run(seed, None));
            assert_eq!((a.hash, a.events), (b.hash, b.events), "seed {seed}");
        }
    }

    /// Every wrong node that the seeds find falls at a seed that is known; the others have tests of their own (`laid`, `log`).
    #[test]
    fn wrong_nodes_fall() {
        for (mutant, seed) in FALLS {
            assert!(!run(seed, Some(mutant)).failures.is_empty(), "{mutant:?} passes seed {seed}");
            assert_eq!(run(seed, None).failures, Vec::<String>::new(), "seed {seed}");
        }
    }

    const FALLS: [(Mutant, u64); 10] = [
        (Mutant::SendEarly, 7),
        (Mutant::AckEarly, 4),
        (Mutant::NoSettle, 251),
        (Mutant::SnapshotAhead, 10),
        (Mutant::NumbersLost, 1),
        (Mutant::NoWait, 7),
        (Mutant::SignPasses, 2498),
        (Mutant::SignForgotten, 6),
        (Mutant::SenderByFrame, 2),
        (Mutant::GivenUpForgotten, 4),
    ];

    /// Longer than a run, in milliseconds.
    const STRIDE: u64 = 10_000_000;

    /// Every 20 ms a node's wall clock steps, forward or back, by up to some months, and each node's in its own way.
    fn stepping(node: usize, boot: u64) -> u64 {
        let strides = (boot / 20 + 7919 * node as u64).wrapping_mul(0x9e37_79b9_7f4a_7c15) >> 54;
        WALL + boot + strides * STRIDE
    }

    /// What a run by these wall clocks came to, and the begins and ends that the logs of honest nodes have.
    fn run_by(seed: u64, wall: fn(usize, u64) -> u64) -> (World, Vec<Vec<Point>>) {
        let mut world = World::new(Plan::draw(seed, None));
        world.wall = wall;
        world.run();
        checks::all(&mut world);
        let logs = world.honest().into_iter().filter(|n| !world.slots[*n].lied);
        let points = logs.map(|n| checks::points(&world, n).expect("a log")).collect();
        (world, points)
    }

    fn ticks(nodes: &[Vec<Point>]) -> Vec<Vec<(u8, u32)>> {
        nodes.iter().map(|points| points.iter().map(|p| (p.client, p.tick)).collect()).collect()
    }

    /// By wall clocks that step, or stand still at either end, there are the same events, the same frames and the same ticks as by steady ones, and the
    /// checks hold. The logs have the wall clock's times as they were.
    #[test]
    fn steps_of_the_wall_clock_change_no_order_and_lose_nothing() {
        let (mut forward, mut back, mut crashes) = (0, 0, 0);
        for seed in 1..9 {
            let (steady, points) = run_by(seed, |_, boot| WALL + boot);
            let counted = |points: &Vec<Point>| points.iter().enumerate().all(|(at, p)| p.tick as usize == at);
            assert!(points.iter().all(counted), "seed {seed}: {points:?}");
            let clocks: [fn(usize, u64) -> u64; 3] = [stepping, |_, _| 0, |_, _| u64::MAX];
            let runs = clocks.map(|wall| run_by(seed, wall));
            let times = |nodes: &[Vec<Point>]| nodes.iter().flatten().map(|p| p.wall % STRIDE).collect::<Vec<_>>();
            assert_eq!(times(&points), times(&runs[0].1), "seed {seed}");
            let pairs = || runs[0].1.iter().flat_map(|points| points.windows(2));
            forward += pairs().filter(|p| p[1].wall > p[0].wall + STRIDE / 2).count();
            back += pairs().filter(|p| p[1].wall < p[0].wall).count();
            let (wire, steady) = (steady.wire.clone(), steady.report());
            crashes += steady.crashes;
            for (world, others) in runs {
                assert_eq!(ticks(&points), ticks(&others), "seed {seed}");
                assert!(wire == world.wire, "seed {seed}: other frames");
                let r = world.report();
                assert_eq!((r.hash, r.events, &r.failures), (steady.hash, steady.events, &vec![]), "seed {seed}");
            }
        }
        assert!(forward > 20 && back > 20 && crashes > 20, "too little happened: {forward}, {back}, {crashes}");
    }

    /// A log is read with a cluster file that was changed: a further client makes no difference, one that is gone and another register are said.
    #[test]
    fn a_changed_cluster_file_is_taken_or_told() {
        let mut world = World::new(Plan::draw(3, None));
        world.run();
        let node = world.plan.cluster.parameters.n;
        let start = |change: &dyn Fn(&mut crate::cluster::Cluster)| {
            let mut cluster = world.plan.cluster.clone();
            change(&mut cluster);
            checks::start_alone(&cluster, &world.plan.settings, node, world.slots[node].disk.clone()).code
        };
        assert_eq!(start(&|_| ()), None);
        assert_eq!(start(&|c| c.nodes[node].clients.push(8)), None);
        assert_eq!(start(&|c| c.nodes[node].clients.clear()), Some(exit::CLUSTER));
        assert_eq!(start(&|c| c.initial[0] ^= 1), Some(exit::OTHER_LOG));
        assert_eq!(start(&|c| c.generation += 1), Some(exit::OTHER_LOG));
    }
}
