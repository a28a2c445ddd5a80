//! A row of document 01's sweep up: one chain of one film, with how far its
//! rising and its falling branch have come. How this lies in the eight numbers
//! of a lent row is left open by the paper, so here it is a plain record.

use crate::geometry::{Edge, Point, Site};

/// One of the two branches of a chain.
#[derive(Clone, Copy, PartialEq, Eq, Hash, Debug)]
pub enum Branch {
    /// Up from the lowest point, in the direction of the edges.
    Rising,
    /// Up from the lowest point, against the direction of the edges.
    Falling,
}

impl Branch {
    /// The branch on which an edge hangs.
    pub fn of(edge: Edge) -> Branch {
        if edge.is_up() {
            Branch::Rising
        } else {
            Branch::Falling
        }
    }

    /// The branch on the other side of the lowest point.
    pub fn other(self) -> Branch {
        match self {
            Branch::Rising => Branch::Falling,
            Branch::Falling => Branch::Rising,
        }
    }
}

/// How many edges of the list lie in an edge of some level.
#[derive(Clone, Copy)]
pub struct Lengths {
    /// Before its lowest point.
    pub falling: i32,
    /// After its lowest point.
    pub rising: i32,
}

/// What is looked for among the rows: the tip of an unfinished branch.
#[derive(Clone, Copy, PartialEq, Eq, Hash, Debug)]
pub struct Tip {
    /// The level of its chain.
    pub level: i32,
    /// The branch that it is the tip of.
    pub branch: Branch,
    /// Where it is.
    pub site: Site,
}

/// How far one branch has come.
#[derive(Clone, Copy)]
pub struct Reach {
    /// Its highest point so far.
    pub tip: Point,
    /// How many edges of the list it holds.
    pub length: i32,
    /// Whether it has met another branch at a peak.
    pub finished: bool,
}

/// A row in use: one chain.
#[derive(Clone, Copy)]
pub struct Row {
    /// The level of the edges that the chain is made of.
    pub level: i32,
    /// Their film.
    pub film: i32,
    /// Its rising branch.
    pub rising: Reach,
    /// Its falling branch.
    pub falling: Reach,
}

impl Row {
    /// A chain that so far is only its lowest point.
    pub fn opened(level: i32, lowest: Site) -> Row {
        let reach = Reach {
            tip: lowest.point,
            length: 0,
            finished: false,
        };
        Row {
            level,
            film: lowest.film,
            rising: reach,
            falling: reach,
        }
    }

    /// How far this branch has come.
    pub fn reach(&self, branch: Branch) -> &Reach {
        match branch {
            Branch::Rising => &self.rising,
            Branch::Falling => &self.falling,
        }
    }

    /// The same, to be changed.
    pub fn reach_mut(&mut self, branch: Branch) -> &mut Reach {
        match branch {
            Branch::Rising => &mut self.rising,
            Branch::Falling => &mut self.falling,
        }
    }

    /// Whether both branches are finished.
    pub fn is_finished(&self) -> bool {
        self.rising.finished && self.falling.finished
    }

    /// The tip of a branch.
    pub fn tip(&self, branch: Branch) -> Tip {
        let point = self.reach(branch).tip;
        let film = self.film;
        Tip {
            level: self.level,
            branch,
            site: Site { point, film },
        }
    }

    /// Whether an unfinished branch has this tip.
    pub fn has(&self, tip: Tip) -> bool {
        !self.reach(tip.branch).finished && self.tip(tip.branch) == tip
    }
}
