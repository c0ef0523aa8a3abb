//! Fabrics: the mesh with X-Y routes, and the fabric that a file lists.

pub trait Fabric {
    fn nodes(&self) -> usize;
    fn delay(&self) -> u64;
    /// The link numbers of the route, if there is one.
    fn route(&self, from: usize, to: usize) -> Option<impl Iterator<Item = u16>>;
}

pub struct Mesh {
    pub columns: usize,
    pub rows: usize,
    pub delay: u64,
}

impl Mesh {
    pub fn new(columns: u8, rows: u8, delay: u8) -> Option<Mesh> {
        ((1..=8).contains(&columns) && (1..=8).contains(&rows) && delay <= 64).then_some(Mesh {
            columns: columns.into(),
            rows: rows.into(),
            delay: delay.into(),
        })
    }
}

struct MeshRoute {
    x: usize,
    y: usize,
    to_x: usize,
    to_y: usize,
    columns: usize,
}

impl Iterator for MeshRoute {
    type Item = u16;

    fn next(&mut self) -> Option<u16> {
        let node = self.x + self.columns * self.y;
        let direction = if self.x < self.to_x {
            self.x += 1;
            0
        } else if self.x > self.to_x {
            self.x -= 1;
            1
        } else if self.y < self.to_y {
            self.y += 1;
            2
        } else if self.y > self.to_y {
            self.y -= 1;
            3
        } else {
            return None;
        };
        Some((4 * node + direction) as u16)
    }
}

impl Fabric for Mesh {
    fn nodes(&self) -> usize {
        self.columns * self.rows
    }

    fn delay(&self) -> u64 {
        self.delay
    }

    fn route(&self, from: usize, to: usize) -> Option<impl Iterator<Item = u16>> {
        (from < self.nodes() && to < self.nodes()).then(|| MeshRoute {
            x: from % self.columns,
            y: from / self.columns,
            to_x: to % self.columns,
            to_y: to / self.columns,
            columns: self.columns,
        })
    }
}

/// The links and routes as they stand in the file; a route is found by a walk over the records.
pub struct Listed<'a> {
    pub nodes: usize,
    pub delay: u64,
    pub routes: &'a [u8],
}

impl Fabric for Listed<'_> {
    fn nodes(&self) -> usize {
        self.nodes
    }

    fn delay(&self) -> u64 {
        self.delay
    }

    fn route(&self, from: usize, to: usize) -> Option<impl Iterator<Item = u16>> {
        if from >= self.nodes || to >= self.nodes {
            return None;
        }
        let links: &[u8] = if from == to {
            &[]
        } else {
            let record = self.routes.chunks_exact(16).find(|r| usize::from(r[0]) == from && usize::from(r[1]) == to)?;
            &record[4..4 + usize::from(record[2])]
        };
        Some(links.iter().map(|n| u16::from(*n)))
    }
}
