//! Dependencies between declarations: an order that puts each after all that it needs, or a cycle.

/// Vertices with their edges grouped by source.
pub struct Graph {
    /// Where the edges of each vertex end.
    ends: Vec<u32>,
    targets: Vec<u32>,
}

const UNSEEN: u32 = u32::MAX;

impl Graph {
    pub fn with_capacity(vertices: usize) -> Self {
        Graph { ends: Vec::with_capacity(vertices), targets: Vec::new() }
    }

    /// Adds the next vertex with its edges.
    pub fn vertex(&mut self, targets: impl Iterator<Item = u32>) {
        self.targets.extend(targets);
        self.ends.push(self.targets.len() as u32);
    }

    fn edges(&self, vertex: u32) -> std::ops::Range<u32> {
        let start = vertex.checked_sub(1).map_or(0, |before| self.ends[before as usize]);
        start..self.ends[vertex as usize]
    }

    fn targets(&self, vertex: u32) -> &[u32] {
        let edges = self.edges(vertex);
        &self.targets[edges.start as usize..edges.end as usize]
    }

    /// All vertices, each after its targets; or the smallest vertex on a cycle.
    pub fn order(&self) -> Result<Vec<u32>, u32> {
        if self.targets.is_empty() {
            return Ok((0..self.ends.len() as u32).collect());
        }
        let mut search = Search::new(self);
        for vertex in 0..self.ends.len() as u32 {
            search.visit(vertex);
        }
        match search.on_cycle {
            Some(vertex) => Err(vertex),
            None => Ok(search.order),
        }
    }
}

/// Tarjan's search for strongly connected components, with its own stack in place of recursion.
struct Search<'a> {
    graph: &'a Graph,
    /// The time of each vertex's discovery.
    found: Vec<u32>,
    /// The earliest vertex known to be reached from each and still open.
    low: Vec<u32>,
    open: Vec<bool>,
    component: Vec<u32>,
    /// Vertices being visited, with the next edge of each.
    path: Vec<(u32, u32)>,
    order: Vec<u32>,
    time: u32,
    on_cycle: Option<u32>,
}

impl<'a> Search<'a> {
    fn new(graph: &'a Graph) -> Self {
        let vertices = graph.ends.len();
        Search {
            graph,
            found: vec![UNSEEN; vertices],
            low: vec![0; vertices],
            open: vec![false; vertices],
            component: Vec::new(),
            path: Vec::new(),
            order: Vec::with_capacity(vertices),
            time: 0,
            on_cycle: None,
        }
    }

    fn visit(&mut self, root: u32) {
        if self.found[root as usize] != UNSEEN {
            return;
        }
        self.enter(root);
        while let Some(&(vertex, edge)) = self.path.last() {
            if edge < self.graph.edges(vertex).end {
                self.follow(vertex, edge);
            } else {
                self.leave(vertex);
            }
        }
    }

    fn enter(&mut self, vertex: u32) {
        self.found[vertex as usize] = self.time;
        self.low[vertex as usize] = self.time;
        self.time += 1;
        self.open[vertex as usize] = true;
        self.component.push(vertex);
        self.path.push((vertex, self.graph.edges(vertex).start));
    }

    fn follow(&mut self, vertex: u32, edge: u32) {
        if let Some(top) = self.path.last_mut() {
            top.1 = edge + 1;
        }
        let target = self.graph.targets[edge as usize];
        if self.found[target as usize] == UNSEEN {
            self.enter(target);
        } else if self.open[target as usize] {
            self.lower(vertex, self.found[target as usize]);
        }
    }

    fn lower(&mut self, vertex: u32, to: u32) {
        let low = &mut self.low[vertex as usize];
        *low = (*low).min(to);
    }

    fn leave(&mut self, vertex: u32) {
        self.path.pop();
        if let Some(&(parent, _)) = self.path.last() {
            self.lower(parent, self.low[vertex as usize]);
        }
        if self.low[vertex as usize] == self.found[vertex as usize] {
            self.close(vertex);
        }
    }

    /// Takes a whole component, the one of `root`, off the stack.
    fn close(&mut self, root: u32) {
        let start = self.component.iter().rposition(|&vertex| vertex == root).unwrap_or(0);
        let members = &self.component[start..];
        if members.len() > 1 || self.graph.targets(root).contains(&root) {
            let least = members.iter().min().copied();
            self.on_cycle = self.on_cycle.into_iter().chain(least).min();
        }
        for &vertex in members {
            self.open[vertex as usize] = false;
        }
        self.order.extend_from_slice(members);
        self.component.truncate(start);
    }
}

#[cfg(test)]
mod tests {
    use super::*;

    fn graph(edges: &[&[u32]]) -> Graph {
        let mut graph = Graph::with_capacity(edges.len());
        for targets in edges {
            graph.vertex(targets.iter().copied());
        }
        graph
    }

    #[test]
    fn a_vertex_that_only_leads_to_a_cycle_is_not_on_it() {
        assert_eq!(graph(&[&[1], &[2], &[1]]).order(), Err(1));
        assert_eq!(graph(&[&[1], &[1]]).order(), Err(1));
        assert_eq!(graph(&[&[3], &[3], &[2], &[]]).order(), Err(2));
    }

    #[test]
    fn targets_come_first() {
        assert_eq!(graph(&[&[1, 2], &[3], &[3], &[]]).order(), Ok(vec![3, 1, 2, 0]));
    }

    #[test]
    fn a_long_chain_needs_no_recursion() {
        let mut chain = Graph::with_capacity(100_000);
        for vertex in 0..99_999 {
            chain.vertex(std::iter::once(vertex + 1));
        }
        chain.vertex(std::iter::empty());
        assert_eq!(chain.order().map(|order| order[0]), Ok(99_999));
    }
}
