//! The proved orders and marks on small random graphs, against all paths; and on graphs that are none.

use compare::random::Rng;
use proved::{components, order, reachable, Sorted};

const GRAPHS: u64 = 20_000;
/// What columns and scratch hold before a call.
const BEFORE: u32 = 0xdead_beef;

/// Vertices with their arcs grouped by source.
#[derive(Debug)]
struct Graph {
    first: Vec<u32>,
    to: Vec<u32>,
}

impl Graph {
    /// Mostly with few arcs, so that about half of the graphs have a cycle; some begin with arcs that belong to no vertex.
    fn random(rng: &mut Rng) -> Self {
        let vertices = rng.below(12);
        let mut to: Vec<u32> = (0..rng.below(2)).map(|_| u32::MAX).collect();
        let mut first = vec![to.len() as u32];
        let most = 1 + rng.below(4);
        for vertex in 0..vertices {
            let downward = rng.below(3) != 0;
            let targets = if downward { vertex } else { vertices };
            (0..rng.below(most) * usize::from(targets > 0)).for_each(|_| to.push(rng.below(targets) as u32));
            first.push(to.len() as u32);
        }
        (0..rng.below(2)).for_each(|_| to.push(u32::MAX));
        Graph { first, to }
    }

    fn vertices(&self) -> usize {
        self.first.len() - 1
    }

    fn targets(&self, vertex: usize) -> &[u32] {
        &self.to[self.first[vertex] as usize..self.first[vertex + 1] as usize]
    }

    /// For each vertex which are reached over one or more arcs (Warshall).
    fn reached(&self) -> Vec<Vec<bool>> {
        let vertices = self.vertices();
        let arcs = |v| (0..vertices).map(|w| self.targets(v).contains(&(w as u32))).collect::<Vec<_>>();
        let mut reached: Vec<Vec<bool>> = (0..vertices).map(arcs).collect();
        for by in 0..vertices {
            for from in 0..vertices {
                for to in 0..vertices {
                    reached[from][to] |= reached[from][by] && reached[by][to];
                }
            }
        }
        reached
    }
}

/// The answer, and what stands in a column of so many entries; the scratch is what so many vertices need, and more.
fn ordered(graph: &Graph, lent: usize, scratch: usize) -> (Sorted, Vec<u32>) {
    let mut column = vec![BEFORE; lent];
    let mut room = vec![BEFORE; 6 * scratch];
    let sorted = order(&graph.first, &graph.to, &mut column, &mut room);
    if matches!(sorted, Sorted::Malformed | Sorted::Short) {
        assert!(room.iter().all(|&entry| entry == BEFORE), "{graph:?}");
    } else {
        let used = 6 * graph.vertices();
        assert!(room[..used].iter().all(|&entry| entry == 0), "{graph:?}");
        assert!(room[used..].iter().all(|&entry| entry == BEFORE), "{graph:?}");
    }
    (sorted, column)
}

#[test]
fn vertices_stand_after_what_they_need_or_the_smallest_on_a_cycle_is_given() {
    let mut cyclic = 0;
    for seed in 0..GRAPHS {
        let graph = Graph::random(&mut Rng::new(seed));
        let (vertices, reached) = (graph.vertices(), graph.reached());
        let (sorted, column) = ordered(&graph, vertices + 1, vertices + 1);
        match (0..vertices).find(|&vertex| reached[vertex][vertex]) {
            Some(vertex) => {
                assert_eq!(sorted, Sorted::Cyclic(vertex), "{graph:?}");
                assert!(column.iter().all(|&entry| entry == BEFORE), "{graph:?}");
                cyclic += 1;
            }
            None => {
                assert_eq!(sorted, Sorted::Acyclic, "{graph:?}");
                assert_eq!(column[vertices], BEFORE);
                for (at, &vertex) in column[..vertices].iter().enumerate() {
                    let before = &column[..at];
                    assert!(graph.targets(vertex as usize).iter().all(|target| before.contains(target)), "{graph:?}");
                    assert!(!before.contains(&vertex), "{graph:?}");
                }
            }
        }
        if vertices > 0 {
            assert_eq!(ordered(&graph, vertices - 1, vertices).0, Sorted::Short);
            assert_eq!(ordered(&graph, vertices, vertices - 1).0, Sorted::Short);
        }
    }
    assert!((GRAPHS / 5..GRAPHS / 5 * 4).contains(&cyclic), "{cyclic} graphs with a cycle");
}

#[test]
fn vertices_that_reach_each_other_have_one_group() {
    for seed in 0..GRAPHS {
        let graph = Graph::random(&mut Rng::new(seed));
        let (vertices, reached) = (graph.vertices(), graph.reached());
        let (mut group, mut scratch) = (vec![BEFORE; vertices + 1], vec![BEFORE; 6 * vertices + 1]);
        assert!(components(&graph.first, &graph.to, &mut group, &mut scratch));
        assert_eq!((group.pop(), scratch.pop()), (Some(BEFORE), Some(BEFORE)));
        assert!(scratch.iter().all(|&entry| entry == 0), "{graph:?}");
        for v in 0..vertices {
            for w in 0..vertices {
                let mutual = v == w || (reached[v][w] && reached[w][v]);
                assert_eq!(group[v] == group[w], mutual, "{v} and {w} of {graph:?}");
                assert!(!reached[v][w] || group[w] <= group[v], "{v} to {w} of {graph:?}");
            }
        }
        if vertices > 0 {
            assert!(!components(&graph.first, &graph.to, &mut group[1..], &mut scratch));
            assert!(!components(&graph.first, &graph.to, &mut group, &mut scratch[1..]));
        }
    }
}

#[test]
fn what_a_vertex_reaches_is_marked() {
    for seed in 0..GRAPHS {
        let graph = Graph::random(&mut Rng::new(seed));
        let vertices = graph.vertices();
        for (from, reached) in graph.reached().into_iter().enumerate() {
            let (mut mark, mut queue) = (vec![BEFORE; vertices + 1], vec![BEFORE; vertices + 1]);
            assert!(reachable(&graph.first, &graph.to, from, &mut mark, &mut queue));
            assert_eq!((mark.pop(), queue.pop()), (Some(BEFORE), Some(BEFORE)));
            assert!(queue.iter().all(|&entry| entry == 0), "{from} of {graph:?}");
            assert_eq!(mark, reached.into_iter().map(u32::from).collect::<Vec<_>>(), "{from} of {graph:?}");
            mark.fill(BEFORE);
            queue.fill(BEFORE);
            assert!(!reachable(&graph.first, &graph.to, vertices, &mut mark, &mut queue));
            assert!(!reachable(&graph.first, &graph.to, from, &mut mark[1..], &mut queue));
            assert!(mark.iter().chain(&queue).all(|&entry| entry == BEFORE));
        }
    }
}

#[test]
fn columns_that_are_no_graph_are_refused() {
    let malformed: [(&[u32], &[u32]); 6] =
        [(&[], &[]), (&[0, 1, 0], &[0]), (&[0, 2], &[0]), (&[0, 1], &[1]), (&[1, 0], &[0]), (&[0, u32::MAX], &[0])];
    for (first, to) in malformed {
        let graph = Graph { first: first.to_vec(), to: to.to_vec() };
        let (sorted, column) = ordered(&graph, 4, 4);
        assert_eq!(sorted, Sorted::Malformed, "{graph:?}");
        assert!(column.iter().all(|&entry| entry == BEFORE), "{graph:?}");
        let (mut mark, mut queue) = ([BEFORE; 4], [BEFORE; 4]);
        assert!(!reachable(first, to, 0, &mut mark, &mut queue), "{graph:?}");
        assert_eq!((mark, queue), ([BEFORE; 4], [BEFORE; 4]));
    }
}

/// The vertices that one of them reaches, where all paths are too many.
fn reached_from(graph: &Graph, from: usize) -> Vec<u32> {
    let (mut marks, mut open) = (vec![0; graph.vertices()], graph.targets(from).to_vec());
    while let Some(vertex) = open.pop() {
        if std::mem::replace(&mut marks[vertex as usize], 1) == 0 {
            open.extend(graph.targets(vertex as usize));
        }
    }
    marks
}

/// Where each vertex leads, and more arcs; the smallest vertex on a cycle is the given one.
fn hold_large(vertices: usize, next: impl Fn(usize) -> Option<usize>, more: &[(usize, usize)], least: Option<usize>) {
    let (mut first, mut to) = (vec![0], Vec::new());
    for vertex in 0..vertices {
        to.extend(next(vertex).map(|target| target as u32));
        to.extend(more.iter().filter(|(from, _)| *from == vertex).map(|(_, target)| *target as u32));
        first.push(to.len() as u32);
    }
    let graph = Graph { first, to };
    let (sorted, column) = ordered(&graph, vertices, vertices);
    match least {
        Some(vertex) => {
            assert_eq!(sorted, Sorted::Cyclic(vertex), "{more:?}");
            assert_eq!(reached_from(&graph, vertex)[vertex], 1, "{more:?}");
        }
        None => {
            assert_eq!(sorted, Sorted::Acyclic, "{more:?}");
            let mut place = vec![vertices; vertices];
            column.iter().zip(0..).for_each(|(&vertex, at)| place[vertex as usize] = at);
            let before = |from: usize| graph.targets(from).iter().all(|&target| place[target as usize] < place[from]);
            assert!(place.iter().all(|&at| at < vertices) && (0..vertices).all(before), "{more:?}");
        }
    }
    for from in [0, 5, vertices / 3, vertices - 1] {
        let (mut mark, mut queue) = (vec![BEFORE; vertices], vec![BEFORE; vertices]);
        assert!(reachable(&graph.first, &graph.to, from, &mut mark, &mut queue));
        assert!(mark == reached_from(&graph, from), "from {from}, {more:?}");
    }
}

/// A chain; a cycle at its end; one in its middle; an arc from a vertex to itself; two cycles with a way between them over
/// a smaller vertex that lies on none.
#[test]
fn large_graphs_with_few_cycles() {
    const VERTICES: usize = 60_000;
    let down = |vertex: usize| (vertex + 1 < VERTICES).then_some(vertex + 1);
    hold_large(VERTICES, down, &[], None);
    hold_large(VERTICES, down, &[(59_999, 59_998)], Some(59_998));
    hold_large(VERTICES, down, &[(30_001, 30_000)], Some(30_000));
    hold_large(VERTICES, down, &[(45_000, 45_000)], Some(45_000));
    let up = |vertex: usize| (vertex > 20_000).then(|| vertex - 1);
    let between = [(20_000, 20_001), (5, 20_000), (50_000, 50_001), (50_001, 5)];
    hold_large(VERTICES, up, &between, Some(20_000));
}

/// A chain of the most vertices, a ring of them, and one more than that.
#[test]
fn large_graphs() {
    let chain = |vertices: u32, last: &[u32]| Graph {
        first: (0..vertices).chain([vertices - 1 + last.len() as u32]).collect(),
        to: (1..vertices).chain(last.iter().copied()).collect(),
    };
    let (sorted, column) = ordered(&chain(65_536, &[]), 65_536, 65_536);
    assert_eq!(sorted, Sorted::Acyclic);
    assert!(column.into_iter().eq((0..65_536).rev()));
    assert_eq!(ordered(&chain(65_536, &[7]), 65_536, 65_536).0, Sorted::Cyclic(7));
    assert_eq!(ordered(&chain(65_537, &[]), 65_537, 65_537).0, Sorted::Malformed);
}
