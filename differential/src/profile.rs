//! The rules for the battery head: no aggregate, at most 16 nodes, intervals from 0 to one day.

use crate::model::Refusal;
use crate::random::Random;
use crate::tape::{self, Node};
use crate::trees::{Ground, Trees};

pub const MOST_NODES: usize = 16;
const ONE_DAY: i128 = 24 * 60 * 60;

/// The first broken rule in entry order; for one entry the lowest number.
pub fn profile(condition: &Node) -> Result<(), Refusal> {
    keeps(condition, None, &mut 0)
}

/// `around` is the nearest condition around the entry.
fn keeps(node: &Node, around: Option<&Node>, nodes: &mut usize) -> Result<(), Refusal> {
    let broken = |number, span, cause| Err(Refusal { number, span, message: String::new(), cause });
    *nodes += usize::from(tape::is_node(node.code));
    if node.code == 30 {
        return broken(53, 0, (30, node.children[0].code));
    }
    if tape::is_node(node.code) && *nodes > MOST_NODES {
        return broken(54, 0, (node.code, 0));
    }
    if let (Some(seconds), Some(condition)) = (tape::seconds(node), around)
        && !(0..=ONE_DAY).contains(&seconds)
    {
        return broken(55, condition.value, (node.code, condition.code));
    }
    let around = if matches!(node.code, 1..=13) { Some(node) } else { around };
    node.children.iter().try_for_each(|child| keeps(child, around, nodes))
}

/// What a refusal, or a pass, says of the tree as a whole.
pub fn is_so(number: u64, tree: &Node) -> bool {
    let (mut aggregates, mut outside) = (0, 0);
    tree.visit(&mut |node| {
        aggregates += usize::from(node.code == 30);
        outside += usize::from(tape::seconds(node).is_some_and(|s| !(0..=ONE_DAY).contains(&s)));
    });
    let many = tape::size(tree) > MOST_NODES as u64;
    match number {
        53 => aggregates > 0,
        54 => many,
        55 => outside > 0,
        _ => aggregates == 0 && !many && outside == 0,
    }
}

// ------------------------------------------------------------------ conditions around the rules

/// An interval whose length is around 0 or one day, or anything.
pub fn interval(random: &mut Random) -> Node {
    let (code, day) = *random.pick(&[(48, 86_400), (49, 1_440), (50, 24), (51, 1), (64, 0)]);
    let inside = if day == 0 { 0 } else { random.below(day as usize + 1) as i64 };
    let amount = match random.weighted(&[62, 12, 12, 5, 4, 5]) {
        0 => inside,
        1 => 0,
        2 => day,
        3 => day + 1,
        4 => -1,
        _ => *random.pick(&[i64::MIN, i64::MAX, i64::MAX / 60 + 1, i64::MAX / 86_400 + 1, -day, 604_800]),
    };
    Node::new(code, amount as u64, vec![])
}

/// A condition for the profile check: any, or one whose last node comes around the seventeenth place.
pub fn condition(g: &mut Trees, depth: usize) -> Node {
    g.fuel = g.random.size(20);
    let any = g.condition(Ground::Hidden, depth);
    let nodes = tape::size(&any) as usize;
    match g.random.weighted(&[40, 30, 15, 15]) {
        0 => any,
        1 => negated(any, g.random.within(15, 18).saturating_sub(nodes)),
        // What comes last is the right side of a conjunction.
        2 => {
            let aggregate = Node::new(35, 0, vec![Node::counted(41, 2, vec![]), tp()]);
            let sides = vec![Node::new(53, 4, vec![]), Node::new(30, 0, vec![aggregate]), Node::new(28, 0, vec![])];
            behind(g, any, Node::new(8, tape::span(4, 5), sides))
        }
        _ => {
            let within = interval(g.random);
            behind(g, any, Node::new(4, tape::span(4, 5), vec![within, tp()]))
        }
    }
}

fn tp() -> Node {
    Node::new(10, tape::span(5, 6), vec![Node::with_text(43, b"t")])
}

fn negated(condition: Node, times: usize) -> Node {
    (0..times).fold(condition, |c, _| Node::new(3, 0, vec![c]))
}

/// A conjunction whose right side begins at about the sixteenth node.
fn behind(g: &mut Trees, left: Node, right: Node) -> Node {
    let nodes = tape::size(&left) as usize + 1;
    let left = negated(left, g.random.within(14, 17).saturating_sub(nodes));
    Node::new(1, tape::span(2, 3), vec![left, right])
}
