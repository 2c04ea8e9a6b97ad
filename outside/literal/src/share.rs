//! Whether two terms share an instance: unification on a shared graph, the
//! variables of the two sides kept apart, and no variable inside itself.

use crate::atom::{is_nonce, Atom};
#[cfg(test)]
use crate::slip::{self, Slip};
use crate::term::{Symbol, Term};

/// Whether some finite message is an instance of both terms. The variables of
/// the two are different variables, and so are those of two tags.
pub fn shares(atoms: &[Atom], left: &Term, right: &Term) -> bool {
    let united = united(atoms, left, right);
    #[cfg(test)]
    if slip::nonces::lacks_a_nonce(atoms) {
        return united.is_some_and(|(graph, _)| !graph.has_free_nonce());
    }
    united.is_some()
}

/// The two made one in a graph, and the node that both are then; none if they
/// share no instance.
fn united<'a>(atoms: &'a [Atom], left: &Term, right: &Term) -> Option<(Graph<'a>, usize)> {
    let mut graph = Graph {
        atoms,
        nodes: Vec::new(),
        variables: Vec::new(),
    };
    let l = graph.add(Side::Left, left);
    let r = graph.add(Side::Right, right);
    (graph.unite(l, r) && graph.is_finite(l)).then_some((graph, l))
}

/// What stands in an example where the two terms leave it open.
#[derive(Clone, Copy, Debug)]
pub struct Filling<'a> {
    /// For variables that may be any message.
    pub message: &'a Term,
    /// For those that must be one nonce.
    pub nonce: &'a Term,
}

/// A message that is an instance of both terms, with the filling for what they
/// leave open; none if they share no instance, or if it has more than `most`
/// symbols.
pub fn common_instance(
    atoms: &[Atom],
    left: &Term,
    right: &Term,
    filling: Filling,
    most: usize,
) -> Option<Term> {
    let (graph, root) = united(atoms, left, right)?;
    let mut left_over = most;
    graph.message(root, filling, &mut left_over)
}

#[derive(Clone, Copy, PartialEq, Eq)]
enum Side {
    Left,
    Right,
}

struct Node {
    symbol: Symbol,
    /// As many as the symbol has parts, at most two.
    children: Children,
    /// The node itself, or another one that it was united with.
    leader: usize,
}

type Children = [Option<usize>; 2];

#[derive(Clone, Copy, PartialEq, Eq)]
enum Seen {
    Not,
    Below,
    Done,
}

/// One node for each variable of a side, one for each other place.
struct Graph<'a> {
    atoms: &'a [Atom],
    nodes: Vec<Node>,
    variables: Vec<(Side, Term, usize)>,
}

impl Graph<'_> {
    fn add(&mut self, side: Side, term: &Term) -> usize {
        if term.is_variable() {
            return self.variable(side, term, term.symbol());
        }
        let mut parts = term.parts().map(|part| self.add(side, part));
        let children = [parts.next(), parts.next()];
        self.node(term.symbol(), children)
    }

    fn variable(&mut self, side: Side, term: &Term, symbol: Symbol) -> usize {
        #[cfg(test)]
        let term = &slip::nonces::variable_read(term);
        #[cfg(test)]
        let side = if slip::is(Slip::VariablesNotApart) {
            Side::Left
        } else {
            side
        };
        let known = self.variables.iter().find(|v| v.0 == side && v.1 == *term);
        if let Some((_, _, node)) = known {
            return *node;
        }
        let node = self.node(symbol, [None, None]);
        self.variables.push((side, term.clone(), node));
        node
    }

    fn node(&mut self, symbol: Symbol, children: Children) -> usize {
        let number = self.nodes.len();
        self.nodes.push(Node {
            symbol,
            children,
            leader: number,
        });
        number
    }

    /// The node that stands for all that `node` was united with. If any of
    /// those is no variable, it is none either; if any is a nonce variable, it
    /// is a nonce variable or a nonce.
    fn leader(&self, node: usize) -> usize {
        let mut at = node;
        while self.nodes[at].leader != at {
            at = self.nodes[at].leader;
        }
        at
    }

    /// Makes the two equal, and with them their children; false at a clash.
    fn unite(&mut self, one: usize, other: usize) -> bool {
        let one = self.leader(one);
        let other = self.leader(other);
        if one == other {
            return true;
        }
        let (mine, theirs) = (self.nodes[one].symbol, self.nodes[other].symbol);
        if self.follows(mine, theirs) {
            self.nodes[one].leader = other;
            return true;
        }
        if self.follows(theirs, mine) {
            self.nodes[other].leader = one;
            return true;
        }
        #[cfg(test)]
        if slip::nonces::clash_otherwise(mine, theirs) {
            return false;
        }
        #[cfg(test)]
        let theirs = match slip::hashes::is_shared_otherwise(mine, theirs) {
            true => mine,
            false => theirs,
        };
        if mine != theirs {
            return false;
        }
        self.nodes[one].leader = other;
        #[cfg(test)]
        if slip::hashes::ends_sharing(mine) {
            return true;
        }
        let mine = self.nodes[one].children.into_iter().flatten();
        let theirs = self.nodes[other].children.into_iter().flatten();
        mine.zip(theirs).all(|(a, b)| self.unite(a, b))
    }

    /// Whether the first is a variable that takes what the second stands for: a
    /// variable anything, a nonce variable one nonce.
    fn follows(&self, variable: Symbol, other: Symbol) -> bool {
        #[cfg(test)]
        if let Some(answer) = slip::nonces::follows_otherwise(self.atoms, variable, other) {
            return answer;
        }
        match (variable, other) {
            (Symbol::Variable, _) => true,
            (Symbol::NonceVariable, Symbol::NonceVariable) => true,
            (Symbol::NonceVariable, Symbol::Atom(number)) => is_nonce(self.atoms, number),
            _ => false,
        }
    }

    /// Whether some nonce variable was united with variables only.
    #[cfg(test)]
    fn has_free_nonce(&self) -> bool {
        let leaders = (0..self.nodes.len()).map(|node| self.leader(node));
        leaders
            .into_iter()
            .any(|node| self.nodes[node].symbol == Symbol::NonceVariable)
    }

    /// Whether no node below `node` contains itself.
    fn is_finite(&self, node: usize) -> bool {
        #[cfg(test)]
        if slip::is(Slip::VariableInItself) {
            return true;
        }
        let mut seen = vec![Seen::Not; self.nodes.len()];
        self.finite_below(node, &mut seen)
    }

    fn finite_below(&self, node: usize, seen: &mut Vec<Seen>) -> bool {
        let node = self.leader(node);
        match seen[node] {
            Seen::Done => return true,
            Seen::Below => return false,
            Seen::Not => {}
        }
        #[cfg(test)]
        if slip::hashes::ends_the_search_for_itself(self.nodes[node].symbol) {
            return true;
        }
        seen[node] = Seen::Below;
        let mut children = self.nodes[node].children.into_iter().flatten();
        let finite = children.all(|child| self.finite_below(child, seen));
        seen[node] = Seen::Done;
        finite
    }

    /// The message that a finite node stands for, of at most so many symbols.
    fn message(&self, node: usize, filling: Filling, left_over: &mut usize) -> Option<Term> {
        let node = &self.nodes[self.leader(node)];
        let root = match node.symbol {
            Symbol::Variable => filling.message.clone(),
            Symbol::NonceVariable => filling.nonce.clone(),
            _ => {
                *left_over = left_over.checked_sub(1)?;
                return self.composed(node, filling, left_over);
            }
        };
        *left_over = left_over.checked_sub(root.size())?;
        Some(root)
    }

    /// The message of a node that is no variable.
    fn composed(&self, node: &Node, filling: Filling, left_over: &mut usize) -> Option<Term> {
        let mut children = node.children.into_iter().flatten();
        let mut part = || self.message(children.next()?, filling, left_over);
        Some(match node.symbol {
            Symbol::Pair => Term::pair(part()?, part()?),
            Symbol::Encryption(key) => Term::encryption(part()?, key),
            Symbol::Hash => Term::hash(part()?),
            Symbol::Signature(key) => Term::signature(part()?, key),
            Symbol::Atom(number) => Term::Atom(number),
            Symbol::Variable | Symbol::NonceVariable => return None,
        })
    }
}
