//! The branch of openings, carried beside `fmt_graph`'s stack.
//!
//! `fmt_graph` pushes entries only while it handles the entry that it popped last. So a stack of
//! the same height can hold, for each entry, the newest opening above it: whatever has been
//! pushed since the last pop lies below the entry popped then, or below the package that it
//! opened. The original's flow is not touched but for leaving it at refusal 11.

use std::cell::{Cell, RefCell};
use std::fmt;

use crate::Edition;

/// What the watch has to know of a node: the number of its solvable, and whether it is merged.
#[derive(Clone, Copy, Default)]
pub struct Package {
    pub number: u16,
    pub merged: bool,
}

#[derive(Clone, Copy)]
struct Opening {
    node: usize,
    merged: bool,
    above: usize,
    depth: u64,
}

/// Stands above every branch: no opening, depth 0.
const TOP: Opening = Opening {
    node: usize::MAX,
    merged: true,
    above: 0,
    depth: 0,
};

#[derive(Default)]
pub struct Watch {
    state: RefCell<State>,
    /// The number of the solvable that came to be opened below itself.
    repeated: Cell<Option<u16>>,
}

#[derive(Default)]
struct State {
    packages: Vec<Package>,
    edition: Edition,
    refuses: bool,
    openings: Vec<Opening>,
    /// For each entry of the stack, the newest opening above it.
    branches: Vec<usize>,
    /// The newest opening on the branch of the entry popped last, its own included.
    current: usize,
    depth: u64,
    /// How many openings were written, on all branches together.
    opened: u64,
}

impl Watch {
    /// Begins a text. With `refuses` off the rules run on past a repeated package.
    pub fn start(&self, packages: Vec<Package>, edition: Edition, refuses: bool) {
        self.repeated.set(None);
        self.state.replace(State {
            packages,
            edition,
            refuses,
            openings: vec![TOP],
            ..State::default()
        });
    }

    pub fn pop<T>(&self, stack: &mut Vec<T>) -> Option<T> {
        let state = &mut *self.state.borrow_mut();
        // The line of an opening is written once the next entry is asked for.
        state.depth = state.depth.max(state.openings[state.current].depth);
        state.opened = state.openings.len() as u64 - 1;
        state.branches.resize(stack.len(), state.current);
        state.current = state.branches.pop().unwrap_or(0);
        stack.pop()
    }

    /// Called before the "would require" line of `node`: "11 is tested before the repeated
    /// package's line".
    pub fn opening(&self, node: usize) -> fmt::Result {
        let state = &mut *self.state.borrow_mut();
        let package = state.packages[node];
        if state.refuses && !package.merged && state.is_below_itself(node) {
            self.repeated.set(Some(package.number));
            return Err(fmt::Error);
        }
        state.openings.push(Opening {
            node,
            merged: package.merged,
            above: state.current,
            depth: state.openings[state.current].depth + 1,
        });
        state.current = state.openings.len() - 1;
        Ok(())
    }

    /// Whether a package in no group is reported when it is shown, as a merged one is.
    pub fn reports_unmerged(&self) -> bool {
        self.state.borrow().edition == Edition::Two
    }

    pub fn repeated(&self) -> Option<u16> {
        self.repeated.get()
    }

    pub fn depth(&self) -> u64 {
        self.state.borrow().depth
    }

    pub fn opened(&self) -> u64 {
        self.state.borrow().opened
    }
}

impl State {
    /// Whether `node` is on the current branch with only unmerged packages between.
    fn is_below_itself(&self, node: usize) -> bool {
        let mut at = self.current;
        while !self.openings[at].merged {
            if self.openings[at].node == node {
                return true;
            }
            at = self.openings[at].above;
        }
        false
    }
}
