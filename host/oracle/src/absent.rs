//! The calls where conflict.rs could not be had: they are there, so that callers build, and must
//! not be called. Ask [`AVAILABLE`](crate::AVAILABLE) first.

use std::marker::PhantomData;

use crate::wall::Chart;
use crate::{Answer, Edge, Edition, Node, Refusal, Rules};

fn absent() -> ! {
    panic!("conflict.rs could not be had at build time: ask oracle::AVAILABLE before a call")
}

pub struct Problem<'a>(PhantomData<&'a [u8]>);

pub struct Model<'p, 'a>(PhantomData<&'p Problem<'a>>);

impl<'a> Problem<'a> {
    pub fn read(_: &'a [u8]) -> Result<Problem<'a>, Refusal> {
        absent()
    }

    pub fn model(&self) -> Result<Model<'_, 'a>, Refusal> {
        absent()
    }

    pub fn check(&self) -> Result<(), Refusal> {
        absent()
    }

    pub fn core(&self) -> Vec<u16> {
        absent()
    }

    pub fn edges(&self) -> Result<Vec<Edge>, Refusal> {
        absent()
    }

    pub fn longer(self, _: u16, _: u16) -> Problem<'a> {
        absent()
    }

    pub fn counts(&self) -> (usize, usize, usize) {
        absent()
    }

    pub fn adapted(&self) -> Result<Result<Vec<u8>, urzulempa_adapter::Error>, Refusal> {
        absent()
    }

    pub fn chart(&self) -> Result<Chart, Refusal> {
        absent()
    }
}

impl Model<'_, '_> {
    pub fn excluding(self, _: u64, _: u64) -> Result<Self, Refusal> {
        absent()
    }

    pub fn edges(&self) -> Vec<Edge> {
        absent()
    }

    pub fn by_number(&self, _: &mut [u8], _: u64) -> Answer {
        absent()
    }

    pub fn explain(&self, _: bool, _: &mut [u8]) -> Answer {
        absent()
    }

    pub fn explain_edition(&self, _: Edition, _: bool, _: &mut [u8]) -> Answer {
        absent()
    }

    pub fn graphviz(&self, _: bool, _: &mut [u8]) -> Answer {
        absent()
    }

    pub fn air(&self) -> Result<(), Refusal> {
        absent()
    }

    pub fn lowest_on_cycle(&self) -> Option<usize> {
        absent()
    }

    pub fn rules(&self, _: bool, _: &mut [u8], _: u64) -> Rules {
        absent()
    }

    pub fn rules_edition(&self, _: Edition, _: bool, _: &mut [u8], _: u64) -> Rules {
        absent()
    }

    pub fn nodes(&self) -> Vec<Node> {
        absent()
    }

    pub fn edge_count(&self) -> usize {
        absent()
    }

    pub fn group_count(&self) -> usize {
        absent()
    }

    pub fn ends(&self) -> Vec<(usize, usize, Option<u16>)> {
        absent()
    }

    pub fn depth_bound(&self) -> u64 {
        absent()
    }

    pub fn openings_bound(&self) -> u64 {
        absent()
    }
}

pub fn explain(_: &[u8], _: u64, _: &mut [u8]) -> Answer {
    absent()
}

pub fn explain_plain(_: &[u8], _: &mut [u8]) -> Answer {
    absent()
}

pub fn explain_edition(_: &[u8], _: u64, _: u64, _: &mut [u8]) -> Answer {
    absent()
}

pub fn explain_air(_: &[u8], _: u64, _: &mut [u8]) -> Answer {
    absent()
}

pub fn graphviz(_: &[u8], _: u64, _: &mut [u8]) -> Answer {
    absent()
}

pub fn check(_: &[u8]) -> Answer {
    absent()
}

pub fn nodes(_: &[u8], _: &mut [Node]) -> Answer {
    absent()
}

pub fn what_if(_: &[u8], _: u64, _: u64, _: &mut [Node]) -> Answer {
    absent()
}

pub fn what_if_explain(_: &[u8], _: u64, _: u64, _: u64, _: &mut [u8]) -> Answer {
    absent()
}

pub fn edges(_: &[u8], _: &mut [u16]) -> Answer {
    absent()
}

pub fn adapted(_: &[u8]) -> Result<Result<Vec<u8>, urzulempa_adapter::Error>, Refusal> {
    absent()
}

pub fn rules(_: &[u8], _: bool, _: &mut [u8], _: u64) -> Result<Rules, Refusal> {
    absent()
}
