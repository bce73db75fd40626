//! The collected cases and their answers.

use crate::built;
use crate::model::{self, Outcome};
use crate::request::Request;
use reference::Tariff;

/// Page of most cases: long enough for every answer.
pub const WHOLE_PAGE: u32 = 512;

/// The calls, by their codes in stdin.
#[derive(Clone, Copy, Debug, PartialEq, Eq)]
pub enum Operation {
    Examine = 0,
    Choose = 1,
    Built = 2,
    PriceChoose = 3,
    PriceExamine = 4,
}

impl Operation {
    /// What the call answers, by the reference.
    pub fn outcome(self, request: &[u8], page_length: u32) -> Outcome {
        let call: fn(&[u8], usize) -> Outcome = match self {
            Operation::Examine => model::examine,
            Operation::Choose => model::choose,
            Operation::Built => model::built,
            Operation::PriceChoose => model::price_choose,
            Operation::PriceExamine => model::price_examine,
        };
        call(request, page_length as usize)
    }
}

#[derive(Clone, Debug)]
pub struct Case {
    pub kind: &'static str,
    pub operation: Operation,
    pub page_length: u32,
    request: Vec<u8>,
}

impl Case {
    pub fn request_bytes(&self) -> &[u8] {
        &self.request
    }

    pub fn outcome(&self) -> Outcome {
        self.operation.outcome(&self.request, self.page_length)
    }
}

#[derive(Default)]
pub struct Collection {
    pub cases: Vec<Case>,
}

impl Collection {
    pub fn examine(&mut self, kind: &'static str, request: Request) {
        let bytes = request.examine_bytes();
        self.on_page(kind, Operation::Examine, &bytes, WHOLE_PAGE);
    }

    pub fn choose(&mut self, kind: &'static str, request: Request) {
        let bytes = request.choose_bytes();
        self.on_page(kind, Operation::Choose, &bytes, WHOLE_PAGE);
    }

    pub fn built(&mut self, kind: &'static str, asked: &built::Asked) {
        self.on_page(kind, Operation::Built, &asked.bytes(), WHOLE_PAGE);
    }

    pub fn price_choose(&mut self, kind: &'static str, plant: &Request, tariff: &Tariff) {
        let bytes = plant.price_choose_bytes(tariff);
        self.on_page(kind, Operation::PriceChoose, &bytes, WHOLE_PAGE);
    }

    pub fn price_examine(&mut self, kind: &'static str, plant: &Request, tariff: &Tariff) {
        let bytes = plant.price_examine_bytes(tariff);
        self.on_page(kind, Operation::PriceExamine, &bytes, WHOLE_PAGE);
    }

    /// Any bytes as the request, on a page of any length.
    pub fn on_page(
        &mut self,
        kind: &'static str,
        operation: Operation,
        request: &[u8],
        page_length: u32,
    ) {
        self.cases.push(Case {
            kind,
            operation,
            page_length,
            request: request.to_vec(),
        });
    }
}

/// Number of the answer when the request is examined or chosen for, on a
/// page that is long enough.
pub fn examined(request: &Request) -> u32 {
    model::examine(&request.examine_bytes(), WHOLE_PAGE as usize).number
}

pub fn chosen(request: &Request) -> u32 {
    model::choose(&request.choose_bytes(), WHOLE_PAGE as usize).number
}
