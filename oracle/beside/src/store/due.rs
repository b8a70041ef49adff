//! What calls are to answer: the Rust's own answers, with the sender and the place, which it does not tell, as the model has them.
use super::answers::Answer;
use super::calls::{Call, Side};
use super::model::Model;
use super::original::Original;

#[derive(Default)]
pub struct Due {
    original: Original,
    model: Model,
}

impl Side for Due {
    fn answer(&mut self, call: &Call) -> Answer {
        self.original.answer(call).of(self.model.answer(call).whose())
    }
}
