//! `coe_judge` beside the desk: each reply is judged by it too, and must come to the same.
use super::guarded::Guarded;
use crate::transfer::{Kind, Transfer};
use coe_desk::{judge, Answer, Expected, Judged, Refusal, SubIndex};

pub struct Beside {
    expected: Expected,
    data: Guarded,
}

impl Beside {
    pub fn new(transfer: &Transfer) -> Beside {
        let index = transfer.index;
        let sub_index = transfer.sub.map_or(SubIndex::Complete, SubIndex::Index);
        let expected = match transfer.kind {
            Kind::Read | Kind::ReadNumber(_) => Expected::Upload { index, sub_index },
            Kind::Write => Expected::Download { index, sub_index },
            Kind::List | Kind::Quantities => Expected::List { begun: false, earlier: 0 },
        };
        Beside { expected, data: Guarded::new(transfer.room) }
    }

    /// Judges the reply that the desk answered so, and left these data of.
    pub fn agrees(&mut self, reply: &[u8], desk: Result<Answer, Refusal>, desk_data: &[u8]) -> Result<(), String> {
        let judged = judge(self.expected, reply, self.data.lent());
        let answer = judged.map(|judged| self.go_on(judged));
        if desk == Err(Refusal::BudgetSpent) {
            // The judge knows no budget: it would go on, and has stored the chunk.
            return match answer {
                Ok(Answer::RequestDue | Answer::ReplyDue) => Ok(()),
                other => Err(format!("coe_judge says {other:?} where the desk's budget is spent")),
            };
        }
        if answer != desk {
            return Err(format!("coe_judge says {answer:?} and the desk {desk:?}"));
        }
        if self.data.inside("data buffer of coe_judge")? != desk_data {
            return Err("coe_judge and the desk store different bytes".into());
        }
        Ok(())
    }

    fn go_on(&mut self, judged: Judged) -> Answer {
        match (judged, self.expected) {
            (Judged::Done { length }, _) => Answer::Done { length },
            (Judged::RequestDue { chunk }, Expected::Segment { earlier }) => {
                self.expected = Expected::Segment { earlier: earlier + chunk as u32 };
                Answer::RequestDue
            }
            (Judged::RequestDue { .. }, _) => {
                self.expected = Expected::Segment { earlier: 0 };
                Answer::RequestDue
            }
            (Judged::ReplyDue { chunk, begun }, expected) => {
                let earlier = if let Expected::List { earlier, .. } = expected { earlier } else { 0 };
                self.expected = Expected::List { begun, earlier: earlier + chunk as u32 };
                Answer::ReplyDue
            }
        }
    }
}
