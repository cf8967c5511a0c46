//! Records on their way to becoming a stored job, lawful or not.

use crate::checker::stored::{
    Clause, Expression, Gate, Record, Side, Value, BLOCK, RECORDS_IN_BLOCK,
};

#[derive(Clone)]
pub struct Draft {
    pub k: u8,
    pub nodes: Vec<Record>,
    pub expressions: Vec<Record>,
    pub clauses: Vec<Record>,
}

impl Draft {
    pub fn lists(&self) -> [Vec<u8>; 3] {
        [
            self.nodes.concat(),
            self.expressions.concat(),
            self.clauses.concat(),
        ]
    }

    pub fn bytes(&self) -> Vec<u8> {
        let counts = [&self.nodes, &self.expressions, &self.clauses].map(|list| list.len() as u16);
        let header = record(1, self.k, counts);
        let mut bytes = Vec::new();
        for (kind, list) in [
            (1, &vec![header]),
            (2, &self.nodes),
            (3, &self.expressions),
            (4, &self.clauses),
        ] {
            for used in list.chunks(RECORDS_IN_BLOCK) {
                let number = (bytes.len() / BLOCK) as u16;
                bytes.extend(number.to_le_bytes());
                bytes.extend([kind, used.len() as u8]);
                bytes.extend(used.concat());
                bytes.resize(BLOCK * (usize::from(number) + 1), 0);
            }
        }
        mend(&mut bytes);
        bytes
    }
}

/// Makes the words of every whole block add up.
pub fn mend(bytes: &mut [u8]) {
    for block in bytes.chunks_exact_mut(BLOCK) {
        let mut check = u32::MAX;
        for word in block[..508].chunks(4) {
            check = check.wrapping_sub(u32::from_le_bytes([word[0], word[1], word[2], word[3]]));
        }
        block[508..].copy_from_slice(&check.to_le_bytes());
    }
}

fn record(first: u8, second: u8, numbers: [u16; 3]) -> Record {
    let [a, b, c] = numbers.map(u16::to_le_bytes);
    [first, second, a[0], a[1], b[0], b[1], c[0], c[1]]
}

pub fn gate_record(gate: &Gate) -> Record {
    let (code, operands) = match *gate {
        Gate::Input => (0, [0, 0, 0]),
        Gate::Zero => (1, [0, 0, 0]),
        Gate::One => (2, [0, 0, 0]),
        Gate::Buf(p) => (3, [p, 0, 0]),
        Gate::Not(p) => (4, [p, 0, 0]),
        Gate::And(p, q) => (5, [p, q, 0]),
        Gate::Or(p, q) => (6, [p, q, 0]),
        Gate::Xor(p, q) => (7, [p, q, 0]),
        Gate::Mux(p, q, r) => (8, [p, q, r]),
    };
    record(code, 0, operands.map(|operand| operand as u16))
}

pub fn expression_record(expression: &Expression) -> Record {
    let (op, operands) = match *expression {
        Expression::False => (0, [0, 0, 0]),
        Expression::True => (1, [0, 0, 0]),
        Expression::Variable(a) => (2, [a, 0, 0]),
        Expression::Not(a) => (3, [a, 0, 0]),
        Expression::And(a, b) => (4, [a, b, 0]),
        Expression::Or(a, b) => (5, [a, b, 0]),
        Expression::Xor(a, b) => (6, [a, b, 0]),
    };
    record(op, 0, operands.map(|operand| operand as u16))
}

pub fn clause_record(clause: &Clause) -> Record {
    let side = u8::from(clause.side == Side::Expectation);
    let value = u8::from(clause.value == Value::One);
    let numbers = [clause.node, clause.time, clause.guard];
    record(side, value, numbers.map(|number| number as u16))
}
