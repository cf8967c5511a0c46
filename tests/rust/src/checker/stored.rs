//! Stored jobs: reading with its refusals in order, unpacking and packing.

pub const BLOCK: usize = 512;
pub const MOST_BYTES: usize = 16_896;
pub const RECORD: usize = 8;
pub const RECORDS_IN_BLOCK: usize = 63;
pub const CHECK_SUM: u32 = 4_294_967_295;

pub const MOST_VARIABLES: u64 = 12;
pub const MOST_NODES: usize = 1_008;
pub const MOST_EXPRESSIONS: usize = 504;
pub const MOST_CLAUSES: usize = 504;
pub const MOST_TIME: usize = 255;

pub type Record = [u8; RECORD];

#[derive(Clone, Copy, Debug, PartialEq, Eq)]
pub struct Refusal {
    pub number: u32,
    pub block: u32,
    pub record: u32,
}

/// A refusal that names no place.
pub fn refusal(number: u32) -> Refusal {
    refusal_at(number, 0, 0)
}

fn refusal_at(number: u32, block: usize, record: usize) -> Refusal {
    Refusal {
        number,
        block: block as u32,
        record: record as u32,
    }
}

#[derive(Clone, Copy, Debug, PartialEq, Eq)]
pub enum Value {
    Zero,
    One,
    X,
}

/// A node's gate with the nodes that it takes.
#[derive(Clone, Copy, Debug, PartialEq, Eq)]
pub enum Gate {
    Input,
    Zero,
    One,
    Buf(usize),
    Not(usize),
    And(usize, usize),
    Or(usize, usize),
    Xor(usize, usize),
    Mux(usize, usize, usize),
}

#[derive(Clone, Copy, Debug, PartialEq, Eq)]
pub enum Expression {
    False,
    True,
    Variable(usize),
    Not(usize),
    And(usize, usize),
    Or(usize, usize),
    Xor(usize, usize),
}

#[derive(Clone, Copy, Debug, PartialEq, Eq)]
pub enum Side {
    Stimulus,
    Expectation,
}

#[derive(Clone, Copy, Debug, PartialEq, Eq)]
pub struct Clause {
    pub side: Side,
    pub value: Value,
    pub node: usize,
    pub time: usize,
    pub guard: usize,
}

#[derive(Clone, Debug, PartialEq, Eq)]
pub struct Job {
    pub k: usize,
    pub gates: Vec<Gate>,
    pub expressions: Vec<Expression>,
    pub clauses: Vec<Clause>,
}

/// The records as they stand in the blocks, not yet known to be good.
pub struct Records {
    pub k: u64,
    pub nodes: Vec<Record>,
    pub expressions: Vec<Record>,
    pub clauses: Vec<Record>,
}

/// Block 0's record, as it stands there.
#[derive(Clone, Copy, Debug, PartialEq, Eq)]
pub struct Header {
    pub edition: u8,
    pub k: u64,
    pub n: usize,
    pub e: usize,
    pub c: usize,
}

pub type Step = fn(&[u8]) -> Option<Refusal>;

/// The refusals of reading in their order. Each relies only on those before it.
pub const STEPS: [Step; 10] = [
    wrong_length,
    wrong_check,
    wrong_number,
    wrong_header,
    wrong_count,
    wrong_block,
    wrong_rest,
    wrong_gate,
    wrong_expression,
    wrong_clause,
];

pub fn read(bytes: &[u8]) -> Result<Job, Refusal> {
    match STEPS.iter().find_map(|step| step(bytes)) {
        Some(refusal) => Err(refusal),
        None => Ok(job_of(&records_of(bytes))),
    }
}

fn u16_at(bytes: &[u8], at: usize) -> usize {
    u16::from_le_bytes([bytes[at], bytes[at + 1]]) as usize
}

fn blocks_for(count: usize) -> usize {
    count.div_ceil(RECORDS_IN_BLOCK)
}

pub fn header_of(bytes: &[u8]) -> Header {
    Header {
        edition: bytes[4],
        k: u64::from(bytes[5]),
        n: u16_at(bytes, 6),
        e: u16_at(bytes, 8),
        c: u16_at(bytes, 10),
    }
}

fn blocks_of(header: &Header) -> usize {
    1 + blocks_for(header.n) + blocks_for(header.e) + blocks_for(header.c)
}

/// The kind and the used count that the header demands of each block, in the blocks' order.
fn demanded_blocks(header: &Header) -> Vec<(u8, usize)> {
    let mut demanded = vec![(1, 1)];
    for (kind, count) in [(2, header.n), (3, header.e), (4, header.c)] {
        let mut left = count;
        while left > 0 {
            let used = left.min(RECORDS_IN_BLOCK);
            demanded.push((kind, used));
            left -= used;
        }
    }
    demanded
}

fn wrong_length(bytes: &[u8]) -> Option<Refusal> {
    let wrong = bytes.is_empty() || bytes.len() % BLOCK != 0 || bytes.len() > MOST_BYTES;
    wrong.then(|| refusal(1))
}

pub fn sum_of_words(block: &[u8]) -> u32 {
    let word = |four: &[u8]| u32::from_le_bytes([four[0], four[1], four[2], four[3]]);
    block.chunks(4).map(word).fold(0, u32::wrapping_add)
}

fn first_block(bytes: &[u8], number: u32, wrong: impl Fn(usize, &[u8]) -> bool) -> Option<Refusal> {
    let at = bytes
        .chunks(BLOCK)
        .enumerate()
        .position(|(at, block)| wrong(at, block))?;
    Some(refusal_at(number, at, 0))
}

fn wrong_check(bytes: &[u8]) -> Option<Refusal> {
    first_block(bytes, 2, |_, block| sum_of_words(block) != CHECK_SUM)
}

fn wrong_number(bytes: &[u8]) -> Option<Refusal> {
    first_block(bytes, 3, |at, block| u16_at(block, 0) != at)
}

fn limits_are_wrong(k: u64, n: usize, e: usize, c: usize) -> bool {
    k > MOST_VARIABLES || n == 0 || n > MOST_NODES || e > MOST_EXPRESSIONS || c > MOST_CLAUSES
}

fn wrong_header(bytes: &[u8]) -> Option<Refusal> {
    let header = header_of(bytes);
    let wrong = bytes[2] != 1
        || bytes[3] != 1
        || header.edition != 1
        || limits_are_wrong(header.k, header.n, header.e, header.c);
    wrong.then(|| refusal(4))
}

fn wrong_count(bytes: &[u8]) -> Option<Refusal> {
    let present = bytes.len() / BLOCK;
    (present != blocks_of(&header_of(bytes))).then(|| refusal(5))
}

fn wrong_block(bytes: &[u8]) -> Option<Refusal> {
    let demanded = demanded_blocks(&header_of(bytes));
    first_block(bytes, 6, |at, block| {
        let (kind, used) = demanded[at];
        block[2] != kind || usize::from(block[3]) != used
    })
}

fn wrong_rest(bytes: &[u8]) -> Option<Refusal> {
    let demanded = demanded_blocks(&header_of(bytes));
    first_block(bytes, 7, |at, block| {
        let (_, used) = demanded[at];
        block[4 + RECORD * used..508].iter().any(|&byte| byte != 0)
    })
}

fn wrong_gate(bytes: &[u8]) -> Option<Refusal> {
    wrong_gate_record(&records_of(bytes))
}

fn wrong_expression(bytes: &[u8]) -> Option<Refusal> {
    wrong_expression_record(&records_of(bytes))
}

fn wrong_clause(bytes: &[u8]) -> Option<Refusal> {
    wrong_clause_record(&records_of(bytes))
}

fn records_from(bytes: &[u8], first_block: usize, count: usize) -> Vec<Record> {
    let record = |index: usize| {
        let block = first_block + index / RECORDS_IN_BLOCK;
        let at = block * BLOCK + 4 + RECORD * (index % RECORDS_IN_BLOCK);
        bytes[at..at + RECORD].try_into().unwrap()
    };
    (0..count).map(record).collect()
}

fn records_of(bytes: &[u8]) -> Records {
    let header = header_of(bytes);
    let expressions_from = 1 + blocks_for(header.n);
    let clauses_from = expressions_from + blocks_for(header.e);
    Records {
        k: header.k,
        nodes: records_from(bytes, 1, header.n),
        expressions: records_from(bytes, expressions_from, header.e),
        clauses: records_from(bytes, clauses_from, header.c),
    }
}

/// The gate of a node record, nothing if it breaks its line.
pub fn gate_of(record: &Record, n: usize) -> Option<Gate> {
    let [p, q, r] = [u16_at(record, 2), u16_at(record, 4), u16_at(record, 6)];
    let (gate, operands) = match record[0] {
        0 => (Gate::Input, 0),
        1 => (Gate::Zero, 0),
        2 => (Gate::One, 0),
        3 => (Gate::Buf(p), 1),
        4 => (Gate::Not(p), 1),
        5 => (Gate::And(p, q), 2),
        6 => (Gate::Or(p, q), 2),
        7 => (Gate::Xor(p, q), 2),
        8 => (Gate::Mux(p, q, r), 3),
        _ => return None,
    };
    let good = |(place, operand): (usize, &usize)| {
        if place < operands {
            *operand < n
        } else {
            *operand == 0
        }
    };
    (record[1] == 0 && [p, q, r].iter().enumerate().all(good)).then_some(gate)
}

/// The expression at index `own`, nothing if its record breaks its line.
pub fn expression_of(record: &Record, own: usize, k: u64) -> Option<Expression> {
    let [a, b] = [u16_at(record, 2), u16_at(record, 4)];
    let (expression, good) = match record[0] {
        0 => (Expression::False, a == 0 && b == 0),
        1 => (Expression::True, a == 0 && b == 0),
        2 => (Expression::Variable(a), (a as u64) < k && b == 0),
        3 => (Expression::Not(a), a < own && b == 0),
        4 => (Expression::And(a, b), a < own && b < own),
        5 => (Expression::Or(a, b), a < own && b < own),
        6 => (Expression::Xor(a, b), a < own && b < own),
        _ => return None,
    };
    (record[1] == 0 && u16_at(record, 6) == 0 && good).then_some(expression)
}

/// The clause of a record, nothing if it breaks its line.
pub fn clause_of(record: &Record, n: usize, e: usize) -> Option<Clause> {
    let clause = Clause {
        side: match record[0] {
            0 => Side::Stimulus,
            1 => Side::Expectation,
            _ => return None,
        },
        value: match record[1] {
            0 => Value::Zero,
            1 => Value::One,
            _ => return None,
        },
        node: u16_at(record, 2),
        time: u16_at(record, 4),
        guard: u16_at(record, 6),
    };
    (clause.node < n && clause.time <= MOST_TIME && clause.guard < e).then_some(clause)
}

fn first_record(
    records: &[Record],
    number: u32,
    first_block: usize,
    good: impl Fn(usize, &Record) -> bool,
) -> Option<Refusal> {
    let index = (0..records.len()).find(|&index| !good(index, &records[index]))?;
    Some(refusal_at(
        number,
        first_block + index / RECORDS_IN_BLOCK,
        index % RECORDS_IN_BLOCK,
    ))
}

fn wrong_gate_record(records: &Records) -> Option<Refusal> {
    let n = records.nodes.len();
    first_record(&records.nodes, 8, 1, |_, record| {
        gate_of(record, n).is_some()
    })
}

fn wrong_expression_record(records: &Records) -> Option<Refusal> {
    let from = 1 + blocks_for(records.nodes.len());
    first_record(&records.expressions, 9, from, |own, record| {
        expression_of(record, own, records.k).is_some()
    })
}

fn wrong_clause_record(records: &Records) -> Option<Refusal> {
    let (n, e) = (records.nodes.len(), records.expressions.len());
    let from = 1 + blocks_for(n) + blocks_for(e);
    first_record(&records.clauses, 10, from, |_, record| {
        clause_of(record, n, e).is_some()
    })
}

/// The job of records that break no line.
fn job_of(records: &Records) -> Job {
    let (n, e) = (records.nodes.len(), records.expressions.len());
    let gate = |record| gate_of(record, n).unwrap();
    let expression = |(own, record)| expression_of(record, own, records.k).unwrap();
    let clause = |record| clause_of(record, n, e).unwrap();
    Job {
        k: records.k as usize,
        gates: records.nodes.iter().map(gate).collect(),
        expressions: records
            .expressions
            .iter()
            .enumerate()
            .map(expression)
            .collect(),
        clauses: records.clauses.iter().map(clause).collect(),
    }
}

/// The three record lists of an accepted job, as bytes.
pub fn lists_of(bytes: &[u8]) -> Result<(Header, [Vec<u8>; 3]), Refusal> {
    read(bytes)?;
    let records = records_of(bytes);
    let lists = [records.nodes, records.expressions, records.clauses];
    Ok((header_of(bytes), lists.map(|list| list.concat())))
}

/// The stored job of three record lists.
pub fn pack(k: u64, lists: [&[u8]; 3]) -> Result<Vec<u8>, Refusal> {
    if lists.iter().any(|list| list.len() % RECORD != 0) {
        return Err(refusal(1));
    }
    let [n, e, c] = lists.map(|list| list.len() / RECORD);
    if limits_are_wrong(k, n, e, c) {
        return Err(refusal(4));
    }
    let [nodes, expressions, clauses] = lists.map(records_in);
    let records = Records {
        k,
        nodes,
        expressions,
        clauses,
    };
    let wrong = wrong_gate_record(&records)
        .or_else(|| wrong_expression_record(&records))
        .or_else(|| wrong_clause_record(&records));
    match wrong {
        Some(refusal) => Err(refusal),
        None => Ok(bytes_of(&records)),
    }
}

fn records_in(list: &[u8]) -> Vec<Record> {
    let record = |eight: &[u8]| eight.try_into().unwrap();
    list.chunks(RECORD).map(record).collect()
}

fn header_record(records: &Records) -> Record {
    let mut record = [0; RECORD];
    record[0] = 1;
    record[1] = records.k as u8;
    let counts = [
        records.nodes.len(),
        records.expressions.len(),
        records.clauses.len(),
    ];
    for (place, count) in counts.into_iter().enumerate() {
        let at = 2 + 2 * place;
        record[at..at + 2].copy_from_slice(&(count as u16).to_le_bytes());
    }
    record
}

fn bytes_of(records: &Records) -> Vec<u8> {
    let mut bytes = Vec::new();
    push_blocks(&mut bytes, 1, &[header_record(records)]);
    push_blocks(&mut bytes, 2, &records.nodes);
    push_blocks(&mut bytes, 3, &records.expressions);
    push_blocks(&mut bytes, 4, &records.clauses);
    bytes
}

fn push_blocks(bytes: &mut Vec<u8>, kind: u8, records: &[Record]) {
    for used in records.chunks(RECORDS_IN_BLOCK) {
        let mut block = [0; BLOCK];
        let number = (bytes.len() / BLOCK) as u16;
        block[0..2].copy_from_slice(&number.to_le_bytes());
        block[2] = kind;
        block[3] = used.len() as u8;
        let records = used.concat();
        block[4..4 + records.len()].copy_from_slice(&records);
        let check = CHECK_SUM.wrapping_sub(sum_of_words(&block));
        block[508..512].copy_from_slice(&check.to_le_bytes());
        bytes.extend_from_slice(&block);
    }
}
