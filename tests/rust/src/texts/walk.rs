//! A reader that walks along the text, right if no mistake is chosen. It and the second reader share only what a
//! record is.

use super::mistakes::{making, Mistake::*};
use super::reader::{items_of, Reading, Record};

/// What stands directly before, if it is a word, number or variable.
#[derive(Clone, Copy, PartialEq, Eq)]
enum Run {
    Given,
    Word,
    Number,
    InGuard,
}

enum Tree {
    Leaf(u8, usize),
    Not(Box<Tree>),
    Both(u8, Box<Tree>, Box<Tree>),
}

struct Walk<'a> {
    k: usize,
    n: usize,
    text: &'a [u8],
    at: usize,
    touching: Option<Run>,
    /// Operands and operators so far.
    taken: usize,
    clause_start: usize,
    reading: Reading,
}

/// The operators, brackets and finished parts of the guard that is being read.
#[derive(Default)]
struct Stacks {
    operators: Vec<u8>,
    parts: Vec<Tree>,
    open: usize,
    brackets: usize,
}

pub type Stop = usize;

fn is_gap(byte: u8) -> bool {
    match byte {
        b' ' => true,
        b'\n' => !making(NewlineIsNoGap),
        b'\r' => !making(ReturnIsNoGap),
        9 => making(TabIsAGap),
        12 => making(FormFeedIsAGap),
        160 => making(HighSpaceIsAGap),
        _ => false,
    }
}

fn is_run(byte: u8) -> bool {
    byte.is_ascii_lowercase() || byte.is_ascii_digit()
}

fn most_records() -> usize {
    504 + usize::from(making(Records505)) - usize::from(making(Records503))
}

fn most_depth() -> usize {
    match () {
        _ if making(Depth31) => 31,
        _ if making(Depth33) => 33,
        _ if making(DepthUnbounded) => usize::MAX,
        _ => 32,
    }
}

fn strength(operator: u8) -> u8 {
    match operator {
        b'!' if making(NotWeakerThanAnd) => 25,
        b'!' => 40,
        _ if making(AllOfOneStrength) => 20,
        b'^' if making(XorStrongerThanAnd) => 35,
        b'|' if making(OrStrongerThanXor) => 25,
        b'|' if making(OrAsStrongAsXor) => 20,
        b'&' => 30,
        b'^' => 20,
        _ => 10,
    }
}

fn from_right(operator: u8) -> bool {
    making(FromRightToLeft)
        || match operator {
            b'&' => making(AndFromRightToLeft),
            b'^' => making(XorFromRightToLeft),
            _ => making(OrFromRightToLeft),
        }
}

impl Stacks {
    fn apply_last(&mut self) {
        let operator = self.operators.pop().unwrap();
        let right = Box::new(self.parts.pop().unwrap());
        let whole = match operator {
            b'!' => Tree::Not(right),
            _ => Tree::Both(operator, Box::new(self.parts.pop().unwrap()), right),
        };
        self.parts.push(whole);
    }

    /// Applies the operators since the last open bracket that come before this one.
    fn apply_before(&mut self, operator: u8) {
        let own = strength(operator) + u8::from(from_right(operator));
        while matches!(self.operators.last(), Some(top) if *top != b'(' && strength(*top) >= own) {
            self.apply_last();
        }
    }

    fn apply_to_bracket(&mut self) {
        while matches!(self.operators.last(), Some(top) if *top != b'(') {
            self.apply_last();
        }
    }

    fn close(&mut self) {
        self.open -= 1;
        if !making(BracketsDoNotGroup) {
            self.apply_to_bracket();
            self.operators.pop();
        }
    }
}

impl Walk<'_> {
    fn peek(&self) -> Option<u8> {
        let byte = *self.text.get(self.at)?;
        match byte {
            _ if making(HighBitIgnored) => Some(byte & 0x7F),
            _ if making(UppercaseAccepted) => Some(byte.to_ascii_lowercase()),
            _ => Some(byte),
        }
    }

    fn stop<T>(&self) -> Result<T, Stop> {
        Err(self.at)
    }

    fn gaps(&mut self) {
        while self.peek().is_some_and(is_gap) {
            self.at += 1;
            self.touching = None;
            if making(OneGapByteOnly) {
                return;
            }
        }
    }

    /// Whether the next item stands directly at a word, number or variable, and is one.
    fn touches(&self, next: Run) -> bool {
        let forgiven = making(GapsNotRequired)
            || making(GapNotRequiredAfterNumbers) && self.touching == Some(Run::Number)
            || making(GapNotRequiredAfterGiven) && self.touching == Some(Run::Given)
            || making(GapNotRequiredBeforeNumbers) && next == Run::Number;
        self.touching.is_some() && !forgiven
    }

    fn room_for(&self, more: usize) -> bool {
        self.taken + more <= most_records()
    }

    fn word(&mut self, word: &str, kind: Run) -> Result<(), Stop> {
        self.gaps();
        if self.touches(kind) {
            return self.stop();
        }
        for letter in word.bytes() {
            if self.peek() != Some(letter) {
                return self.stop();
            }
            self.at += 1;
            if making(WordsByTheirFirstLetter) {
                self.skip_run();
                break;
            }
        }
        self.touching = Some(kind);
        Ok(())
    }

    fn skip_run(&mut self) {
        while self.peek().is_some_and(is_run) {
            self.at += 1;
        }
    }

    fn symbol(&mut self, symbol: u8) -> Result<(), Stop> {
        self.gaps();
        if self.peek() != Some(symbol) {
            return self.stop();
        }
        self.at += 1;
        self.touching = None;
        Ok(())
    }

    /// A number below the bound; `late` is the mistake of seeing only after the number that it is not.
    fn number(&mut self, bound: usize, late: bool, zeros: bool) -> Result<usize, Stop> {
        self.gaps();
        let start = self.at;
        if self.touches(Run::Number) || !self.peek().is_some_and(|byte| byte.is_ascii_digit()) {
            return self.stop();
        }
        let mut number = 0_usize;
        while let Some(digit @ b'0'..=b'9') = self.peek() {
            if number == 0 && self.at > start && !zeros {
                return Err(if making(LeadingZeroSeenAtOnce) {
                    start
                } else {
                    self.at
                });
            }
            number = number
                .saturating_mul(10)
                .saturating_add(usize::from(digit - b'0'));
            if number >= bound && !late {
                return self.stop();
            }
            self.at += 1;
        }
        self.touching = Some(Run::Number);
        if number >= bound || making(ZeroRefused) && number == 0 {
            return self.stop();
        }
        Ok(number)
    }

    fn whole(&mut self) -> Result<(), Stop> {
        if making(EmptyTextAccepted) && self.text.is_empty() {
            return Ok(());
        }
        if making(GapAtTheStartRefused) && self.peek().is_some_and(is_gap) {
            return self.stop();
        }
        self.gaps();
        if !making(GivenOptional) || self.peek() == Some(b'g') {
            self.word("given", Run::Given)?;
        }
        self.list(0)?;
        if making(RecordsCountedByList) {
            self.taken = 0;
        }
        self.list(1)
    }

    /// The clauses of a side, and what ends them: the word `expect` or the end of the text.
    fn list(&mut self, side: u8) -> Result<(), Stop> {
        let before = self.reading.clauses.len();
        loop {
            let items_end = self.at;
            self.gaps();
            let empty = self.reading.clauses.len() == before;
            match self.peek() {
                None if making(GapAtTheEndRefused) && items_end < self.at => return Err(items_end),
                None if making(EmptyExpectRefused) && empty => return self.stop(),
                None if side == 1 || making(ExpectOptional) => return Ok(()),
                Some(_) if self.touches(Run::Word) => return self.stop(),
                Some(b'w') => self.clause(side)?,
                Some(b'e') if making(EmptyGivenRefused) && side == 0 && empty => {
                    return self.stop()
                }
                Some(b'e') if side == 0 => return self.word("expect", Run::Word),
                Some(b'e') if making(ExpectTwiceAccepted) => self.word("expect", Run::Word)?,
                Some(_) if making(RestIgnored) && side == 1 => return Ok(()),
                _ => return self.stop(),
            }
        }
    }

    fn clause(&mut self, side: u8) -> Result<(), Stop> {
        self.clause_start = self.at;
        if making(RecordsCountedByGuard) {
            self.taken = 0;
        }
        let full = making(Clauses503) && self.reading.clauses.len() == 503;
        if full || !self.room_for(1) && !making(ClauseSeenLate) {
            return self.stop();
        }
        self.word("when", Run::Word)?;
        let guard = self.guard()?;
        let node = self.number(self.n, making(NodeSeenLate), making(LeadingZerosAccepted))?;
        self.word("is", Run::Word)?;
        let value = self.number(2 + usize::from(making(ValueTwoAccepted)), false, false)?;
        self.word("at", Run::Word)?;
        let time = self.time()?;
        self.gaps();
        if !making(LastSemicolonOptional) || self.peek().is_some() {
            self.symbol(b';')?;
        }
        let record = clause_record(side, value, node, time, guard);
        self.reading.clauses.push(record);
        Ok(())
    }

    fn time(&mut self) -> Result<usize, Stop> {
        let bound = match () {
            _ if making(Time256Accepted) => 257,
            _ if making(Time255Refused) => 255,
            _ if making(TimeCutToAByte) => 65_536,
            _ => 256,
        };
        let zeros = making(LeadingZerosAccepted) || making(LeadingZeroOfTimesAccepted);
        let time = self.number(bound, making(TimeSeenLate), zeros)?;
        Ok(if making(TimeCutToAByte) {
            time % 256
        } else {
            time
        })
    }

    /// A guard with the colon after it; the indices of its first and last record.
    fn guard(&mut self) -> Result<(usize, usize), Stop> {
        let mut stacks = Stacks::default();
        loop {
            self.operand(&mut stacks)?;
            if self.after_operand(&mut stacks)? {
                break;
            }
        }
        let tree = stacks.parts.pop().unwrap();
        let first = self.reading.expressions.len();
        let last = put(&tree, first, &mut self.reading.expressions);
        Ok((first, last))
    }

    /// Everything up to and with the next operand.
    fn operand(&mut self, stacks: &mut Stacks) -> Result<(), Stop> {
        let mut negated = false;
        loop {
            self.gaps();
            let Some(byte) = self.peek() else {
                return self.stop();
            };
            if making(GapRequiredAfterWords) && self.touching.is_some() {
                return self.stop();
            }
            match byte {
                b'!' if making(NotOnceOnly) && negated => return self.stop(),
                b'!' => self.not(stacks)?,
                b'(' => self.open(stacks)?,
                b')' if making(EmptyBracketsAccepted) && self.text[self.at - 1] == b'(' => {
                    return self.leaf(Tree::Leaf(0, 0), stacks, 0);
                }
                _ => return self.named_operand(byte, stacks),
            }
            negated = byte == b'!';
        }
    }

    fn not(&mut self, stacks: &mut Stacks) -> Result<(), Stop> {
        if !self.room_for(2) && !making(NotSeenLate) {
            return self.stop();
        }
        self.taken += 1;
        self.at += 1;
        self.touching = None;
        stacks.operators.push(b'!');
        Ok(())
    }

    fn open(&mut self, stacks: &mut Stacks) -> Result<(), Stop> {
        let counted = if making(DepthCountsAllBrackets) {
            stacks.brackets
        } else {
            stacks.open
        };
        if counted >= most_depth() {
            self.at += usize::from(making(DepthSeenAtTheOperand));
            return self.stop();
        }
        stacks.open += 1;
        stacks.brackets += 1;
        self.at += 1;
        self.touching = None;
        if !making(BracketsDoNotGroup) {
            stacks.operators.push(b'(');
        }
        Ok(())
    }

    fn named_operand(&mut self, byte: u8, stacks: &mut Stacks) -> Result<(), Stop> {
        let constant = byte.is_ascii_digit();
        let forgiven = making(GapNotRequiredBeforeConstants) && constant
            || making(GapNotRequiredBeforeVariables) && !constant;
        if self.touches(Run::InGuard) && !forgiven {
            return self.stop();
        }
        let operand = match byte {
            b'0' | b'1' => constant_leaf(byte == b'1'),
            b'a'..=b'z' if usize::from(byte - b'a') < self.letters() => {
                Tree::Leaf(2, usize::from(byte - b'a'))
            }
            b'a'..=b'z' if making(LetterSeenLate) => return Err(self.at + 1),
            _ => return self.stop(),
        };
        self.leaf(operand, stacks, 1)
    }

    fn letters(&self) -> usize {
        match () {
            _ if making(VariableKAccepted) => self.k + 1,
            _ if making(LastVariableRefused) => self.k.min(11),
            _ if making(VariablesToL) => 12,
            _ => self.k,
        }
    }

    fn leaf(&mut self, operand: Tree, stacks: &mut Stacks, bytes: usize) -> Result<(), Stop> {
        if !self.room_for(1) && !making(OperandOfLastOperatorForgotten) {
            return self.stop();
        }
        self.taken += 1;
        self.at += bytes;
        self.touching = Some(Run::InGuard);
        stacks.parts.push(operand);
        Ok(())
    }

    /// Closing brackets and then an operator, or the colon: then true.
    fn after_operand(&mut self, stacks: &mut Stacks) -> Result<bool, Stop> {
        loop {
            self.gaps();
            match self.peek() {
                Some(b')') if stacks.open > 0 => stacks.close(),
                Some(operator @ (b'&' | b'^' | b'|')) => {
                    self.operator(operator, stacks)?;
                    return Ok(false);
                }
                Some(b':') if stacks.open == 0 => {
                    stacks.apply_to_bracket();
                    self.symbol(b':')?;
                    if making(GapRequiredAfterColons) && !self.peek().is_some_and(is_gap) {
                        return self.stop();
                    }
                    return Ok(true);
                }
                Some(b'0'..=b'9') if making(ColonOptional) && stacks.open == 0 => {
                    stacks.apply_to_bracket();
                    return Ok(true);
                }
                _ => return self.stop(),
            }
            self.at += 1;
            self.touching = None;
        }
    }

    fn operator(&mut self, operator: u8, stacks: &mut Stacks) -> Result<(), Stop> {
        let late = making(OperatorSeenLate) || making(OperandOfLastOperatorForgotten);
        if !self.room_for(if late { 1 } else { 2 }) {
            return self.stop();
        }
        stacks.apply_before(operator);
        stacks.operators.push(operator);
        self.taken += 1;
        self.at += 1;
        self.touching = None;
        Ok(())
    }
}

fn constant_leaf(value: bool) -> Tree {
    match () {
        _ if making(ConstantsGiveVariables) => Tree::Leaf(2, usize::from(value)),
        _ if making(ConstantsSwapped) => Tree::Leaf(u8::from(!value), 0),
        _ => Tree::Leaf(u8::from(value), 0),
    }
}

fn clause_record(
    side: u8,
    value: usize,
    node: usize,
    time: usize,
    (first, last): (usize, usize),
) -> Record {
    let side = match () {
        _ if making(SidesSwapped) => 1 - side,
        _ if making(SideAlwaysGiven) => 0,
        _ => side,
    };
    let guard = match () {
        _ if making(GuardIsFirstRecord) => first,
        _ if making(GuardIsCountOfRecords) => last + 1,
        _ if making(GuardFromTheClauseOn) => last - first,
        _ if making(GuardCutToAByte) => last % 256,
        _ => last,
    };
    let value = value as u8 ^ u8::from(making(ValueInverted));
    let node = if making(NodeCutToAByte) {
        node % 256
    } else {
        node
    };
    let (node, time) = if making(NodeAndTimeSwapped) {
        (time, node)
    } else {
        (node, time)
    };
    let [node, time, guard] = [node, time, guard].map(|number| (number as u16).to_le_bytes());
    [
        side, value, node[0], node[1], time[0], time[1], guard[0], guard[1],
    ]
}

/// Adds a tree's records; returns the index of the one at its top.
fn put(tree: &Tree, first: usize, records: &mut Vec<Record>) -> usize {
    let reserved = records.len();
    if making(OperatorBeforeOperands) {
        records.push([0; 8]);
    }
    let (code, a, b) = match tree {
        Tree::Leaf(code, a) => (*code, *a, 0),
        Tree::Not(operand) => match &**operand {
            Tree::Not(inner) if making(DoubleNotDropped) => return put(inner, first, records),
            operand => {
                let a = index(put(operand, first, records), first);
                (3, a, if making(NotFillsBothOperands) { a } else { 0 })
            }
        },
        Tree::Both(operator, left, right) => {
            let (a, b) = put_both(left, right, first, records);
            (code_of(*operator), a, b)
        }
    };
    let [a, b] = [a, b].map(|number| (number as u16).to_le_bytes());
    let record = [code, 0, a[0], a[1], b[0], b[1], 0, 0];
    if making(OperatorBeforeOperands) {
        records[reserved] = record;
        return reserved;
    }
    let shared = records[first..].iter().position(|other| *other == record);
    if let (true, Some(place)) = (making(RecordsShared), shared) {
        return first + place;
    }
    records.push(record);
    records.len() - 1
}

fn put_both(left: &Tree, right: &Tree, first: usize, records: &mut Vec<Record>) -> (usize, usize) {
    let (a, b) = if making(RightBeforeLeft) {
        let b = put(right, first, records);
        (put(left, first, records), b)
    } else {
        let a = put(left, first, records);
        (a, put(right, first, records))
    };
    let (a, b) = (index(a, first), index(b, first));
    if making(OperandsSwapped) {
        (b, a)
    } else {
        (a, b)
    }
}

fn index(record: usize, first: usize) -> usize {
    match () {
        _ if making(IndicesFromTheGuardOn) => record - first,
        _ if making(IndicesCutToAByte) => record % 256,
        _ => record,
    }
}

fn code_of(operator: u8) -> u8 {
    match operator {
        b'&' => 4,
        b'|' => 5 + u8::from(making(OrAndXorSwapped)),
        _ => 6 - u8::from(making(OrAndXorSwapped)),
    }
}

/// What a walk gives, with what it had read when it stopped.
pub struct Walked {
    pub stop: Option<Stop>,
    pub reading: Reading,
}

pub fn walked(k: usize, n: usize, text: &[u8]) -> Walked {
    let zero_byte = text.iter().position(|byte| *byte == 0);
    let seen = match zero_byte {
        Some(end) if making(ZeroByteEndsTheText) => &text[..end],
        _ if making(LengthCutTo16Bits) => &text[..text.len() % 65_536],
        _ => text,
    };
    let mut walk = Walk {
        k,
        n: nodes_seen(n),
        text: seen,
        at: 0,
        touching: None,
        taken: 0,
        clause_start: 0,
        reading: Reading::default(),
    };
    let stop = walk.whole().err();
    let stop = stop.map(|place| misplaced(place, text, walk.clause_start));
    misread(&mut walk.reading);
    Walked {
        stop,
        reading: walk.reading,
    }
}

fn nodes_seen(n: usize) -> usize {
    match () {
        _ if making(NodeNAccepted) => n + 1,
        _ if making(LastNodeRefused) => n.min(1_007),
        _ => n,
    }
}

fn misread(reading: &mut Reading) {
    if making(ExpectBeforeGivenInTheList) {
        reading.clauses.sort_by_key(|clause| 1 - clause[0]);
    }
    if making(LastClauseForgotten) {
        reading.clauses.pop();
    }
}

fn misplaced(place: Stop, text: &[u8], clause_start: usize) -> Stop {
    let back = |from: usize, over: fn(u8) -> bool| {
        let before = text[..from].iter().rev().take_while(|byte| over(**byte));
        from - before.count()
    };
    let ends_early = place == text.len();
    match () {
        _ if making(PlaceOneLater) => place + 1,
        _ if making(PlaceOneEarlier) => place.saturating_sub(1),
        _ if making(PlaceAtTheStartOfTheItem) => back(place, is_run),
        _ if making(PlaceAtTheEndOfTheItem) => {
            place
                + text[place..]
                    .iter()
                    .take_while(|byte| is_run(**byte))
                    .count()
        }
        _ if making(PlaceBeforeTheGap) => back(place, is_gap),
        _ if making(PlaceAtTheStartOfTheClause) => clause_start,
        _ if making(PlaceZeroIfItEndsEarly) && ends_early => 0,
        _ if making(PlaceOfLastByteIfItEndsEarly) && ends_early => place.saturating_sub(1),
        _ if making(PlaceCutToAByte) => place % 256,
        _ if making(PlaceCutTo16Bits) => place % 65_536,
        _ if making(PlaceCountsItems) => items_of(&text[..place]).len(),
        _ => place,
    }
}
