//! The plans that are measured, and a log and worst times for them.

/// The row of an input without a rate.
const UNRATED: [u32; 4] = [16, 0, 0, 0];

/// A plan in plain form.
pub struct Plan {
    /// What it is called.
    pub name: &'static str,
    /// Its words, four a flow.
    pub words: Vec<u32>,
}

impl Plan {
    fn new(name: &'static str, rows: &[[u32; 4]]) -> Self {
        Plan { name, words: rows.concat() }
    }

    /// How many flows it has.
    pub fn flows(&self) -> usize {
        self.words.len() / 4
    }

    /// Its words with the last row a merge of the flow before by itself, which clashes whatever that flow's clock is. A
    /// plan of one flow has no such row and stays as it is.
    pub fn clashing(&self) -> Vec<u32> {
        let mut words = self.words.clone();
        if let Some(before) = self.flows().checked_sub(2) {
            words[4 * before + 4..].copy_from_slice(&[15, before as u32, before as u32, before as u32]);
        }
        words
    }

    /// A log for some ticks: small numbers and large ones in turn.
    pub fn log(&self, ticks: usize) -> Vec<u32> {
        let inputs = self.words.chunks_exact(4).filter(|row| row[0] == 0).count();
        let mut state = 1_u32;
        let mut next = || {
            state = state.wrapping_mul(1_664_525).wrapping_add(1_013_904_223);
            state >> (state >> 28 & 31)
        };
        (0..ticks * inputs).map(|_| next()).collect()
    }

    /// A worst time for each flow: all sizes in turn.
    pub fn times(&self) -> Vec<u16> {
        (1..=self.flows()).map(|place| (40_503 * place) as u16).collect()
    }
}

/// Every kind, all flows present at almost every tick.
pub fn mixed(flows: usize) -> Plan {
    blocks("mixed", flows, 1)
}

/// The same rows, one tick in ten.
pub fn sparse(flows: usize) -> Plan {
    blocks("sparse", flows, 10)
}

/// Mixed rows with views in place of sampling, merges and tails: three rows of sixteen, which look at what they see every
/// fourth tick, one of them a tick back. Up to four flows have no view.
pub fn views(flows: usize) -> Plan {
    let mut plan = Plan { name: "views", ..mixed(flows) };
    for (flow, row) in (0..).zip(plan.words.chunks_exact_mut(4)) {
        let at = |row: u32| flow / 16 * 16 + row;
        match flow % 16 {
            4 => row.copy_from_slice(&[17, at(2), at(3), 4]),
            5 => row.copy_from_slice(&[18, at(0), at(3), 4]),
            6 => row.copy_from_slice(&[6, at(0), at(3), 0]),
            12 => row.copy_from_slice(&[17, at(10), at(0), 4]),
            _ => {}
        }
    }
    plan
}

/// Blocks of sixteen rows with every kind, all flows on or next to the clock (period, 0).
fn blocks(name: &'static str, flows: usize, period: u32) -> Plan {
    let mut rows = Vec::new();
    for block in 0..4 {
        let at = |row: u32| 16 * block + row;
        rows.extend([
            [0, period, 0, 0],
            [1, 3, period, 0],
            [2, at(0), at(1), 0],
            [4, at(0), at(1), 0],
            [13, at(2), at(3), 0],
            [14, at(0), at(3), 0],
            [15, at(3), at(4), at(5)],
            [7, 7, at(6), at(15)],
            [9, at(7), 2, 0],
            [8, at(8), 2, period],
            [10, at(9), period, 0],
            [11, at(10), 5, 0],
            [12, at(11), 0, 0],
            [3, at(11), at(0), 0],
            [5, at(13), at(11), 0],
            [6, at(14), at(7), 0],
        ]);
    }
    Plan::new(name, &rows[..flows])
}

/// One rated input, as many without a rate as there are rows to join them, and those: sums of each with the one before.
pub fn unrated(flows: usize) -> Plan {
    let mut rows = vec![[0, 12, 5, 0]];
    let inputs = flows.div_ceil(2) as u32;
    rows.extend((1..inputs).map(|_| UNRATED));
    rows.extend((inputs..flows as u32).map(|flow| [2, (flow - inputs + 1).min(inputs - 1), flow - inputs, 0]));
    Plan::new("unrated", &rows)
}

/// An input without a rate, a chain of rows over it, and a sum of the last with a rated input: the chain has to be gone
/// upwards. Up to three flows are the sum's alone.
pub fn upward(flows: usize) -> Plan {
    let rows_of_chain = flows.saturating_sub(3) as u32;
    let mut rows = vec![UNRATED];
    rows.extend((0..rows_of_chain).map(|before| [10, before, 2, 0]));
    rows.extend([[0, 12, 2 * rows_of_chain, 0], [2, rows_of_chain, rows_of_chain + 1, 0]]);
    Plan::new("upward", &rows)
}

/// A constant, registers of which each has the next one for its source, and an input for that of the last: all but the
/// constant feel the input. Two flows have no register.
pub fn fed(flows: usize) -> Plan {
    let mut rows = vec![[1, 7, 1, 0]];
    rows.extend((1..flows as u32 - 1).map(|flow| [7, 7, 0, flow + 1]));
    rows.push([0, 1, 0, 0]);
    Plan::new("fed", &rows)
}

/// One input, and sums over it and the flow before.
pub fn sums(flows: usize) -> Plan {
    let mut rows = vec![[0, 1, 0, 0]];
    rows.extend((1..flows as u32).map(|flow| [2, flow - 1, 0, 0]));
    Plan::new("sums", &rows)
}

/// Constants every tick, every second tick and so on up to every sixteenth, and again, each beginning a tick later.
pub fn paces(flows: usize) -> Plan {
    constants("paces", flows, |flow| flow % 16 + 1)
}

/// Constants every hundredth tick, each beginning a tick later.
pub fn rare(flows: usize) -> Plan {
    constants("rare", flows, |_| 100)
}

/// Constants with these periods, the first from tick 0 on and each other a tick later.
fn constants(name: &'static str, flows: usize, period: fn(u32) -> u32) -> Plan {
    let rows: Vec<[u32; 4]> = (0..flows as u32).map(|flow| [1, 7 + flow, period(flow), flow]).collect();
    Plan::new(name, &rows)
}
