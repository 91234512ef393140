//! Rows by name, beside their words.

use crate::ROW_WORDS;

/// What a field of a row is. A field has the same name and meaning in every row that has it.
macro_rules! field {
    (period) => {
        "The ticks from one presence to the next, 1 to 4095."
    };
    (phase) => {
        "The tick of the first presence, 0 to 4095."
    };
    (value) => {
        "The value that the row gives, any word."
    };
    (a) => {
        "The flow that the row is of, or its first operand."
    };
    (b) => {
        "The flow of its second operand."
    };
    (c) => {
        "The flow whose values decide."
    };
    (initial) => {
        "The value until the source has had one, any word."
    };
    (beat) => {
        "The flow that says when the row is present."
    };
    (source) => {
        "The flow whose values are kept: any flow of the table, itself included."
    };
    (k) => {
        "How many times as fast or as slow, 1 to 63."
    };
    (gap) => {
        "The ticks between two copies, 1 to 4095."
    };
    (d) => {
        "The delay in ticks, 0 to 4095."
    };
    (tick) => {
        "The tick of the value that is put before, 0 to 4095."
    };
    (w) => {
        "The view period: the ticks from one look at c to the next, 1 to 4095."
    };
}

/// Makes [`Row`] and both of its conversions from the one table of kinds.
macro_rules! rows {
    ($($kind:literal => $name:ident $({ $($field:ident),+ })?, $doc:literal;)+) => {
        /// A row of a plan, which defines one flow. Operands are lower flows.
        ///
        /// A row may hold any numbers; the calls refuse those that a field does not take.
        ///
        /// ```
        /// use baarqidho::{Plan, Row};
        ///
        /// let rows = [Row::Input { period: 10, phase: 0 }, Row::Slower { a: 0, k: 2 }];
        /// assert_eq!(Plan::from_rows(rows).clocks()?[1].to_string(), "20 0 -");
        /// # Ok::<(), baarqidho::Refusal>(())
        /// ```
        ///
        /// A value is a word. [`Row::Less`] and [`Row::Larger`] read it as a signed number, in two's complement, as
        /// `as i32` does; [`Row::Add`], [`Row::Subtract`] and [`Row::Equal`] suit signed numbers and others alike.
        ///
        /// ```
        /// use baarqidho::{Plan, Row};
        ///
        /// let [torque, limit] = [-3, 0].map(|value: i32| Row::Constant { value: value as u32, period: 1, phase: 0 });
        /// let plan = Plan::from_rows([torque, limit, Row::Less { a: 0, b: 1 }, Row::Larger { a: 0, b: 1 }]);
        /// let trace = plan.run(&[], 1)?;
        /// assert_eq!((trace.value(0, 2), trace.value(0, 3)), (Some(1), Some(0)));
        /// # Ok::<(), baarqidho::RunError>(())
        /// ```
        ///
        /// [`Row::When`] and [`Row::WhenNot`] need a condition at every tick of the flow that it governs.
        /// [`Row::WhenSeen`] and [`Row::WhenNotSeen`] look at it at a slower pace: a mode switch that is read every 15
        /// ticks governs a signal that is read every 10. From its first tick on it is looked at every 30 ticks, and
        /// what was seen counts for 30 ticks of the signal, from the signal's first tick on. The view period is a
        /// multiple of both periods, and the switch begins no later than the signal.
        ///
        /// ```
        /// use baarqidho::{Plan, Row};
        ///
        /// let (signal, switch) = (Row::Input { period: 10, phase: 0 }, Row::Input { period: 15, phase: 0 });
        /// let plan = Plan::from_rows([signal, switch, Row::WhenSeen { a: 0, c: 1, w: 30 }]);
        /// assert_eq!(plan.clocks()?[2].to_string(), "10 0 c1+@30");
        ///
        /// // The switch is on at first, off from tick 15 on, and on again from tick 45 on; it is seen at 0, 30 and 60.
        /// let is_on = |tick| u32::from(tick < 15 || tick >= 45);
        /// let log: Vec<u32> = (0..71).flat_map(|tick| [100 + tick, is_on(tick)]).collect();
        /// let trace = plan.run(&log, 71)?;
        /// let governed: Vec<u32> = (0..71).filter_map(|tick| trace.value(tick, 2)).collect();
        /// assert_eq!(governed, [100, 110, 120, 160, 170]);
        /// # Ok::<(), baarqidho::RunError>(())
        /// ```
        #[derive(Clone, Copy, Debug, PartialEq, Eq, Hash)]
        #[non_exhaustive]
        pub enum Row {
            $(
                #[doc = $doc]
                $name $({
                    $(
                        #[doc = field!($field)]
                        $field: u32,
                    )+
                })?,
            )+
        }

        impl Row {
            /// Its words in plain form: the kind, its fields, and 0 where it has none.
            ///
            /// ```
            /// use baarqidho::Row;
            ///
            /// assert_eq!(Row::Register { initial: 20, beat: 1, source: 4 }.words(), [7, 20, 1, 4]);
            /// assert_eq!(Row::Tail { a: 3 }.words(), [12, 3, 0, 0]);
            /// ```
            pub fn words(self) -> [u32; ROW_WORDS] {
                match self {
                    $(Row::$name $({ $($field),+ })? => filled_up(&[$kind $(, $($field),+)?]),)+
                }
            }

            /// The row of words in plain form, or nothing where they are none: the kind is above 18, or an unused
            /// word is not 0.
            ///
            /// ```
            /// use baarqidho::Row;
            ///
            /// assert_eq!(Row::from_words([12, 3, 0, 0]), Some(Row::Tail { a: 3 }));
            /// assert_eq!(Row::from_words([12, 3, 0, 1]), None);
            /// assert_eq!(Row::from_words([19, 0, 0, 0]), None);
            /// ```
            pub fn from_words(words: [u32; ROW_WORDS]) -> Option<Self> {
                let mut fields = words.into_iter().skip(1);
                let row = match words[0] {
                    $($kind => Row::$name $({ $($field: fields.next()?),+ })?,)+
                    _ => return None,
                };
                (row.words() == words).then_some(row)
            }
        }
    };
}

rows! {
    0 => Input { period, phase }, "The log's word, at phase plus whole periods.";
    1 => Constant { value, period, phase }, "The value, at phase plus whole periods.";
    2 => Add { a, b }, "The sum, modulo 2 to the 32.";
    3 => Subtract { a, b }, "The difference, modulo 2 to the 32.";
    4 => Less { a, b }, "1 where the first is less, else 0. Both are read as signed numbers, in two's complement.";
    5 => Equal { a, b }, "1 where both are equal, else 0.";
    6 => Larger { a, b }, "The greater of the two, both read as signed numbers, in two's complement.";
    7 => Register { initial, beat, source }, "The source's latest earlier value, whenever the beat is present.";
    8 => Faster { a, k, gap }, "Each value k times, gap ticks apart.";
    9 => Slower { a, k }, "Every k-th value, beginning with the first.";
    10 => Later { a, d }, "Each value d ticks later.";
    11 => Head { a, value, tick }, "The value at the tick, afterwards all of a.";
    12 => Tail { a }, "All values but the first.";
    13 => When { a, c }, "The values where c is not zero.";
    14 => WhenNot { a, c }, "The values where c is zero.";
    15 => Merge { c, a, b }, "The value of a where c is not zero, of b where c is zero.";
    16 => Unrated,
        "An input whose period and phase are not written: see [`Plan::fill_rates`](crate::Plan::fill_rates).";
    17 => WhenSeen { a, c, w }, "The values where c, looked at every w ticks, is not zero.";
    18 => WhenNotSeen { a, c, w }, "The values where c, looked at every w ticks, is zero.";
}

/// The words of a row, filled up with zeros.
fn filled_up(words: &[u32]) -> [u32; ROW_WORDS] {
    let mut row = [0; ROW_WORDS];
    row[..words.len()].copy_from_slice(words);
    row
}
