//! A plan as a tree of plain values: what the generators make and brute force
//! judges. Its two encodings are written apart from the reference's reader and
//! writer, so that round trips compare two ways.

use std::fmt;

/// In which form a plan is stored. In the second, positions of semaphores and
/// their count take two bytes, and byte 242 is in front of all.
#[derive(Clone, Copy, PartialEq, Eq, Debug)]
pub enum Form {
    First,
    Second,
}

impl Form {
    /// The form that the first byte of a stored plan tells.
    pub fn of(bytes: &[u8]) -> Form {
        match bytes.starts_with(Form::Second.lead()) {
            true => Form::Second,
            false => Form::First,
        }
    }

    pub fn other(self) -> Form {
        match self {
            Form::First => Form::Second,
            Form::Second => Form::First,
        }
    }

    /// What is in front of the sections.
    pub fn lead(self) -> &'static [u8] {
        match self {
            Form::First => &[],
            Form::Second => &[242],
        }
    }

    /// Bytes of a semaphore's position, and of their count.
    pub fn width(self) -> usize {
        match self {
            Form::First => 1,
            Form::Second => 2,
        }
    }
}

/// A wait or a signal.
#[derive(Clone, Copy, PartialEq, Eq, Debug)]
pub struct Point {
    pub semaphore: u16,
    pub value: u64,
}

/// A use of a buffer, or a free.
#[derive(Clone, Copy, PartialEq, Eq, Debug)]
pub struct Mark {
    pub buffer: u16,
    pub free: bool,
}

#[derive(Clone, PartialEq, Eq, Debug, Default)]
pub struct Operation {
    pub queue: u8,
    pub waits: Vec<Point>,
    pub signals: Vec<Point>,
    pub marks: Vec<Mark>,
}

#[derive(Clone, PartialEq, Eq, Debug, Default)]
pub struct Plan {
    pub axes: Vec<u64>,
    pub owners: Vec<u8>,
    pub sizes: Vec<u32>,
    pub operations: Vec<Operation>,
}

impl Plan {
    /// The form in which the plan is stored: the first if it has room for the
    /// semaphores.
    pub fn form(&self) -> Form {
        match self.owners.len() {
            0..=64 => Form::First,
            _ => Form::Second,
        }
    }

    /// Every field in stored order, with its width in bytes.
    fn fields(&self, form: Form) -> Vec<(u64, usize)> {
        let mut fields = vec![(self.axes.len() as u64, 1)];
        fields.extend(self.axes.iter().map(|&axis| (axis, 8)));
        fields.push((self.owners.len() as u64, form.width()));
        fields.extend(self.owners.iter().map(|&owner| (u64::from(owner), 1)));
        fields.push((self.sizes.len() as u64, 2));
        fields.extend(self.sizes.iter().map(|&size| (u64::from(size), 4)));
        fields.push((self.operations.len() as u64, 2));
        for operation in &self.operations {
            operation.add_fields(form, &mut fields);
        }
        fields
    }

    /// Where an operation begins: its first byte in the stored plan, and its
    /// position in the list of numbers; counted, not read off the encodings.
    fn start_of(&self, operation: usize) -> [usize; 2] {
        let (form, before) = (self.form(), &self.operations[..operation]);
        let [axes, owners, sizes] = [self.axes.len(), self.owners.len(), self.sizes.len()];
        let head = form.lead().len() + 1 + 8 * axes + form.width() + owners + 2 + 4 * sizes + 2;
        let points = |o: &Operation| o.waits.len() + o.signals.len();
        let bytes = before
            .iter()
            .map(|o| 4 + points(o) * (form.width() + 8) + 3 * o.marks.len());
        let numbers = before.iter().map(|o| 4 + 2 * (points(o) + o.marks.len()));
        let head_numbers = 4 + axes + owners + sizes;
        [
            head + bytes.sum::<usize>(),
            head_numbers + numbers.sum::<usize>(),
        ]
    }

    /// Where the semaphore and the value of a wait are, in bytes and in the list.
    pub fn wait_at(&self, operation: usize, wait: usize) -> [[usize; 2]; 2] {
        let width = self.form().width();
        let [byte, number] = self.start_of(operation);
        let semaphore = [byte + 2 + wait * (width + 8), number + 2 + 2 * wait];
        [semaphore, [semaphore[0] + width, semaphore[1] + 1]]
    }

    /// The same of a signal.
    pub fn signal_at(&self, operation: usize, signal: usize) -> [[usize; 2]; 2] {
        let waits = self.operations[operation].waits.len();
        // After the waits, their places go on, with one more for the count.
        let places = self.wait_at(operation, waits + signal);
        places.map(|[byte, number]| [byte + 1, number + 1])
    }

    /// The first wait for 0: its operation, and its position in the list.
    pub fn first_wait_for_zero(&self) -> Option<(usize, usize)> {
        let operations = self.operations.iter().enumerate();
        let mut zeros = operations.filter_map(|(operation, o)| {
            let wait = o.waits.iter().position(|wait| wait.value == 0)?;
            Some((operation, wait))
        });
        zeros.next()
    }

    /// The stored plan.
    pub fn bytes(&self) -> Vec<u8> {
        self.bytes_in(self.form())
    }

    /// The plan as if it were stored in this form.
    pub fn bytes_in(&self, form: Form) -> Vec<u8> {
        let mut bytes = form.lead().to_vec();
        for (value, width) in self.fields(form) {
            bytes.extend_from_slice(&value.to_le_bytes()[..width]);
        }
        bytes
    }

    /// The read plan: one number for each field.
    pub fn numbers(&self) -> Vec<u64> {
        let fields = self.fields(self.form()).into_iter();
        fields.map(|(value, _)| value).collect()
    }

    /// The plan of a list of numbers that a reader has handed back.
    pub fn from_numbers(numbers: &[u64]) -> Plan {
        let mut next = numbers.iter().copied();
        let mut take = || next.next().expect("a read plan is complete");
        let axes = (0..take()).map(|_| take()).collect();
        let owners = (0..take()).map(|_| take() as u8).collect();
        let sizes = (0..take()).map(|_| take() as u32).collect();
        let operations = (0..take())
            .map(|_| Operation::from_numbers(&mut take))
            .collect();
        Plan {
            axes,
            owners,
            sizes,
            operations,
        }
    }
}

impl Operation {
    fn add_fields(&self, form: Form, fields: &mut Vec<(u64, usize)>) {
        fields.push((u64::from(self.queue), 1));
        for points in [&self.waits, &self.signals] {
            fields.push((points.len() as u64, 1));
            for point in points {
                fields.push((u64::from(point.semaphore), form.width()));
                fields.push((point.value, 8));
            }
        }
        fields.push((self.marks.len() as u64, 1));
        for mark in &self.marks {
            fields.push((u64::from(mark.buffer), 2));
            fields.push((u64::from(mark.free), 1));
        }
    }

    fn from_numbers(take: &mut impl FnMut() -> u64) -> Operation {
        let queue = take() as u8;
        let mut points = || {
            (0..take())
                .map(|_| Point {
                    semaphore: take() as u16,
                    value: take(),
                })
                .collect()
        };
        let (waits, signals) = (points(), points());
        let marks = (0..take())
            .map(|_| Mark {
                buffer: take() as u16,
                free: take() == 1,
            })
            .collect();
        Operation {
            queue,
            waits,
            signals,
            marks,
        }
    }
}

impl fmt::Display for Plan {
    fn fmt(&self, f: &mut fmt::Formatter<'_>) -> fmt::Result {
        writeln!(f, "axes {:?}", self.axes)?;
        writeln!(f, "owners {:?}", self.owners)?;
        writeln!(f, "buffer sizes {:?}", self.sizes)?;
        for (position, operation) in self.operations.iter().enumerate() {
            writeln!(f, "{position}: {operation}")?;
        }
        Ok(())
    }
}

impl fmt::Display for Operation {
    fn fmt(&self, f: &mut fmt::Formatter<'_>) -> fmt::Result {
        write!(f, "queue {}", self.queue)?;
        for wait in &self.waits {
            write!(f, ", waits S{}>={}", wait.semaphore, wait.value)?;
        }
        for signal in &self.signals {
            write!(f, ", signals S{}={}", signal.semaphore, signal.value)?;
        }
        for mark in &self.marks {
            let verb = if mark.free { "frees" } else { "uses" };
            write!(f, ", {verb} b{}", mark.buffer)?;
        }
        Ok(())
    }
}
