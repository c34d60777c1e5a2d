//! Libraries with a fault each in what numbers marked suspect (W-206) do: the
//! fault is found by the inputs and made small, and some by the checks as well.

mod common;

use common::{smallest, Faulty, Spoils};
use differential::{
    input, marks, run, trip, Answer, Curves, Header, Held, Input, Library, Plain, Random, Refusal,
    ID_ROW, NUMBER_ROW,
};

#[derive(Clone, Copy, Debug, PartialEq, Eq)]
enum Fault {
    None,
    /// Lets a mark on a unit that is OFFNS through.
    OffNs,
    /// Lets a mark on a gen or wind unit that starts up without Non-Spin through.
    Startup,
    /// Lets a mark on an ON unit below the 95 percent through.
    Below95,
    /// Lets a mark on a unit through that is OFF and counts as cold30.
    Cold30,
    /// Lets a mark on a load that is not validated through.
    NotValidated,
    /// Lets a mark on a controllable load through.
    Clr,
    /// Lets a mark on lsl through, wherever it stands.
    Lsl,
    /// Refuses a mark on a unit that is ONTEST.
    OnTest,
    /// Refuses a mark on an irr or nuke unit that is ON.
    OtherKinds,
    /// Refuses a mark on a wind or irr unit that is OFF and could be cold30.
    OffWind,
    /// 15 comes before 9.
    BeforeBytes,
    /// 15 comes before the faults of later lines.
    BeforeFaults,
    /// 15 is told with the line of the id.
    IdLine,
    /// 15 is told with the line of the last such mark.
    LastLine,
    /// Two marks on a number are taken for one.
    TwoMarks,
    /// A marked -0 is taken for 0.
    MinusZero,
    /// A mark on a header's number is dropped.
    HeaderMark,
    /// A mark on a flag is dropped.
    FlagMark,
    /// A marked number out of its range is refused by 6.
    OutOfRange,
    /// A mark changes a price.
    Price,
    /// Reading drops marks.
    ReadDropped,
    /// Reading puts marks one binary digit too high.
    ReadShifted,
    /// Reading leaves what stands for marks where there are none.
    ReadLeft,
    /// 14 comes before 15 in reading.
    SpaceFirst,
    /// Writing drops marks.
    WriteDropped,
    /// The length does not count marks.
    Length,
    /// 14 comes before 15 in writing.
    ShortFirst,
    /// Marks held as a number below 0 are dropped.
    NegativeDropped,
    /// Of a number below 0 the binary digits in two's complement count.
    TwosComplement,
    /// More than the marks is refused by 7.
    MoreRefused,
    /// A marked flag out of its range is refused by 7.
    FlagOutOfRange,
}

/// The faults that show in a text, in values that are read, and in values that
/// are written.
const IN_TEXTS: [Fault; 20] = [
    Fault::OffNs,
    Fault::Startup,
    Fault::Below95,
    Fault::Cold30,
    Fault::NotValidated,
    Fault::Clr,
    Fault::Lsl,
    Fault::OnTest,
    Fault::OtherKinds,
    Fault::OffWind,
    Fault::BeforeBytes,
    Fault::BeforeFaults,
    Fault::IdLine,
    Fault::LastLine,
    Fault::TwoMarks,
    Fault::MinusZero,
    Fault::HeaderMark,
    Fault::FlagMark,
    Fault::OutOfRange,
    Fault::Price,
];
const IN_READING: [Fault; 4] = [
    Fault::ReadDropped,
    Fault::ReadShifted,
    Fault::ReadLeft,
    Fault::SpaceFirst,
];
const IN_WRITING: [Fault; 7] = [
    Fault::WriteDropped,
    Fault::Length,
    Fault::ShortFirst,
    Fault::NegativeDropped,
    Fault::TwosComplement,
    Fault::MoreRefused,
    Fault::FlagOutOfRange,
];

const SHORT: Refusal = Refusal {
    number: 14,
    line: 0,
};

/// The curves on which a text is looked at for its refusal alone.
fn any_curves() -> Curves {
    let mut curves = [1; 50];
    curves[0] = 0;
    curves
}

/// The refusal of a snapshot's text.
fn refusal_of(text: &[u8]) -> Refusal {
    Plain.price(&any_curves(), text, &mut [0; 6])
}

fn lines_of(text: &[u8]) -> Vec<String> {
    let text = String::from_utf8_lossy(text);
    text.split_inclusive('\n').map(str::to_string).collect()
}

/// One resource's lines: the place of the first among all, and what they hold.
struct Block {
    first: usize,
    lines: Vec<String>,
}

impl Block {
    fn says(&self, line: &str) -> bool {
        self.lines.iter().any(|one| one.trim_end() == line)
    }

    fn number(&self, key: &str) -> i64 {
        let key = format!("{key}=");
        let value = self.lines.iter().find_map(|line| line.strip_prefix(&key));
        let value = value.map(|value| value.trim_end().trim_end_matches('?').parse());
        value.and_then(Result::ok).unwrap_or(0)
    }

    /// The place among all lines of its first mark.
    fn first_mark(&self) -> Option<usize> {
        let place = self.lines.iter().position(|line| line.contains('?'));
        place.map(|place| self.first + place)
    }

    fn on_line_kind(&self) -> bool {
        self.says("kind=gen") || self.says("kind=wind")
    }

    /// Whether the fault is about this resource.
    fn concerns(&self, fault: Fault) -> bool {
        match fault {
            Fault::OffNs => self.says("status=OFFNS"),
            Fault::Startup => {
                self.says("status=STARTUP") && self.on_line_kind() && self.number("nonspin") == 0
            }
            Fault::Below95 => {
                let below = 100 * self.number("net") < 95 * self.number("lsl");
                self.says("status=ON") && self.on_line_kind() && below
            }
            Fault::Cold30 => self.says("status=OFF") && self.says("cold30=1"),
            Fault::NotValidated => self.says("rrsok=0"),
            Fault::Clr => self.says("kind=clr"),
            Fault::OnTest => self.says("status=ONTEST"),
            Fault::OtherKinds => self.says("status=ON") && !self.on_line_kind(),
            Fault::OffWind => {
                let other = self.says("kind=wind") || self.says("kind=irr");
                other && self.says("status=OFF") && self.says("cold30=1")
            }
            _ => false,
        }
    }
}

/// The resources of a text, by their ids.
fn blocks(lines: &[String]) -> Vec<Block> {
    let mut firsts: Vec<usize> = (0..lines.len())
        .filter(|&place| lines[place].starts_with("id="))
        .collect();
    firsts.push(lines.len());
    let ends = firsts.windows(2);
    ends.map(|ends| Block {
        first: ends[0],
        lines: lines[ends[0]..ends[1]].to_vec(),
    })
    .collect()
}

/// The text without the marks on some lines.
fn unmarked(lines: &[String], dropped: impl Fn(usize) -> bool) -> Vec<u8> {
    let kept = lines.iter().enumerate().map(|(place, line)| {
        if dropped(place) {
            line.replace('?', "")
        } else {
            line.clone()
        }
    });
    kept.collect::<String>().into_bytes()
}

/// The text of the resources that stand before this line, with their count.
fn resources_above(lines: &[String], line: u64) -> Vec<u8> {
    let blocks = blocks(lines);
    let whole = |block: &&Block| block.first + block.lines.len() < line as usize;
    let above: Vec<&Block> = blocks.iter().take_while(whole).collect();
    let mut text = lines[..lines.len().min(7)].concat();
    text += &format!("count={}\n", above.len());
    for block in above {
        text += &block.lines.concat();
    }
    text.into_bytes()
}

/// The refusal by 15 at this place among the lines, counted from 0.
fn suspect(place: usize) -> Refusal {
    Refusal {
        number: 15,
        line: place as u64 + 1,
    }
}

/// What a faulty library makes of a text.
enum Seen {
    /// It reads another text.
    Text(Vec<u8>),
    Refused(Refusal),
}

/// What the fault makes of a text.
fn seen(fault: Fault, text: &[u8]) -> Seen {
    let right = refusal_of(text);
    let lines = lines_of(text);
    let told = |place: usize| lines.get(place).map_or("", |line| line.trim_end());
    let at = (right.line as usize).saturating_sub(1);
    let same = Seen::Text(text.to_vec());
    match (fault, right.number) {
        (Fault::Lsl, 15) => Seen::Text(unmarked(&lines, |place| told(place).starts_with("lsl="))),
        (Fault::OnTest | Fault::OtherKinds | Fault::OffWind, 0) => {
            let blocks = blocks(&lines);
            let concerned = blocks.iter().filter(|block| block.concerns(fault));
            let first = concerned.filter_map(Block::first_mark).next();
            first.map_or(same, |place| Seen::Refused(suspect(place)))
        }
        (Fault::BeforeBytes, 9) => match refusal_of(lines[..at].concat().as_bytes()) {
            early if early.number == 15 => Seen::Refused(early),
            _ => same,
        },
        (Fault::BeforeFaults, 3..=8) => match refusal_of(&resources_above(&lines, right.line)) {
            early if early.number == 15 => Seen::Refused(early),
            _ => same,
        },
        (Fault::IdLine, 15) => {
            let id = (0..at).rev().find(|&place| lines[place].starts_with("id="));
            Seen::Refused(suspect(id.unwrap_or(at)))
        }
        (Fault::LastLine, 15) => Seen::Refused(last_mark(&lines)),
        (Fault::TwoMarks, 6) if told(at).ends_with("??") => {
            let mut lines = lines.clone();
            lines[at] = lines[at].replacen("??", "?", 1);
            Seen::Text(lines.concat().into_bytes())
        }
        (Fault::MinusZero, 6) if told(at).ends_with("=-0?") => {
            let mut lines = lines.clone();
            lines[at] = lines[at].replace("-0?", "0?");
            Seen::Text(lines.concat().into_bytes())
        }
        (Fault::HeaderMark, 6) if at < 8 && told(at).ends_with('?') => {
            Seen::Text(unmarked(&lines, |place| place < 8))
        }
        (Fault::FlagMark, 6)
            if told(at).starts_with("cold30=") || told(at).starts_with("rrsok=") =>
        {
            Seen::Text(unmarked(&lines, |place| place == at))
        }
        (Fault::OutOfRange, 7) if told(at).ends_with('?') => {
            Seen::Refused(Refusal { number: 6, ..right })
        }
        (_, 15) => {
            let blocks = blocks(&lines);
            let dropped = |place: usize| {
                let block = blocks.iter().rev().find(|block| block.first <= place);
                block.is_some_and(|block| block.concerns(fault))
            };
            Seen::Text(unmarked(&lines, dropped))
        }
        _ => same,
    }
}

/// The last of the marks that turn a snapshot back.
fn last_mark(lines: &[String]) -> Refusal {
    let mut lines = lines.to_vec();
    let mut last = Refusal::NONE;
    loop {
        let next = refusal_of(lines.concat().as_bytes());
        if next.number != 15 {
            return last;
        }
        last = next;
        let place = next.line as usize - 1;
        lines[place] = lines[place].replace('?', "");
    }
}

impl Faulty<Fault> {
    /// The text that the library gives for values, or its refusal.
    fn text(&self, held: &Held) -> Result<Vec<u8>, Refusal> {
        let mut changed = held.clone();
        for row in 0..held.rows() {
            let row = changed.number_row(row);
            let counted = if row[0] < 4 { 63 } else { 15 };
            match self.0 {
                Fault::NegativeDropped if row[8] < 0 => row[8] = 0,
                Fault::TwosComplement if row[8] < 0 => row[8] &= counted,
                Fault::MoreRefused if row[8].unsigned_abs() > counted as u64 => row[2] = i64::MAX,
                Fault::FlagOutOfRange => {
                    let (flag, mark) = if row[0] == 5 { (2, 1) } else { (7, 32) };
                    let marked = row[0] != 4 && row[8].unsigned_abs() & mark != 0;
                    if marked && !(0..=1).contains(&row[flag]) {
                        row[8] = 0;
                    }
                }
                _ => {}
            }
        }
        let text = text_of(&changed)?;
        Ok(match self.0 {
            Fault::WriteDropped => unmarked(&lines_of(&text), |_| true),
            _ => text,
        })
    }
}

/// The text of values, or the refusal.
fn text_of(held: &Held) -> Result<Vec<u8>, Refusal> {
    let Held {
        header,
        ids,
        numbers,
    } = held;
    let mut length = 0;
    let refusal = Plain.snapshot_length(header, ids, numbers, &mut length);
    if !refusal.accepted() {
        return Err(refusal);
    }
    let mut text = vec![0; length];
    let refusal = Plain.write_snapshot(header, ids, numbers, &mut text, &mut length);
    assert!(refusal.accepted());
    Ok(text)
}

impl Spoils for Faulty<Fault> {
    fn price(&self, curves: &Curves, text: &[u8], answer: &mut Answer) -> Refusal {
        let before = *answer;
        // 1 and 2 come first in a faulty library too.
        let right = Plain.price(curves, text, answer);
        if matches!(right.number, 1 | 2) {
            return right;
        }
        *answer = before;
        let refusal = match seen(self.0, text) {
            Seen::Text(text) => Plain.price(curves, &text, answer),
            Seen::Refused(refusal) => refusal,
        };
        if self.0 == Fault::Price && refusal.accepted() && text.contains(&b'?') {
            answer[4] += 1;
        }
        refusal
    }

    fn read_snapshot(
        &self,
        text: &[u8],
        header: &mut Header,
        ids: &mut [u8],
        numbers: &mut [i64],
    ) -> Refusal {
        let before = numbers.to_vec();
        let refusal = match seen(self.0, text) {
            Seen::Text(text) => Plain.read_snapshot(&text, header, ids, numbers),
            Seen::Refused(refusal) => refusal,
        };
        if self.0 == Fault::SpaceFirst && refusal.number == 15 && ids.len() < ID_ROW {
            return SHORT;
        }
        if refusal.accepted() {
            let rows = numbers
                .chunks_mut(NUMBER_ROW)
                .zip(before.chunks(NUMBER_ROW));
            for (row, before) in rows.take(header[7] as usize) {
                match self.0 {
                    Fault::ReadDropped => row[8] = 0,
                    Fault::ReadShifted => row[8] *= 2,
                    Fault::ReadLeft if row[8] == 0 => row[8] = before[8],
                    _ => {}
                }
            }
        }
        refusal
    }

    fn snapshot_length(
        &self,
        header: &Header,
        ids: &[u8],
        numbers: &[i64],
        length: &mut usize,
    ) -> Refusal {
        let held = Held {
            header: *header,
            ids: ids.to_vec(),
            numbers: numbers.to_vec(),
        };
        match self.text(&held) {
            Ok(text) => {
                let marks = text.iter().filter(|&&byte| byte == b'?').count();
                let left_out = if self.0 == Fault::Length { marks } else { 0 };
                *length = text.len() - left_out;
                Refusal::NONE
            }
            Err(refusal) => refusal,
        }
    }

    fn write_snapshot(
        &self,
        header: &Header,
        ids: &[u8],
        numbers: &[i64],
        buffer: &mut [u8],
        written: &mut usize,
    ) -> Refusal {
        let held = Held {
            header: *header,
            ids: ids.to_vec(),
            numbers: numbers.to_vec(),
        };
        match self.text(&held) {
            Ok(text) if text.len() > buffer.len() => SHORT,
            Ok(text) => {
                *written = text.len();
                buffer[..text.len()].copy_from_slice(&text);
                Refusal::NONE
            }
            Err(refusal) => {
                let first = self.0 == Fault::ShortFirst && refusal.number == 15;
                if first && buffer.len() < 60 {
                    return SHORT;
                }
                refusal
            }
        }
    }
}

/// Whether an input carries marks.
fn has_marks(input: &Input) -> bool {
    match input {
        Input::Price { text, .. } | Input::ReadSnapshot { text, .. } => text.contains(&b'?'),
        Input::SnapshotLength { held } | Input::WriteSnapshot { held, .. } => {
            text_of(held).is_ok_and(|text| text.contains(&b'?'))
        }
        _ => false,
    }
}

#[test]
fn marks_are_accepted_and_refused_in_every_operation_that_takes_them() {
    let mut times = [[0; 2]; 4];
    for place in 0..20_000 {
        let one = input(&mut Random::at(1, place));
        let operation = match one {
            Input::Price { .. } => 0,
            Input::ReadSnapshot { .. } => 1,
            Input::SnapshotLength { .. } => 2,
            Input::WriteSnapshot { .. } => 3,
            _ => continue,
        };
        let outcome = run(&Plain, &one);
        assert_eq!(run(&Faulty(Fault::None), &one), outcome);
        match outcome.refusal.number {
            0 if has_marks(&one) => times[operation][0] += 1,
            15 => times[operation][1] += 1,
            _ => {}
        }
    }
    assert!(times.iter().flatten().all(|&times| times > 50), "{times:?}");
}

#[test]
fn faults_in_texts_are_found() {
    for fault in IN_TEXTS {
        let input = smallest(fault);
        assert!(
            matches!(input, Input::Price { .. } | Input::ReadSnapshot { .. }),
            "{fault:?}"
        );
    }
}

#[test]
fn faults_in_values_are_found() {
    for fault in IN_READING {
        let input = smallest(fault);
        assert!(matches!(input, Input::ReadSnapshot { .. }), "{fault:?}");
    }
    for fault in IN_WRITING {
        let input = smallest(fault);
        assert!(
            matches!(
                input,
                Input::SnapshotLength { .. } | Input::WriteSnapshot { .. }
            ),
            "{fault:?}"
        );
    }
}

#[test]
fn a_wrong_unit_stands_alone_with_one_mark() {
    for (fault, said) in [
        (Fault::OffNs, "status=OFFNS"),
        (Fault::Startup, "status=STARTUP"),
        (Fault::Below95, "status=ON"),
        (Fault::Cold30, "status=OFF"),
        (Fault::NotValidated, "rrsok=0"),
        (Fault::Clr, "kind=clr"),
        (Fault::OnTest, "status=ONTEST"),
        (Fault::OtherKinds, "status=ON"),
        (Fault::OffWind, "status=OFF"),
        (Fault::IdLine, ""),
        (Fault::Price, ""),
        (Fault::ReadDropped, ""),
        (Fault::ReadShifted, ""),
    ] {
        let (Input::Price { text, .. } | Input::ReadSnapshot { text, .. }) = smallest(fault) else {
            panic!("{fault:?} is in texts");
        };
        let lines = lines_of(&text);
        let blocks = blocks(&lines);
        assert_eq!(blocks.len(), 1, "{fault:?}: {lines:?}");
        assert!(
            said.is_empty() || blocks[0].says(said),
            "{fault:?}: {lines:?}"
        );
        let marks = text.iter().filter(|&&byte| byte == b'?').count();
        assert_eq!(marks, 1, "{fault:?}: {lines:?}");
    }
}

#[test]
fn wrong_marks_of_values_stand_alone() {
    for (fault, due) in [
        (Fault::WriteDropped, 1),
        (Fault::Length, 1),
        (Fault::NegativeDropped, 1),
        (Fault::TwosComplement, 1),
        (Fault::MoreRefused, 1),
        (Fault::FlagOutOfRange, 1),
    ] {
        let (Input::SnapshotLength { held } | Input::WriteSnapshot { held, .. }) = smallest(fault)
        else {
            panic!("{fault:?} is in writing");
        };
        assert_eq!(held.rows(), due, "{fault:?}: {held:?}");
    }
}

#[test]
fn other_marks_change_nothing() {
    let mut counts = marks::Counts::default();
    for place in 0..400 {
        counts.add(&marks::check(&Plain, &mut Random::at(3, place)).unwrap());
    }
    assert_eq!(counts.snapshots, 400);
    assert!(counts.marked > 200, "{counts:?}");
    assert!(counts.priced > 20, "{counts:?}");
    assert!(counts.refused > 200, "{counts:?}");
}

#[test]
fn what_a_mark_changes_is_told() {
    for (fault, reason) in [
        (Fault::OffNs, "and not 15 line"),
        (Fault::Startup, "and not 15 line"),
        (Fault::Below95, "and not 15 line"),
        (Fault::NotValidated, "and not 15 line"),
        (Fault::OnTest, "priced: refused 15 line"),
        (Fault::IdLine, "priced: refused 15 line"),
        (Fault::LastLine, "priced: refused 15 line"),
        (Fault::Price, "without marks"),
        (Fault::SpaceFirst, "read: refused 14 line 0"),
        (Fault::WriteDropped, ""),
        (Fault::ShortFirst, "written: refused 14 line 0"),
    ] {
        let told = (0..400)
            .find_map(|place| marks::check(&Faulty(fault), &mut Random::at(3, place)).err());
        if reason.is_empty() {
            // The round trips find this one.
            assert_eq!(told, None, "{fault:?}");
            continue;
        }
        let told = told.unwrap_or_else(|| panic!("{fault:?} is not told"));
        assert!(told.contains(reason), "{fault:?}: {told}");
        assert!(told.contains("text of"), "{told}");
    }
}

#[test]
fn a_mark_that_is_lost_on_a_round_trip_is_told() {
    for (fault, reason) in [
        (Fault::ReadDropped, "read again as"),
        (Fault::ReadShifted, "read again as"),
        (Fault::ReadLeft, "read again as"),
        (Fault::WriteDropped, "written as \""),
        (Fault::Length, "bytes were told, and"),
        (Fault::NegativeDropped, "written as \""),
        (Fault::MoreRefused, "refused 7 line"),
    ] {
        let told = (0..400)
            .find_map(|place| trip::check(&Faulty(fault), &mut Random::at(3, place)).err())
            .unwrap_or_else(|| panic!("{fault:?} is not told"));
        assert!(told.contains(reason), "{fault:?}: {told}");
    }
}
