//! Executes random commands in a world, sends their lines to the program for lines, and compares
//! the answers: `beside_lines PROGRAM COUNT SEED`.
use rhai_world::{Answer, ArithmeticFault, Command, Error, Limits, Name, Operator, Place, Refusal, SizeKind, Type, World};
use std::io::{Read, Write};
use std::process::{Command as Program, Stdio};

const NAMES: [&str; 5] = ["a", "b", "count", "x_1", "name_of_more_than_twenty_four_letters"];

/// Pseudo-random numbers from a seed.
struct Random(u64);

impl Random {
    fn next(&mut self) -> u64 {
        self.0 ^= self.0 << 13;
        self.0 ^= self.0 >> 7;
        self.0 ^= self.0 << 17;
        self.0
    }

    fn below(&mut self, n: usize) -> usize {
        (self.next() >> 16) as usize % n
    }

    fn coin(&mut self) -> bool {
        self.below(2) == 0
    }

    fn int(&mut self) -> i64 {
        match self.below(4) {
            0 => self.next() as i64,
            1 => [i64::MIN, i64::MAX, -1, 0][self.below(4)],
            _ => self.below(20) as i64 - 5,
        }
    }
}

struct Session {
    world: World,
    names: Vec<Name>,
    random: Random,
    marks: usize,
}

type Said = (String, Result<Answer, Error>);

impl Session {
    fn new(seed: u64) -> Result<Session, Error> {
        let mut world = World::new(Limits::default())?;
        let names = NAMES.iter().map(|name| world.name(name)).collect::<Result<_, _>>()?;
        Ok(Session { world, names, random: Random(seed | 1), marks: 0 })
    }

    fn at(&mut self) -> usize {
        let length = self.world.hand_len();
        self.random.below(length + 1 + length / 8)
    }

    fn name(&mut self) -> Name {
        self.names[self.random.below(NAMES.len())]
    }

    fn place(&mut self) -> Place {
        if self.random.coin() {
            Place::Entry(self.name())
        } else {
            Place::Hand(self.at())
        }
    }

    fn kind(&mut self) -> Type {
        Type::ALL[self.random.below(Type::ALL.len())]
    }

    fn operator(&mut self) -> Operator {
        Operator::ALL[self.random.below(Operator::ALL.len())]
    }

    fn does(&mut self, command: Command) -> Said {
        let line = self.world.line_of(&command).unwrap_or_else(|error| format!("{command:?}: {error}"));
        (line, self.world.apply(&command))
    }

    fn list(&mut self) -> Vec<Name> {
        (0..=self.random.below(3)).map(|_| self.name()).collect()
    }

    fn literal(&mut self) -> Said {
        let n = self.random.next();
        let wide = u128::from(n) << 64 | u128::from(self.random.next());
        let int = self.random.int();
        match self.random.below(17) {
            0 => self.does(Command::PutUnit {}),
            1 => self.does(Command::PutBool { truth: n & 1 == 0 }),
            2 => self.does(Command::PutU8 { n: n as u8 }),
            3 => self.does(Command::PutU16 { n: n as u16 }),
            4 => self.does(Command::PutU32 { n: n as u32 }),
            5 => self.does(Command::PutU64 { n }),
            6 => self.does(Command::PutU128 { n: wide }),
            7 => self.does(Command::PutI8 { n: n as i8 }),
            8 => self.does(Command::PutI16 { n: n as i16 }),
            9 => self.does(Command::PutI32 { n: n as i32 }),
            10 => self.does(Command::PutI128 { n: wide as i128 }),
            11 => self.does(Command::PutRange { start: int, end: n as i64 }),
            12 => self.does(Command::PutRangeWithEnd { start: int, end: 9 }),
            13 => {
                let character = char::from_u32(33 + (n % 400) as u32).unwrap_or('x');
                self.does(Command::PutChar { character })
            }
            14 => {
                let text = (0..n % 30).map(|i| char::from_u32(97 + ((n >> i) % 300) as u32).unwrap_or('y')).collect();
                self.does(Command::PutText { text })
            }
            15 => self.does(Command::PutBlob { bytes: n.to_le_bytes()[..(n % 9) as usize].into() }),
            _ => self.does(Command::PutInt { n: int }),
        }
    }

    fn hand(&mut self) -> Said {
        let (i, j, int) = (self.at(), self.at(), self.random.int());
        let count = self.random.below(4);
        let kind = self.kind();
        match self.random.below(15) {
            0 => self.does(Command::MakeArray { count }),
            1 => self.does(Command::Copy { i }),
            2 => self.does(Command::FlattenClone { i }),
            3 => self.does(Command::Take { i }),
            4 => self.does(Command::Drop {}),
            5 => self.does(Command::Share { i }),
            6 => self.does(Command::Flatten { i }),
            7 => self.does(Command::Cast { i, kind }),
            8 => self.does(Command::MakeReadOnly { i }),
            9 => self.does(Command::SetTag { i, tag: int as i32 }),
            10 => self.does(Command::WriteInt { i, n: int }),
            11 => self.does(Command::Write { i, j }),
            12 => {
                let keys = self.list();
                self.does(Command::MakeMap { keys })
            }
            13 => {
                let name = self.name();
                self.does(Command::MakeFn { name, count })
            }
            _ => {
                let operator = self.operator();
                self.does(Command::Binary { operator, i, j })
            }
        }
    }

    fn ask(&mut self) -> Said {
        let i = self.at();
        let kind = self.kind();
        match self.random.below(16) {
            0 => self.does(Command::Tag { i }),
            1 => self.does(Command::IsVariant { i }),
            2 => self.does(Command::IsShared { i }),
            3 => self.does(Command::IsReadOnly { i }),
            4 => self.does(Command::IsLocked { i }),
            5 => self.does(Command::TypeName { i }),
            6 => self.does(Command::IsHashable { i }),
            7 => self.does(Command::AsUnit { i }),
            8 => self.does(Command::AsInt { i }),
            9 => self.does(Command::AsBool { i }),
            10 => self.does(Command::AsChar { i }),
            11 => self.does(Command::IsType { i, kind }),
            12 => self.does(Command::IsHeld { i, kind }),
            13 => self.does(Command::Show { i }),
            14 => self.does(Command::Debug { i }),
            _ => self.does(Command::Hash { i }),
        }
    }

    fn entry(&mut self) -> Said {
        let i = self.at();
        let name = self.name();
        let kind = self.kind();
        let value = self.random.int();
        match self.random.below(18) {
            0 => self.does(Command::Push { name, i }),
            1 => self.does(Command::PushDynamic { name, i }),
            2 => self.does(Command::PushConstant { name, i }),
            3 => self.does(Command::SetEntry { name, i }),
            4 => self.does(Command::SetOrPush { name, i }),
            5 => self.does(Command::SetValue { name, i }),
            6 => self.does(Command::Contains { name }),
            7 => self.does(Command::Search { name }),
            8 => self.does(Command::IsConstant { name }),
            9 => self.does(Command::Get { name }),
            10 => self.does(Command::Aliases { name }),
            11 => self.does(Command::GetValue { name, kind }),
            12 => self.does(Command::GetRef { name, kind }),
            13 => self.does(Command::Remove { name, kind }),
            14 => self.does(Command::SetRef { name, value }),
            15 => {
                let alias = NAMES[self.random.below(NAMES.len())].into();
                self.does(Command::SetAlias { name, alias })
            }
            16 => {
                let names = self.list();
                self.does(Command::Extend { names })
            }
            _ => {
                let names = self.list().into_iter().map(|name| (name, self.random.coin())).collect();
                self.does(Command::ExtendFlagged { names })
            }
        }
    }

    fn scope(&mut self) -> Said {
        let count = self.random.below(6);
        match self.random.below(11) {
            0 => self.does(Command::Pop {}),
            1 => self.does(Command::Rewind { count }),
            2 => self.does(Command::Len {}),
            3 => self.does(Command::IsEmpty {}),
            4 => self.does(Command::KeepVisible {}),
            5 => self.does(Command::CopyScope {}),
            6 => self.does(Command::Entries {}),
            7 => self.does(Command::Names {}),
            8 => self.does(Command::ShowScope {}),
            9 => self.does(Command::HashScope {}),
            _ => self.does(Command::Clear {}),
        }
    }

    fn place_or_mark(&mut self) -> Said {
        let place = self.place();
        let (j, mark, index) = (self.at(), self.random.below(3), self.random.below(5));
        let (bit, int) = (self.random.below(66) as u8, self.random.int());
        match self.random.below(16) {
            0 => {
                let said = self.does(Command::Mark { place });
                self.marks += usize::from(said.1.is_ok());
                said
            }
            1 => {
                let said = self.does(Command::Unmark { mark });
                self.marks -= usize::from(said.1.is_ok());
                said
            }
            2 => self.does(Command::WriteMarked { mark, i: j }),
            3 => self.does(Command::ReadMarked { mark }),
            4 => self.does(Command::WriteBit { place, bit, j }),
            5 => self.does(Command::WriteField { place, mask: int, shift: bit, j }),
            6 => self.does(Command::WriteByte { place, index, j }),
            7 => self.does(Command::WriteChar { place, index, j }),
            8 => self.does(Command::WriteSlice { place, start: mark, end: index, exclusive: true, j }),
            9 => self.does(Command::WriteSlice { place, start: mark, end: index, exclusive: false, j }),
            10 => self.does(Command::Offset { length: index, start: int, count: int / 2 }),
            11 => self.does(Command::Index { length: index, index: int, from_end: true }),
            12 => self.does(Command::Index { length: index, index: int, from_end: false }),
            13 => self.scan(j),
            _ => {
                let operator = self.operator();
                self.does(Command::Assign { operator, place, j })
            }
        }
    }

    fn scan(&mut self, i: usize) -> Said {
        let count = self.random.below(3);
        match self.random.below(4) {
            0 => self.does(Command::ScanTags { i, tag: count as i32 }),
            1 => self.does(Command::ScanZero { i }),
            2 => self.does(Command::ScanNoShare { i }),
            _ => self.does(Command::ScanCut { i, count }),
        }
    }

    fn step(&mut self) -> Said {
        match self.random.below(12) {
            0..=2 => self.literal(),
            3..=5 => self.hand(),
            6 => self.ask(),
            7 | 8 => self.entry(),
            9 => self.scope(),
            _ => self.place_or_mark(),
        }
    }

    /// Returns lines that empty hand, scope and marks, with their answers.
    fn reset(&mut self) -> Vec<Said> {
        let mut said = vec![self.does(Command::Clear {})];
        for _ in 0..self.world.hand_len() {
            said.push(self.does(Command::Drop {}));
        }
        while self.marks > 0 {
            said.push(self.does(Command::Unmark { mark: 0 }));
            self.marks -= 1;
        }
        said
    }
}

fn refusal(why: &Refusal) -> String {
    match why {
        Refusal::Mismatch(held) => format!("Mismatch {held}"),
        Refusal::WrongType(wanted, found) => format!("ErrorMismatchDataType {wanted} {found}"),
        Refusal::DataRace => "ErrorDataRace".into(),
        Refusal::Arithmetic(ArithmeticFault::Overflow) => "ErrorArithmetic Overflow".into(),
        Refusal::Arithmetic(ArithmeticFault::DivisionByZero) => "ErrorArithmetic DivisionByZero".into(),
        Refusal::Arithmetic(ArithmeticFault::NegativePower) => "ErrorArithmetic NegativePower".into(),
        Refusal::Arithmetic(ArithmeticFault::PowerTooLarge) => "ErrorArithmetic PowerTooLarge".into(),
        Refusal::TooLarge(SizeKind::Text) => "ErrorDataTooLarge Text".into(),
        Refusal::TooLarge(SizeKind::Items) => "ErrorDataTooLarge Items".into(),
        named => format!("{named:?}"),
    }
}

fn printed(answer: &Result<Answer, Error>) -> String {
    match answer {
        Ok(Answer::Done) => "ok".into(),
        Ok(Answer::Bool(truth)) => truth.to_string(),
        Ok(Answer::Int(n)) => n.to_string(),
        Ok(Answer::Text(text)) => text.clone(),
        Ok(Answer::Bytes(bytes)) => bytes.iter().map(|byte| format!("{byte:02x}")).collect(),
        Ok(Answer::Pair(first, second)) => format!("{first} {second}"),
        Ok(Answer::Nothing) => "none".into(),
        Ok(other) => format!("{other:?}"),
        Err(Error::Refused(why)) => format!("refused {}", refusal(why)),
        Err(error) => format!("{error}"),
    }
}

/// Returns what the program prints for these lines.
fn program(path: &str, lines: &str) -> std::io::Result<Vec<u8>> {
    let mut child = Program::new(path).stdin(Stdio::piped()).stdout(Stdio::piped()).spawn()?;
    let mut input = child.stdin.take().expect("it is piped");
    let mut found = Vec::new();
    std::thread::scope(|scope| {
        scope.spawn(move || input.write_all(lines.as_bytes()));
        child.stdout.take().expect("it is piped").read_to_end(&mut found)
    })?;
    child.wait()?;
    Ok(found)
}

/// Runs one world of some commands: returns the first line with a different answer, if there is
/// one.
fn round(path: &str, count: usize, seed: u64) -> Result<Option<String>, Box<dyn std::error::Error>> {
    let mut session = Session::new(seed)?;
    let mut said = Vec::new();
    while said.len() < count {
        said.push(session.step());
        if said.len() % 60 == 0 {
            said.extend(session.reset());
        }
    }
    let lines: String = said.iter().map(|(line, _)| format!("{line}\n")).collect();
    let found = program(path, &lines)?;
    let mut left = &found[..];
    for (line, answer) in &said {
        let expected = format!("{}\n", printed(answer));
        match left.strip_prefix(expected.as_bytes()) {
            Some(rest) => left = rest,
            None => {
                let shown = String::from_utf8_lossy(&left[..left.len().min(200)]).into_owned();
                return Ok(Some(format!("{line}: {expected}beside: {shown}")));
            }
        }
    }
    Ok(None)
}

fn main() -> Result<(), Box<dyn std::error::Error>> {
    let words: Vec<String> = std::env::args().skip(1).collect();
    let [path, count, seed] = words.as_slice() else {
        println!("beside_lines PROGRAM COUNT SEED");
        return Ok(());
    };
    let (count, seed): (usize, u64) = (count.parse()?, seed.parse()?);
    let mut done = 0;
    while done < count {
        let some = (count - done).min(50_000);
        if let Some(other) = round(path, some, (seed + done as u64).wrapping_mul(0x9e37_79b9_7f4a_7c15))? {
            println!("{other}");
            std::process::exit(1);
        }
        done += some;
    }
    println!("{done} commands, the same answers");
    Ok(())
}
