//! Random commands, most of which a world can execute as it is.

use crate::dice::{blob, block_text, int, small, tag, text, Dice, CHARS};
use crate::machine::command::{Command, Host, Kind, Literal, Place, Question, Scanner, KINDS};
use crate::machine::World;
use crate::style::{Style, Theme};
use rhai::Token;

/// What a random command is made with.
pub struct Maker<'m> {
    pub d: &'m mut Dice,
    pub world: &'m World,
    pub style: &'m Style,
}

impl Maker<'_> {
    fn name(&mut self) -> String {
        self.d.pick(&self.style.names)
    }

    /// A position, which mostly is one in the hand.
    fn position(&mut self) -> usize {
        let (hand, ..) = self.world.sizes();
        if hand == 0 || self.d.one_in(40) {
            return self.d.pick(&[hand, hand + 1, 99, usize::MAX]);
        }
        self.d.below(hand as u64) as usize
    }

    /// A position, mostly of a value that holds the named type.
    fn position_of(&mut self, kinds: &[&str]) -> usize {
        for _ in 0..6 {
            let at = self.position();
            if kinds.contains(&self.world.kind_at(at)) {
                return at;
            }
        }
        self.position()
    }

    /// A position, half of the time of a holder.
    fn position_of_holder(&mut self) -> usize {
        let wanted = self.d.one_in(2);
        for _ in 0..6 {
            let at = self.position();
            if !wanted || self.world.is_holder(at) {
                return at;
            }
        }
        self.position()
    }

    fn place(&mut self) -> Place {
        if self.d.below(5) < 2 {
            Place::Entry(self.name())
        } else {
            Place::Hand(self.position_of_holder())
        }
    }

    fn place_of(&mut self, kinds: &[&str]) -> Place {
        if self.d.below(5) < 1 {
            Place::Entry(self.name())
        } else {
            Place::Hand(self.position_of(kinds))
        }
    }

    fn kind(&mut self) -> Kind {
        Kind(self.d.below(KINDS.len() as u64) as usize)
    }

    /// A type, half of the time that of the value at a position.
    fn kind_of(&mut self, at: usize) -> Kind {
        let own = KINDS.iter().position(|name| *name == self.world.kind_at(at));
        match own {
            Some(own) if self.d.one_in(2) => Kind(own),
            Some(_) | None => self.kind(),
        }
    }

    fn count(&mut self) -> usize {
        self.d.pick(&[0, 0, 1, 1, 2, 3, 4])
    }

    /// How many names such a command takes; in a wide world sometimes one for each value in the hand.
    fn names(&mut self) -> Vec<String> {
        let (hand, ..) = self.world.sizes();
        let is_wide = self.style.theme == Theme::Wide && self.d.one_in(2);
        let count = if is_wide { hand } else { self.count() };
        (0..count).map(|_| self.name()).collect()
    }

    fn mark(&mut self) -> usize {
        let (_, _, marks) = self.world.sizes();
        self.d.below(marks as u64 + 1) as usize
    }

    fn literal(&mut self) -> Literal {
        let alike = self.style.theme == Theme::Alike;
        let d = &mut *self.d;
        match d.below(14) {
            0 => Literal::Unit,
            1 | 2 => Literal::Bool(d.one_in(2)),
            3..=5 => Literal::Int(int(d)),
            6 | 7 => Literal::Char(d.pick(&CHARS[..11])),
            8 | 9 => Literal::Text(if alike && d.one_in(2) { block_text(d) } else { text(d) }.replace('\n', "\r")),
            10 | 11 => Literal::Blob(blob(d)),
            12 => {
                let n = d.pick(&[0, 1, 127, 128, 255, u128::MAX, u128::MAX >> 1, 1 << 63, 1 << 127, 0xffff_ffff]);
                Literal::Host(Host(d.below(9) as u8, n))
            }
            _ => {
                let (start, end) = (small(d), small(d));
                if d.one_in(2) {
                    Literal::Range(start, end)
                } else {
                    Literal::RangeEq(start, end)
                }
            }
        }
    }

    fn question(&mut self, at: usize) -> Question {
        match self.d.below(13) {
            0 => Question::Tag,
            1 => Question::Variant,
            2 => Question::Shared,
            3 => Question::ReadOnly,
            4 => Question::Locked,
            5 => Question::TypeName,
            6 => Question::Held(self.kind_of(at)),
            7 => Question::Hashable,
            8 => Question::Is(self.kind_of(at)),
            9 => Question::Unit,
            10 => Question::Int,
            11 => Question::Bool,
            _ => Question::Char,
        }
    }

    fn scanner(&mut self) -> Scanner {
        match self.d.below(4) {
            0 => Scanner::Tags(tag(self.d)),
            1 => Scanner::Zero,
            2 => Scanner::NoShare,
            _ => Scanner::Cut(self.count()),
        }
    }

    /// The first twenty tokens are operators, the others assignments.
    fn token(&mut self, assigning: bool) -> Token {
        let all = Token::ALL;
        if self.d.one_in(40) {
            return self.d.pick(all);
        }
        if !assigning {
            return self.d.pick(&all[..20]);
        }
        if self.d.one_in(3) {
            Token::PlusAssign
        } else {
            self.d.pick(&all[20..])
        }
    }

    /// Two positions, half of the time of values that hold the same type.
    fn two(&mut self) -> (usize, usize) {
        let first = self.position();
        let kind = self.world.kind_at(first);
        if kind.is_empty() || self.d.one_in(2) {
            (first, self.position())
        } else {
            (first, self.position_of(&[kind]))
        }
    }

    fn values(&mut self) -> Command {
        let at = self.position();
        match self.d.below(9) {
            0 => Command::MakeArray(self.count()),
            1 => Command::MakeMap(self.names()),
            2 => Command::MakeFn(self.name(), self.count()),
            3 => Command::Copy(self.position_of_holder()),
            4 => Command::FlattenClone(self.position_of_holder()),
            5 => Command::Cast(at, self.kind_of(at)),
            6 => Command::Take(at),
            7 => Command::Drop,
            _ => {
                let (i, j) = self.two();
                Command::Binary(self.token(false), i, j)
            }
        }
    }

    fn change(&mut self) -> Command {
        let at = self.position();
        match self.d.below(14) {
            0..=2 => Command::Share(at),
            3 => Command::Flatten(self.position_of_holder()),
            4 => Command::MakeReadOnly(at),
            5 => Command::SetTag(at, tag(self.d)),
            6 => Command::WriteInt(self.position_of(&["i64"]), int(self.d)),
            7 | 8 => Command::Write(self.position_of_holder(), self.position_of_holder()),
            9 => Command::Scan(at, self.scanner()),
            _ => {
                let (i, j) = self.two();
                let place = if self.d.one_in(3) { Place::Entry(self.name()) } else { Place::Hand(i) };
                Command::Assign(self.token(true), place, j)
            }
        }
    }

    fn part(&mut self) -> Command {
        match self.d.below(5) {
            0 => Command::WriteBit(self.place_of(&["i64"]), self.d.below(70) as u8, self.position_of(&["bool"])),
            1 => Command::WriteField(self.place_of(&["i64"]), int(self.d), self.d.below(70) as u8, self.position_of(&["i64"])),
            2 => Command::WriteByte(self.place_of(&["blob"]), self.count(), self.position_of(&["i64"])),
            3 => Command::WriteChar(self.place_of(&["string"]), self.count(), self.position_of(&["char"])),
            _ => {
                let (start, end) = (self.count(), self.d.pick(&[0, 1, 2, 3, usize::MAX]));
                Command::WriteSlice(self.place_of(&["string"]), start, end, self.d.one_in(2), self.position())
            }
        }
    }

    fn asked(&mut self) -> Command {
        let at = self.position();
        match self.d.below(8) {
            0..=3 => Command::Ask(at, self.question(at)),
            4 => Command::Show(at),
            5 => Command::Debug(at),
            6 => Command::Hash(at),
            _ if self.d.one_in(2) => Command::Offset(self.count(), small(self.d), small(self.d)),
            _ => Command::Index(self.count(), small(self.d), self.d.one_in(2)),
        }
    }

    fn mark_command(&mut self) -> Command {
        match self.d.below(5) {
            0 | 1 => Command::Mark(self.place()),
            2 => Command::Unmark(self.mark()),
            3 => Command::WriteMarked(self.mark(), self.position()),
            _ => Command::ReadMarked(self.mark()),
        }
    }

    fn into_entry(&mut self) -> Command {
        let (name, at) = (self.name(), self.position());
        match self.d.below(8) {
            0 => Command::Push(name, at),
            1 => Command::PushDynamic(name, at),
            2 => Command::PushConstant(name, at),
            3 => Command::SetEntry(name, at),
            4 => Command::SetOrPush(name, at),
            5 => Command::SetValue(name, at),
            6 => Command::Extend(self.names()),
            _ => Command::ExtendFlagged(self.names().into_iter().map(|name| (name, self.d.one_in(3))).collect()),
        }
    }

    fn entry(&mut self) -> Command {
        let name = self.name();
        match self.d.below(12) {
            0 => Command::Contains(name),
            1 => Command::Search(name),
            2 => Command::IsConstant(name),
            3 | 4 => Command::Get(name),
            5 => Command::GetValue(name, self.kind()),
            6 => Command::GetRef(name, self.kind()),
            7 => Command::SetRef(name, int(self.d)),
            8 => Command::Remove(name, self.kind()),
            9 => Command::SetAlias(name, if self.d.one_in(4) { String::new() } else { self.name() }),
            10 => Command::Aliases(name),
            _ => Command::Get(name),
        }
    }

    fn scope(&mut self) -> Command {
        match self.d.below(12) {
            0 => Command::Pop,
            1 => Command::Rewind(self.d.below(self.style.entries as u64) as usize),
            2 => {
                if self.d.one_in(if self.style.theme == Theme::Wide { 40 } else { 4 }) {
                    Command::Clear
                } else {
                    Command::Pop
                }
            }
            3 => Command::Len,
            4 => Command::IsEmpty,
            5 => Command::KeepVisible,
            6 => Command::CopyScope,
            7 => {
                if self.d.one_in(3) {
                    Command::Entries
                } else {
                    Command::Len
                }
            }
            8 => Command::Names,
            9 | 10 => Command::ShowScope,
            _ => Command::HashScope,
        }
    }

    /// A place of a value that is a holder, if there is one.
    fn holder(&mut self) -> Place {
        for _ in 0..12 {
            let at = self.position();
            if self.world.is_holder(at) {
                return Place::Hand(at);
            }
        }
        self.place()
    }

    /// A command for a world of marks: values are put into cells, and the cells marked, written and released in any order.
    fn marking(&mut self) -> Option<Command> {
        let (_, _, marks) = self.world.sizes();
        match self.d.below(12) {
            0 => Some(Command::Put(self.literal())),
            1 | 2 => Some(Command::Share(self.position())),
            3 | 4 if marks < 8 => Some(Command::Mark(self.holder())),
            5 => Some(Command::WriteMarked(self.mark(), self.position())),
            6 => Some(Command::ReadMarked(self.mark())),
            7 if marks > 3 || self.d.one_in(3) => Some(Command::Unmark(self.mark())),
            _ => None,
        }
    }

    /// A command for a world of many entries: more of them, and look-ups.
    fn widening(&mut self) -> Option<Command> {
        let (_, entries, _) = self.world.sizes();
        match self.d.below(8) {
            0..=3 if entries < self.style.entries / 2 => Some(self.into_entry()),
            4 if entries < self.style.entries / 2 => Some(Command::Put(self.literal())),
            5 => Some(self.entry()),
            6 => Some(Command::Search(self.name())),
            _ => None,
        }
    }

    fn general(&mut self) -> Command {
        match self.d.below(20) {
            0..=3 => Command::Put(self.literal()),
            4..=6 => self.values(),
            7..=9 => self.change(),
            10 | 11 => self.part(),
            12 | 13 => self.asked(),
            14 => {
                if self.d.one_in(2) {
                    self.mark_command()
                } else {
                    self.change()
                }
            }
            15 | 16 => self.into_entry(),
            17 | 18 => self.entry(),
            _ => self.scope(),
        }
    }

    /// A command.
    pub fn command(&mut self) -> Command {
        let (hand, entries, _) = self.world.sizes();
        if hand > self.style.values {
            return Command::Drop;
        }
        if entries > self.style.entries {
            return Command::Rewind(self.d.below(entries as u64) as usize);
        }
        let themed = match self.style.theme {
            Theme::Marked => self.marking(),
            Theme::Wide => self.widening(),
            Theme::Plain | Theme::Alike => None,
        };
        themed.unwrap_or_else(|| self.general())
    }
}

/// Commands that leave a world empty.
#[must_use]
pub fn emptying(world: &World) -> Vec<Command> {
    let (hand, _, marks) = world.sizes();
    let unmarked = std::iter::repeat_n(Command::Unmark(0), marks);
    unmarked.chain([Command::Clear]).chain(std::iter::repeat_n(Command::Drop, hand)).collect()
}
