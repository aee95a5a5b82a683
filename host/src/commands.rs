//! Each command, as a method of a world, as a value for lists, and as a line.
use crate::answer::Answer;
use crate::error::Error;
use crate::kinds::{Operator, Type};
use crate::names::{Name, Place, Serials};
use crate::spelling::{written, Word};
use crate::sys::{self, Told};
use crate::world::World;

macro_rules! commands {
    (
        reads { $($(#[$read_doc:meta])* $read:ident $reading:ident($($read_argument:ident: $read_type:ty => ($($read_passed:expr),+)),*) $read_kind:ident -> $read_result:ty = $read_line:literal;)* }
        writes { $($(#[$doc:meta])* $variant:ident $method:ident($($argument:ident: $type:ty => ($($passed:expr),+)),*) $kind:ident -> $result:ty = $line:literal $(, $key:ident = $text:expr)?;)* }
        lists { $($(#[$list_doc:meta])* $list:ident $doing:ident($($part:ident: $part_type:ty => $lent:expr),*) = $list_line:literal;)* }
    ) => {
        /// A command, as a value. The method of the same name, in snake case, says what it does.
        #[derive(Clone, Debug, PartialEq, Eq, Hash)]
        #[non_exhaustive]
        #[repr(u8)]
        pub enum Command {
            $($(#[$read_doc])* #[allow(missing_docs)] $read { $($read_argument: $read_type),* },)*
            $($(#[$doc])* #[allow(missing_docs)] $variant { $($argument: $type),* },)*
            $($(#[$list_doc])* #[allow(missing_docs)] $list { $($part: $part_type),* },)*
        }

        impl World {
            $($(#[$read_doc])*
            #[inline]
            pub fn $reading(&self, $($read_argument: $read_type),*) -> Result<$read_result, Error> {
                $(let $read_argument = $read_argument.passed(&self.names)?;)*
                let mut told = Told::default();
                let status = sys::$reading(&self.handle, $($($read_passed,)+)* &mut told);
                self.$read_kind(status, &told)
            })*

            $($(#[$doc])*
            #[inline]
            pub fn $method(&mut self, $($argument: $type),*) -> Result<$result, Error> {
                $(let $argument = $argument.passed(&self.names)?;)*
                let mut told = Told::default();
                let status = sys::$method(&self.handle, $($($passed,)+)* &mut told);
                self.$kind(status, &told)
            })*

            /// Does a command.
            #[inline]
            pub fn apply(&mut self, command: &Command) -> Result<Answer, Error> {
                let mut told = Told::default();
                let status = match command {
                    $(Command::$read { $($read_argument),* } => {
                        $(let $read_argument = $read_argument.passed(&self.names)?;)*
                        sys::$reading(&self.handle, $($($read_passed,)+)* &mut told)
                    })*
                    $(Command::$variant { $($argument),* } => {
                        $(let $argument = $argument.passed(&self.names)?;)*
                        sys::$method(&self.handle, $($($passed,)+)* &mut told)
                    })*
                    $(Command::$list { $($part),* } => return self.$doing($($lent),*).map(|()| Answer::Done),)*
                };
                self.answer(status, &told)
            }

            /// Writes a line that asks the library for a command. The line that users see is
            /// written by the library.
            pub(crate) fn asked(&self, command: &Command) -> Result<String, Error> {
                match command {
                    $(Command::$read { $($read_argument),* } => {
                        $(let $read_argument = $read_argument.said(self)?;)*
                        written(format_args!($read_line))
                    })*
                    $(Command::$variant { $($argument),* } => {
                        $(let $argument = $argument.said(self)?;)*
                        written(format_args!($line $(, $key = $text)?))
                    })*
                    $(Command::$list { $($part),* } => {
                        $(let $part = $part.said(self)?;)*
                        written(format_args!($list_line))
                    })*
                }
            }
        }
    };
}

/// How an argument is passed in a call.
trait Argument: Copy {
    type Passed;

    fn passed(self, names: &Serials) -> Result<Self::Passed, Error>;
}

macro_rules! plain {
    ($($kind:ty)*) => {
        $(impl Argument for $kind {
            type Passed = $kind;

            #[inline]
            fn passed(self, _: &Serials) -> Result<$kind, Error> {
                Ok(self)
            }
        })*
    };
}

plain! { bool char u8 u16 u32 u64 u128 usize i8 i16 i32 i64 i128 Type Operator }

impl Argument for Name {
    type Passed = usize;

    #[inline]
    fn passed(self, names: &Serials) -> Result<usize, Error> {
        names.number(self)
    }
}

impl Argument for Place {
    type Passed = (bool, usize);

    #[inline]
    fn passed(self, names: &Serials) -> Result<(bool, usize), Error> {
        names.place(self)
    }
}

commands! {
    reads {
        /// Returns the tag of the value at the hand position.
        Tag tag(i: usize => (i)) tag_of -> i32 = "ask {i} tag";
        /// Returns whether the value at the hand position is of one of the host's types.
        IsVariant is_variant(i: usize => (i)) truth -> bool = "ask {i} variant";
        /// Returns whether the value at the hand position is a holder.
        IsShared is_shared(i: usize => (i)) truth -> bool = "ask {i} shared";
        /// Returns whether the first content of the value at the hand position is a constant.
        IsReadOnly is_read_only(i: usize => (i)) truth -> bool = "ask {i} readonly";
        /// Returns whether the value at the hand position is, or contains, a holder of a marked
        /// cell.
        IsLocked is_locked(i: usize => (i)) truth -> bool = "ask {i} locked";
        /// Returns the name of the type held at the hand position.
        TypeName type_name(i: usize => (i)) text -> String = "ask {i} type";
        /// Returns whether the value at the hand position can be hashed.
        IsHashable is_hashable(i: usize => (i)) truth -> bool = "ask {i} hashable";
        /// Succeeds if unit is held at the hand position.
        AsUnit as_unit(i: usize => (i)) done -> () = "ask {i} unit";
        /// Returns the int held at the hand position.
        AsInt as_int(i: usize => (i)) int -> i64 = "ask {i} int";
        /// Returns the boolean held at the hand position.
        AsBool as_bool(i: usize => (i)) truth -> bool = "ask {i} bool";
        /// Returns the character held at the hand position.
        AsChar as_char(i: usize => (i)) character -> char = "ask {i} char";
        /// Returns the text of the value at the hand position, in display format.
        Show show(i: usize => (i)) text -> String = "show {i}";
        /// Returns the text of the value at the hand position, in debug format.
        Debug debug(i: usize => (i)) text -> String = "debug {i}";
        /// Returns the hash bytes of the value at the hand position.
        Hash hash(i: usize => (i)) bytes -> Vec<u8> = "hash {i}";
        /// Returns where a slice of a list of this length starts and how many items it has, for a
        /// start and a number of items.
        Offset offset(length: usize => (length), start: i64 => (start), count: i64 => (count)) pair -> (usize, usize) = "offset {length} {start} {count}";
        /// Returns the position of an item in a list of this length, if there is one; with the flag
        /// a negative index counts from the end.
        Index index(length: usize => (length), index: i64 => (index), from_end: bool => (from_end)) count_if_any -> Option<usize> = "index {length} {index} {from_end}";
        /// Returns the number of entries.
        Len len() count -> usize = "len";
        /// Returns whether there are no entries.
        IsEmpty is_empty() truth -> bool = "empty";
        /// Returns the names of the entries, newest first, one a line, with `const ` before that of
        /// a constant.
        Names names() text -> String = "names";
        /// Returns the text of the scope.
        ShowScope show_scope() text -> String = "showscope";
        /// Returns the hash bytes of the scope.
        HashScope hash_scope() bytes -> Vec<u8> = "hashscope";
        /// Returns whether an entry has the name.
        Contains contains(name: Name => (name)) truth -> bool = "contains {name}";
        /// Returns the position of the newest entry with the name, counted from 0, if there is one.
        Search search(name: Name => (name)) count_if_any -> Option<usize> = "search {name}";
        /// Returns whether the newest entry with the name is a constant, if there is one.
        IsConstant is_constant(name: Name => (name)) truth_if_any -> Option<bool> = "constant {name}";
        /// Returns the aliases of the newest entry with the name, one a line.
        Aliases aliases(name: Name => (name)) text -> String = "aliases {name}";
        /// Returns whether this type is held at the hand position.
        IsHeld is_held(i: usize => (i), kind: Type => (kind as u32)) truth -> bool = "ask {i} held {kind}";
        /// Returns whether the value at the hand position is of this type: by its variant, or for a
        /// holder by the held type.
        IsType is_type(i: usize => (i), kind: Type => (kind as u32)) truth -> bool = "ask {i} is {kind}";
    }
    writes {
        /// Appends the unit value.
        PutUnit put_unit() done -> () = "unit";
        /// Appends a boolean.
        PutBool put_bool(truth: bool => (truth)) done -> () = "bool {truth}";
        /// Appends an int.
        PutInt put_int(n: i64 => (n)) done -> () = "int {n}";
        /// Appends the range from one int to another, end excluded.
        PutRange put_range(start: i64 => (start), end: i64 => (end)) done -> () = "range {start} {end}";
        /// Appends the range from one int to another, end included.
        PutRangeWithEnd put_range_with_end(start: i64 => (start), end: i64 => (end)) done -> () = "rangeeq {start} {end}";
        /// Appends a `u8` of the host.
        PutU8 put_u8(n: u8 => (n)) done -> () = "host u8 {n}";
        /// Appends a `u16` of the host.
        PutU16 put_u16(n: u16 => (n)) done -> () = "host u16 {n}";
        /// Appends a `u32` of the host.
        PutU32 put_u32(n: u32 => (n)) done -> () = "host u32 {n}";
        /// Appends a `u64` of the host.
        PutU64 put_u64(n: u64 => (n)) done -> () = "host u64 {n}";
        /// Appends an `i8` of the host.
        PutI8 put_i8(n: i8 => (n)) done -> () = "host i8 {n}";
        /// Appends an `i16` of the host.
        PutI16 put_i16(n: i16 => (n)) done -> () = "host i16 {n}";
        /// Appends an `i32` of the host.
        PutI32 put_i32(n: i32 => (n)) done -> () = "host i32 {n}";
        /// Removes this many values from the end of the hand, and appends an array of them in
        /// order.
        MakeArray make_array(count: usize => (count)) done -> () = "array {count}";
        /// Appends a copy of the value at the hand position.
        Copy copy(i: usize => (i)) done -> () = "copy {i}";
        /// Appends a copy of the value at the hand position, without its holders.
        FlattenClone flatten_clone(i: usize => (i)) done -> () = "flatclone {i}";
        /// Moves the value at the hand position to the end, and leaves unit in its place.
        Take take(i: usize => (i)) done -> () = "take {i}";
        /// Drops the last value.
        Drop drop() done -> () = "drop";
        /// Moves the value at the hand position into a new cell, and leaves a holder of that cell.
        /// A holder is left as it is.
        Share share(i: usize => (i)) done -> () = "share {i}";
        /// Replaces a holder at the hand position with the held value, without its holders.
        Flatten flatten(i: usize => (i)) done -> () = "flatten {i}";
        /// Makes the value at the hand position a constant.
        MakeReadOnly make_read_only(i: usize => (i)) done -> () = "readonly {i}";
        /// Sets the tag of the value at the hand position.
        SetTag set_tag(i: usize => (i), tag: i32 => (tag)) done -> () = "tag {i} {tag}";
        /// Overwrites the int held at the hand position.
        WriteInt write_int(i: usize => (i), n: i64 => (n)) done -> () = "write {i} {n}";
        /// Overwrites the first content of the value at the first hand position with the value at
        /// the second, and leaves unit at the second.
        Write write(i: usize => (i), j: usize => (j)) done -> () = "store {i} {j}";
        /// Sets the tag of each value that a scan of the hand position visits, and returns how many
        /// there are.
        ScanTags scan_tags(i: usize => (i), tag: i32 => (tag)) count -> usize = "scan {i} tags {tag}";
        /// Sets each int that a scan of the hand position visits to 0, and returns how many values
        /// it visited.
        ScanZero scan_zero(i: usize => (i)) count -> usize = "scan {i} zero";
        /// Replaces each holder that a scan of the hand position visits with unit, and returns how
        /// many values it visited.
        ScanNoShare scan_no_share(i: usize => (i)) count -> usize = "scan {i} noshare";
        /// Truncates each array that a scan of the hand position visits to this many items, and
        /// returns how many values it visited.
        ScanCut scan_cut(i: usize => (i), count: usize => (count)) count -> usize = "scan {i} cut {count}";
        /// Drops the last entry.
        Pop pop() done -> () = "pop";
        /// Keeps the oldest entries, as many as the number says, and drops the others.
        Rewind rewind(count: usize => (count)) done -> () = "rewind {count}";
        /// Drops all entries.
        Clear clear() done -> () = "clear";
        /// Keeps a copy of the newest entry of each name, newest first.
        KeepVisible keep_visible() done -> () = "visible";
        /// Replaces the scope with a copy of all entries.
        CopyScope copy_scope() done -> () = "copyscope";
        /// Appends copies of the values of all entries, without their holders.
        Entries entries() done -> () = "iter";
        /// Removes the mark at this position from the list, and unlocks its cell. Later marks move
        /// up.
        Unmark unmark(mark: usize => (mark)) done -> () = "unmark {mark}";
        /// Moves the value at the hand position into the cell of the mark at this position, and
        /// leaves unit in its place.
        WriteMarked write_marked(mark: usize => (mark), i: usize => (i)) done -> () = "writemarked {mark} {i}";
        /// Appends a copy of the content of the cell of the mark at this position.
        ReadMarked read_marked(mark: usize => (mark)) done -> () = "readmarked {mark}";
        /// Removes this many values from the end of the hand, and appends the function pointer of
        /// the name with these values curried in order.
        MakeFn make_fn(name: Name => (name), count: usize => (count)) done -> () = "fn {name} {count}";
        /// Moves the value at the hand position into a new writable entry with the name, and leaves
        /// unit in its place.
        Push push(name: Name => (name), i: usize => (i)) done -> () = "push {name} {i}";
        /// Moves the value at the hand position into a new entry with the name, and leaves unit in
        /// its place. The entry is a constant if the value is.
        PushDynamic push_dynamic(name: Name => (name), i: usize => (i)) done -> () = "pushdyn {name} {i}";
        /// Moves the value at the hand position into a new constant entry with the name, and leaves
        /// unit in its place.
        PushConstant push_constant(name: Name => (name), i: usize => (i)) done -> () = "pushconst {name} {i}";
        /// Replaces the value of the newest entry with the name by the value at the hand position,
        /// and leaves unit in its place.
        SetEntry set_entry(name: Name => (name), i: usize => (i)) done -> () = "set {name} {i}";
        /// Moves the value at the hand position into the newest entry with the name, or into a new
        /// entry if there is none or it may not be written.
        SetOrPush set_or_push(name: Name => (name), i: usize => (i)) done -> () = "setorpush {name} {i}";
        /// Moves the value at the hand position into the newest entry with the name, or into a new
        /// entry if there is none.
        SetValue set_value(name: Name => (name), i: usize => (i)) done -> () = "setvalue {name} {i}";
        /// Appends a copy of the value of the newest entry with the name.
        Get get(name: Name => (name)) done -> () = "get {name}";
        /// Overwrites the int that the newest entry with the name itself is; returns `false` if
        /// there is no such int.
        SetRef set_ref(name: Name => (name), value: i64 => (value)) done_if_any -> bool = "refint {name} {value}";
        /// Locks the cell of the holder at the place: from then on it is read and written only
        /// through the mark. Appends the mark to the list of marks.
        Mark mark(place: Place => (place.0, place.1)) done -> () = "mark {place}";
        /// Writes the boolean at the hand position to this bit of the int at the place.
        WriteBit write_bit(place: Place => (place.0, place.1), bit: u8 => (bit), j: usize => (j)) done -> () = "bit {place} {bit} {j}";
        /// Writes the int at the hand position, shifted left, to the bits of the mask in the int at the place.
        WriteField write_field(place: Place => (place.0, place.1), mask: i64 => (mask), shift: u8 => (shift), j: usize => (j)) done -> () = "field {place} {mask} {shift} {j}";
        /// Writes the int at the hand position to the byte at this index of the blob at the place.
        WriteByte write_byte(place: Place => (place.0, place.1), index: usize => (index), j: usize => (j)) done -> () = "byte {place} {index} {j}";
        /// Writes the character at the hand position over the character at this index of the text
        /// at the place.
        WriteChar write_char(place: Place => (place.0, place.1), index: usize => (index), j: usize => (j)) done -> () = "charat {place} {index} {j}";
        /// Replaces the characters from the first index up to the second one with the printed value
        /// at the hand position. The second one is replaced too, unless the slice is exclusive.
        WriteSlice write_slice(place: Place => (place.0, place.1), start: usize => (start), end: usize => (end), exclusive: bool => (exclusive), j: usize => (j)) done -> () = "slice{with_end} {place} {start} {end} {j}", with_end = if exclusive { "" } else { "eq" };
        /// Appends the value at the hand position cast to this type, copied without its holders.
        Cast cast(i: usize => (i), kind: Type => (kind as u32)) done -> () = "cast {i} {kind}";
        /// Appends the operator's result for the values at the two hand positions.
        Binary binary(operator: Operator => (operator as u32), i: usize => (i), j: usize => (j)) done -> () = "op {i} {operator} {j}";
        /// Applies the operator's assignment to the value at the place and the value at the hand
        /// position.
        Assign assign(operator: Operator => (operator as u32), place: Place => (place.0, place.1), j: usize => (j)) done -> () = "assign {place} {operator} {j}";
        /// Appends the value of the newest entry with the name cast to this type, copied without
        /// its holders; returns `false` if there is no such value.
        GetValue get_value(name: Name => (name), kind: Type => (kind as u32)) done_if_any -> bool = "value {name} {kind}";
        /// Appends a copy of the newest entry's own value as a reference of this type; returns
        /// `false` if there is no such value.
        GetRef get_ref(name: Name => (name), kind: Type => (kind as u32)) done_if_any -> bool = "ref {name} {kind}";
        /// Removes the newest entry with the name, and appends its value cast to this type, without
        /// its holders; returns `false` if there is no such value.
        Remove remove(name: Name => (name), kind: Type => (kind as u32)) done_if_any -> bool = "remove {name} {kind}";
        /// Appends a character.
        PutChar put_char(character: char => (character as u32)) done -> () = "char {character}";
        /// Appends a `u128` of the host.
        PutU128 put_u128(n: u128 => (n as u64, (n >> 64) as u64)) done -> () = "host u128 {n}";
        /// Appends an `i128` of the host.
        PutI128 put_i128(n: i128 => (n as u64, (n >> 64) as u64)) done -> () = "host i128 {n}";
    }
    lists {
        /// Appends a text.
        PutText put_text(text: String => text) = "text{text}";
        /// Appends a blob.
        PutBlob put_blob(bytes: Vec<u8> => bytes) = "blob{bytes}";
        /// Removes as many values from the end of the hand as there are keys, and appends the map
        /// from the keys to these values, in order.
        MakeMap make_map(keys: Vec<Name> => keys) = "map{keys}";
        /// Removes as many values from the end of the hand as there are names, and adds a writable
        /// entry for each name and value.
        Extend extend(names: Vec<Name> => names) = "extend{names}";
        /// As `Extend`; an entry is a constant if its flag is set.
        ExtendFlagged extend_flagged(names: Vec<(Name, bool)> => names) = "extendflagged{names}";
        /// Gives the newest entry with the name this alias.
        SetAlias set_alias(name: Name => *name, alias: String => alias) = "alias {name}{alias}";
    }
}
