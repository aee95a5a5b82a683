//! Each command once, refusals with their reasons, and several worlds.
use rhai_world::{Answer, ArithmeticFault, Command, Error, Limits, Operator, Place, Refusal, SizeKind, Type, World};
use std::num::NonZeroUsize;

fn world() -> World {
    World::new(Limits::default()).unwrap()
}

fn refused<T>(why: Refusal) -> Result<T, Error> {
    Err(Error::Refused(why))
}

#[test]
fn two_holders_share_a_cell() {
    let mut w = world();
    w.put_int(1).unwrap();
    w.share(0).unwrap();
    w.copy(0).unwrap();
    w.write_int(1, 9).unwrap();
    assert_eq!(w.as_int(0), Ok(9));
    assert_eq!(w.show(0).as_deref(), Ok("9 (shared)"));
    assert_eq!(w.is_shared(0), Ok(true));
    w.flatten_clone(0).unwrap();
    assert_eq!(w.is_shared(2), Ok(false));
    w.flatten(0).unwrap();
    assert_eq!(w.is_shared(0), Ok(false));
}

#[test]
fn new_values() {
    let mut w = world();
    w.put_unit().unwrap();
    w.put_bool(true).unwrap();
    w.put_int(i64::MIN).unwrap();
    w.put_range(1, 4).unwrap();
    w.put_range_with_end(1, 4).unwrap();
    w.put_u8(255).unwrap();
    w.put_u16(65535).unwrap();
    w.put_u32(u32::MAX).unwrap();
    w.put_u64(u64::MAX).unwrap();
    w.put_i8(-128).unwrap();
    w.put_i16(-1).unwrap();
    w.put_i32(i32::MIN).unwrap();
    w.put_u128(u128::MAX - 1).unwrap();
    w.put_i128(i128::MIN + 1).unwrap();
    w.put_i128(-1).unwrap();
    let shown: Vec<String> = (0..w.hand_len()).map(|i| w.show(i).unwrap()).collect();
    assert_eq!(
        shown,
        [
            "",
            "true",
            "-9223372036854775808",
            "1..4",
            "1..=4",
            "255",
            "65535",
            "4294967295",
            "18446744073709551615",
            "-128",
            "-1",
            "-2147483648",
            &(u128::MAX - 1).to_string(),
            &(i128::MIN + 1).to_string(),
            "-1"
        ]
    );
    assert_eq!(w.as_unit(0), Ok(()));
    assert_eq!(w.as_bool(1), Ok(true));
    assert_eq!(w.is_variant(13), Ok(true));
    assert_eq!(w.type_name(5).as_deref(), Ok("u8"));
}

#[test]
fn values_in_the_hand() {
    let mut w = world();
    w.put_int(1).unwrap();
    w.put_int(2).unwrap();
    w.make_array(2).unwrap();
    assert_eq!(w.debug(0).as_deref(), Ok("[1, 2]"));
    assert_eq!(w.is_hashable(0), Ok(true));
    assert_eq!(w.hash(0).map(|bytes| bytes.len()), Ok(27));
    assert_eq!(w.is_type(0, Type::Array), Ok(true));
    assert_eq!(w.is_held(0, Type::Blob), Ok(false));
    w.cast(0, Type::Array).unwrap();
    assert_eq!(w.cast(0, Type::Map), refused(Refusal::Mismatch("array".into())));
    w.set_tag(0, -5).unwrap();
    assert_eq!(w.tag(0), Ok(-5));
    assert_eq!(w.scan_tags(0, 3), Ok(3));
    assert_eq!(w.scan_zero(0), Ok(3));
    assert_eq!(w.show(0).as_deref(), Ok("[0, 0]"));
    assert_eq!(w.scan_no_share(0), Ok(3));
    assert_eq!(w.scan_cut(0, 1), Ok(2));
    w.make_read_only(0).unwrap();
    assert_eq!(w.is_read_only(0), Ok(true));
    w.take(0).unwrap();
    assert_eq!(w.hand_len(), 3);
    w.write(0, 2).unwrap();
    assert_eq!(w.show(0).as_deref(), Ok("[0]"));
    w.drop().unwrap();
    assert_eq!(w.hand_len(), 2);
}

#[test]
fn operators() {
    let mut w = world();
    let x = w.name("x").unwrap();
    w.put_int(20).unwrap();
    w.put_int(22).unwrap();
    w.binary(Operator::Plus, 0, 1).unwrap();
    assert_eq!(w.as_int(2), Ok(42));
    w.assign(Operator::PlusAssign, Place::Hand(2), 0).unwrap();
    assert_eq!(w.as_int(2), Ok(62));
    w.push(x, 2).unwrap();
    w.assign(Operator::MultiplyAssign, Place::Entry(x), 0).unwrap();
    w.get(x).unwrap();
    assert_eq!(w.as_int(3), Ok(1240));
    w.put_int(0).unwrap();
    assert_eq!(w.binary(Operator::Divide, 0, 4), refused(Refusal::Arithmetic(ArithmeticFault::DivisionByZero)));
    w.put_bool(true).unwrap();
    assert_eq!(w.binary(Operator::Plus, 0, 5), refused(Refusal::NoBuiltin));
    w.put_int(i64::MAX).unwrap();
    assert_eq!(w.binary(Operator::Plus, 0, 6), refused(Refusal::Arithmetic(ArithmeticFault::Overflow)));
    w.put_int(-1).unwrap();
    assert_eq!(w.binary(Operator::PowerOf, 0, 7), refused(Refusal::Arithmetic(ArithmeticFault::NegativePower)));
    assert_eq!(w.binary(Operator::PowerOf, 0, 6), refused(Refusal::Arithmetic(ArithmeticFault::PowerTooLarge)));
}

#[test]
fn entries() {
    let mut w = world();
    let (x, y, z) = (w.name("x").unwrap(), w.name("y").unwrap(), w.name("any name, also é").unwrap());
    w.put_int(1).unwrap();
    w.push(x, 0).unwrap();
    w.put_int(2).unwrap();
    w.push_constant(y, 1).unwrap();
    w.put_int(3).unwrap();
    w.push_dynamic(z, 2).unwrap();
    assert_eq!((w.len(), w.is_empty()), (Ok(3), Ok(false)));
    assert_eq!(w.names().as_deref(), Ok("any name, also é\nconst y\nx\n"));
    assert_eq!((w.contains(x), w.search(z), w.is_constant(y)), (Ok(true), Ok(Some(2)), Ok(Some(true))));
    w.put_int(4).unwrap();
    w.set_entry(x, 3).unwrap();
    assert_eq!(w.set_entry(y, 3), refused(Refusal::ConstantEntry));
    w.put_int(5).unwrap();
    w.set_or_push(y, 4).unwrap();
    w.put_int(6).unwrap();
    w.set_value(x, 5).unwrap();
    assert_eq!(w.get_value(x, Type::Int), Ok(true));
    assert_eq!(w.as_int(6), Ok(6));
    assert_eq!(w.get_value(x, Type::Bool), Ok(false));
    assert_eq!(w.get_ref(x, Type::Int), Ok(true));
    assert_eq!(w.set_ref(x, 7), Ok(true));
    assert_eq!(w.aliases(x).as_deref(), Ok(""));
    assert_eq!(w.remove(x, Type::Int), Ok(true));
    assert_eq!(w.contains(x), Ok(false));
    assert_eq!(w.get(x), refused(Refusal::NoEntry));
    assert!(w.show_scope().is_ok() && w.hash_scope().is_ok());
    w.copy_scope().unwrap();
    w.keep_visible().unwrap();
    w.entries().unwrap();
    w.rewind(1).unwrap();
    w.pop().unwrap();
    assert_eq!(w.pop(), refused(Refusal::EmptyScope));
    w.clear().unwrap();
    assert_eq!(w.search(x), Ok(None));
    w.make_fn(x, 0).unwrap();
    let last = w.hand_len() - 1;
    assert_eq!(w.show(last).as_deref(), Ok("Fn(x)"));
}

#[test]
fn marks_and_places() {
    let mut w = world();
    w.put_int(1).unwrap();
    w.share(0).unwrap();
    w.mark(Place::Hand(0)).unwrap();
    assert_eq!(w.is_locked(0), Ok(true));
    w.put_int(2).unwrap();
    w.write_marked(0, 1).unwrap();
    w.read_marked(0).unwrap();
    assert_eq!(w.as_int(2), Ok(2));
    w.unmark(0).unwrap();
    assert_eq!(w.unmark(0), refused(Refusal::NoMark));
    assert_eq!(w.mark(Place::Hand(2)), refused(Refusal::WrongSource));
    w.put_int(0).unwrap();
    w.put_bool(true).unwrap();
    w.write_bit(Place::Hand(3), 2, 4).unwrap();
    assert_eq!(w.as_int(3), Ok(4));
    assert_eq!(w.write_bit(Place::Hand(3), 64, 4), refused(Refusal::BitPlace));
    w.put_int(3).unwrap();
    w.write_field(Place::Hand(3), 0xf0, 4, 5).unwrap();
    assert_eq!(w.as_int(3), Ok(0x34));
    assert_eq!(w.write_byte(Place::Hand(3), 0, 5), refused(Refusal::WrongSource));
    assert_eq!(w.offset(10, -3, 9), Ok((7, 3)));
    assert_eq!(w.index(10, -1, true), Ok(Some(9)));
    assert_eq!(w.index(10, 10, true), Ok(None));
}

#[test]
fn lists_of_names() {
    let mut w = world();
    let (x, y) = (w.name("x").unwrap(), w.name("y").unwrap());
    w.put_char('é').unwrap();
    w.put_text("some text").unwrap();
    w.make_map(&[x, y]).unwrap();
    assert_eq!(w.show(0).as_deref(), Ok("#{\"x\": 'é', \"y\": \"some text\"}"));
    w.put_blob(b"\x00\xff").unwrap();
    w.put_int(1).unwrap();
    w.extend(&[x, y]).unwrap();
    w.set_alias(y, "other").unwrap();
    assert_eq!(w.aliases(y).as_deref(), Ok("other\n"));
    w.extend_flagged(&[(x, true)]).unwrap();
    assert_eq!(w.is_constant(x), Ok(Some(true)));
    assert_eq!(w.extend(&[x]), refused(Refusal::NoValue));
    w.forget_name(x).unwrap();
    assert_eq!(w.make_map(&[y, x]), Err(Error::NoName));
    assert_eq!(w.make_map(&[]), Ok(()));
    w.collect().unwrap();
    assert_eq!(w.hand().collect::<Result<Vec<_>, _>>().map(|values| values.len()), Ok(1));
    w.put_text("a").unwrap();
    w.put_char('b').unwrap();
    w.write_char(Place::Hand(1), 0, 2).unwrap();
    w.write_slice(Place::Hand(1), 0, 0, true, 2).unwrap();
    assert_eq!(w.show(1).as_deref(), Ok("bb"));
    assert_eq!(w.as_char(2), Ok('b'));
    assert_eq!(w.as_char(0), refused(Refusal::Mismatch("map".into())));
    w.put_int(-1).unwrap();
    w.put_blob(b"abc").unwrap();
    w.write_byte(Place::Hand(4), 1, 3).unwrap();
    assert_eq!(w.show(4).as_deref(), Ok("[61ff63]"));
    assert_eq!(w.write_byte(Place::Hand(4), 3, 3), refused(Refusal::BytePlace));
}

#[test]
fn lines() {
    let mut w = world();
    assert_eq!(w.line("int 7"), Ok(Answer::Done));
    assert_eq!(w.line("ask 0 int"), Ok(Answer::Int(7)));
    assert_eq!(w.line("offset 10 -3 9"), Ok(Answer::Pair(7, 3)));
    assert_eq!(w.line("search x"), Ok(Answer::Nothing));
    assert_eq!(w.line("ask 0 shared"), Ok(Answer::Bool(false)));
    assert_eq!(w.line("hash 0").map(|_| ()), Ok(()));
    assert_eq!(w.line("no such line"), Err(Error::NoCommand));
    assert_eq!(w.line("drop 1"), Err(Error::NoCommand));
    assert_eq!(w.line("ask 0 bool"), refused(Refusal::Mismatch("i64".into())));
    assert_eq!(w.run_lines(b"int 1\nshow 0\n\xff\nshow 1").as_deref(), Ok(&b"ok\n1\nrefused BadLine\nrefused NoValue\n"[..]));
    assert_eq!(w.show(0).as_deref(), Ok("7"));
}

#[test]
fn commands_as_values() {
    let mut w = world();
    let list = [Command::PutInt { n: 7 }, Command::Copy { i: 0 }, Command::Drop {}, Command::AsInt { i: 0 }, Command::Drop {}];
    let answers: Vec<Answer> = list.iter().map(|c| w.apply(c).unwrap()).collect();
    assert_eq!(answers, [Answer::Done, Answer::Done, Answer::Done, Answer::Int(7), Answer::Done]);
    assert_eq!(w.apply(&Command::Drop {}), refused(Refusal::NoValue));
}

#[test]
fn limits() {
    let three = NonZeroUsize::new(3);
    let mut w = World::new(Limits::new().with_text(three).with_items(three)).unwrap();
    w.put_text("ab").unwrap();
    w.put_text("c").unwrap();
    w.binary(Operator::Plus, 0, 1).unwrap();
    assert_eq!(w.binary(Operator::Plus, 2, 1), refused(Refusal::TooLarge(SizeKind::Text)));
    w.put_blob(b"abc").unwrap();
    assert_eq!(w.binary(Operator::Plus, 3, 3), refused(Refusal::SameValue));
    w.put_blob(b"d").unwrap();
    assert_eq!(w.binary(Operator::Plus, 3, 4), refused(Refusal::TooLarge(SizeKind::Items)));
}

#[test]
fn many_worlds() {
    let mut all: Vec<World> = (0..100).map(|_| world()).collect();
    for (i, w) in all.iter_mut().enumerate() {
        w.put_int(i as i64).unwrap();
    }
    all.reverse();
    assert_eq!(all[0].as_int(0), Ok(99));
}

#[test]
fn worlds_on_many_threads() {
    let made = |i: i64| {
        move || {
            let mut w = world();
            w.put_int(i).unwrap();
            w.as_int(0).unwrap()
        }
    };
    let threads: Vec<_> = (0..100).map(|i| std::thread::spawn(made(i))).collect();
    assert_eq!(threads.into_iter().map(|t| t.join().unwrap()).sum::<i64>(), 4950);
}

#[test]
fn a_leaked_world_harms_no_other() {
    std::mem::forget(world());
    let mut w = world();
    w.put_int(1).unwrap();
    assert_eq!(w.as_int(0), Ok(1));
}
