//! Operators and assignments.

use super::given::*;
use rhai::*;

const ENGINE: &Engine = &Engine::new();

pub fn context(wanted: bool) -> Option<NativeCallContext<'static>> {
    wanted.then(|| NativeCallContext::new(ENGINE))
}
#[inline(always)]
pub fn operate(op: Token, x: &mut Dynamic, y: &mut Dynamic) -> Dynamic {
    let Some((row, limited)) = get_builtin_binary_op_fn(&op, x, y) else {
        return Dynamic::UNIT;
    };
    row(context(limited), &mut [x, y]).unwrap_or(Dynamic::UNIT)
}
#[inline(always)]
pub fn assign(op: Token, x: &mut Dynamic, y: &mut Dynamic) -> bool {
    let Some((row, limited)) = get_builtin_op_assignment_fn(&op, x, y) else {
        return false;
    };
    row(context(limited), &mut [x, y]).is_ok()
}
#[inline(never)]
pub fn lookups(values: &[Dynamic], n: usize) -> u64 {
    let ops = [Token::Plus, Token::LessThan, Token::Multiply, Token::EqualsTo];
    let mut sum = 0_u64;
    for i in 0..n {
        if let (Some(op), Some(x), Some(y)) = (ops.get(i & 3), values.get(i & 63), values.get(i & 31)) {
            if let Some((_, limited)) = get_builtin_binary_op_fn(op, x, y) {
                sum = sum.wrapping_add(if limited { 3 } else { 1 });
            }
        }
    }
    sum
}
#[inline(never)]
pub fn on_all(op: Token, mut xs: Vec<Dynamic>, mut ys: Vec<Dynamic>, n: usize) -> u64 {
    let mut sum = 0_u64;
    for i in 0..n {
        if let (Some(x), Some(y)) = (xs.get_mut(i & 15), ys.get_mut(i & 7)) {
            let answer = operate(op, x, y);
            if let Ok(int) = answer.as_int() {
                sum = sum.wrapping_add(int as u64);
            } else if let Ok(text) = answer.as_immutable_string_ref() {
                sum = sum.wrapping_add(text.len() as u64);
            } else if let Ok(true) = answer.as_bool() {
                sum = sum.wrapping_add(1);
            }
        }
    }
    sum
}
#[inline(never)]
pub fn on_ints(op: Token, n: usize) -> u64 {
    on_all(op, sixty_four(), sixty_four(), n)
}
#[inline(never)]
pub fn on_texts(op: Token, length: usize, n: usize) -> u64 {
    let values = || sixteen(length).into_iter().map(Dynamic::from).collect();
    on_all(op, values(), values(), n)
}
#[inline(never)]
pub fn add_chain(n: usize) -> u64 {
    let mut values = sixty_four();
    let mut sum = Dynamic::ZERO;
    for i in 0..n {
        if let Some(y) = values.get_mut(i & 63) {
            sum = operate(Token::Plus, &mut sum, y);
        }
    }
    sum_of(&[sum])
}
#[inline(never)]
pub fn assign_ints(n: usize) -> u64 {
    let mut sums = sixty_four();
    for i in 0..n {
        if let Some(x) = sums.get_mut(i & 63) {
            assign(Token::PlusAssign, x, &mut Dynamic::from_int(3));
        }
    }
    sum_of(&sums)
}
#[inline(never)]
pub fn append(more: &Dynamic, n: usize) -> u64 {
    let mut sum = 0_u64;
    for _ in 0..n {
        let mut x = Dynamic::from("");
        for _ in 0..100_000 {
            assign(Token::PlusAssign, &mut x, &mut more.clone());
        }
        sum = sum.wrapping_add(x.as_immutable_string_ref().map_or(0, |t| t.len() as u64));
    }
    sum
}
#[inline(never)]
pub fn push_1000_by_operator(to_blob: bool, n: usize) -> u64 {
    let mut sum = 0_u64;
    for _ in 0..n {
        let mut x = if to_blob { blob(0) } else { ints(0) };
        for i in 0..1000 {
            if assign(Token::PlusAssign, &mut x, &mut Dynamic::from_int(i)) {
                sum = sum.wrapping_add(1);
            }
        }
    }
    sum
}
#[inline(never)]
pub fn append_1000(to_blob: bool, n: usize) -> u64 {
    let more = if to_blob { blob(10) } else { ints(10) };
    let mut sum = 0_u64;
    for _ in 0..n {
        let mut x = if to_blob { blob(0) } else { ints(0) };
        for _ in 0..100 {
            if assign(Token::PlusAssign, &mut x, &mut more.clone()) {
                sum = sum.wrapping_add(1);
            }
        }
    }
    sum
}
#[inline(never)]
pub fn evaluate(n: usize) -> u64 {
    let mut scope = Scope::new();
    for name in ["index", "total", "x", "limit", "y", "flag", "step", "name"] {
        scope.push_dynamic(name, Dynamic::from_int(3));
    }
    let (x, y) = (ImmutableString::from("x"), ImmutableString::from("y"));
    let two = Dynamic::TWO;
    for _ in 0..n {
        if let Some(value) = scope.get(y.as_str()) {
            let mut left = value.flatten_clone();
            let mut right = two.clone();
            let mut product = operate(Token::Multiply, &mut left, &mut right);
            if let Some(place) = scope.get_mut(x.as_str()) {
                assign(Token::PlusAssign, place, &mut product);
            }
        }
    }
    scope.get("x").map_or(0, |value| value.as_int().unwrap_or(0) as u64)
}

// ---- scopes
