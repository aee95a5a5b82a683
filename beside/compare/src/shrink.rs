//! Smaller recipes.

use crate::recipe::{Call, LookUp, Recipe, Step, V};

fn smaller_items(a: &[V]) -> Vec<Vec<V>> {
    let mut out = Vec::new();
    for i in 0..a.len() {
        let mut b = a.to_vec();
        b.remove(i);
        out.push(b);
        for v in smaller(&a[i]) {
            let mut b = a.to_vec();
            b[i] = v;
            out.push(b);
        }
    }
    out
}

fn shorter(s: &str) -> Vec<String> {
    (0..s.chars().count()).map(|i| s.chars().enumerate().filter(|(j, _)| *j != i).map(|(_, c)| c).collect()).collect()
}

pub fn smaller(v: &V) -> Vec<V> {
    let mut out: Vec<V> = Vec::new();
    if !matches!(v, V::Unit) {
        out.push(V::Unit);
    }
    out.extend(v.children().into_iter().cloned());
    match v {
        V::Int(n) if *n != 0 && *n != 1 => out.extend([V::Int(0), V::Int(1), V::Int(n / 2)]),
        V::Text(s) => out.extend(shorter(s).into_iter().map(V::Text)),
        V::Blob(b) => out.extend((0..b.len()).map(|i| {
            let mut b = b.clone();
            b.remove(i);
            V::Blob(b)
        })),
        V::Array(a) => out.extend(smaller_items(a).into_iter().map(V::Array)),
        V::Fn(n, a) => {
            out.extend(smaller_items(a).into_iter().map(|a| V::Fn(n.clone(), a)));
            out.extend(shorter(n).into_iter().map(|n| V::Fn(n, a.clone())));
        }
        V::Map(m) => {
            for i in 0..m.len() {
                let mut n = m.clone();
                n.remove(i);
                out.push(V::Map(n));
                for v in smaller(&m[i].1) {
                    let mut n = m.clone();
                    n[i].1 = v;
                    out.push(V::Map(n));
                }
                for k in shorter(&m[i].0) {
                    let mut n = m.clone();
                    n[i].0 = k;
                    out.push(V::Map(n));
                }
            }
        }
        V::Holder(v) => out.extend(smaller(v).into_iter().map(|v| V::Holder(Box::new(v)))),
        V::Tag(n, v) => out.extend(smaller(v).into_iter().map(|v| V::Tag(*n, Box::new(v)))),
        V::Ro(v) => out.extend(smaller(v).into_iter().map(|v| V::Ro(Box::new(v)))),
        _ => (),
    }
    out
}

fn smaller_steps(steps: &[Step]) -> Vec<Vec<Step>> {
    let mut out = Vec::new();
    for i in 0..steps.len() {
        let mut b = steps.to_vec();
        b.remove(i);
        out.push(b);
        let mut with = |s: Step| {
            let mut b = steps.to_vec();
            b[i] = s;
            out.push(b);
        };
        match &steps[i] {
            Step::Value(op, n, v) => smaller(v).into_iter().for_each(|v| with(Step::Value(*op, n.clone(), v))),
            Step::Extend(a) => (0..a.len()).for_each(|j| {
                let mut a = a.clone();
                a.remove(j);
                with(Step::Extend(a));
            }),
            Step::Flagged(a) => (0..a.len()).for_each(|j| {
                let mut a = a.clone();
                a.remove(j);
                with(Step::Flagged(a));
            }),
            _ => (),
        }
    }
    out
}

fn candidates(r: &Recipe) -> Vec<Recipe> {
    let mut out = Vec::new();
    let mut with = |f: &dyn Fn(&mut Recipe)| {
        let mut c = r.clone();
        f(&mut c);
        if c != *r {
            out.push(c);
        }
    };
    with(&|c| c.keep = false);
    with(&|c| c.mark = 255);
    for i in 0..r.writes.len() {
        with(&|c| drop(c.writes.remove(i)));
        for v in smaller(&r.writes[i].1) {
            with(&|c| c.writes[i].1 = v.clone());
        }
    }
    for v in smaller(&r.x) {
        with(&|c| c.x = v.clone());
    }
    for v in smaller(&r.y) {
        with(&|c| c.y = v.clone());
    }
    match &r.call {
        Call::Operate(t, a, b) => {
            with(&|c| c.call = Call::Operate(*t, 0, *b));
            with(&|c| c.call = Call::Operate(*t, *a, 0));
        }
        Call::Assign(t, via, a, b) => {
            with(&|c| c.call = Call::Assign(*t, LookUp::Own, *a, *b));
            with(&|c| c.call = Call::Assign(*t, *via, 0, *b));
            with(&|c| c.call = Call::Assign(*t, *via, *a, 0));
        }
        Call::Scope(steps) => {
            for s in smaller_steps(steps) {
                with(&|c| c.call = Call::Scope(s.clone()));
            }
        }
        Call::Write(way, text) => {
            for s in shorter(text) {
                with(&|c| c.call = Call::Write(*way, s.clone()));
            }
        }
        Call::WriteBack(k, a, b, e) => {
            with(&|c| c.call = Call::WriteBack(*k, 0, *b, *e));
            with(&|c| c.call = Call::WriteBack(*k, *a, 0, *e));
        }
        _ => (),
    }
    out
}

/// The smallest recipe that a walk by single steps finds, for which `is` holds.
pub fn shrink(mut r: Recipe, is: &mut dyn FnMut(&[Recipe]) -> Option<usize>) -> Recipe {
    for _ in 0..200 {
        let all = candidates(&r);
        match is(&all) {
            Some(i) => r = all[i].clone(),
            None => break,
        }
    }
    r
}
