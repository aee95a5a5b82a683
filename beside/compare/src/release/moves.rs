//! Copies, holders taken off or put on, contents moved out, scans.

use super::{guarded, Desk};
use crate::departures::Departure;
use crate::dump::{dumped, dumped_items, quote};
use crate::ends::is_last;
use rhai::{hooks, AccessMode, Dynamic};

impl Desk {
    pub(super) fn move_call(&mut self, x: &mut Dynamic, way: u8, tag: i32) {
        match way {
            0..=3 => {
                let own = std::mem::take(x);
                let mut own = Some(own);
                let mut known = None;
                if self.adapt {
                    let whole = own.take().unwrap();
                    match self.inner(&whole) {
                        None => return self.say("into_not", "<shared>"),
                        Some(h) => {
                            if whole.is_shared() {
                                self.depart(Departure::RcName);
                                known = Some(h.type_name());
                                own = Some(h);
                            } else {
                                own = Some(whole);
                            }
                        }
                    }
                }
                let own = own.unwrap();
                let quoted = |s: &str| {
                    let mut out = String::new();
                    quote(s, &mut out);
                    out
                };
                let made = guarded(|| match way {
                    0 => own.into_string().map(|s| quoted(&s)),
                    1 => own.into_immutable_string().map(|s| quoted(&s)),
                    2 => own.into_array().map(|a| dumped_items(&a)),
                    _ => own.into_blob().map(|b| dumped(&Dynamic::from_blob(b))),
                });
                match made {
                    None => self.say("into", "PANIC"),
                    Some(Ok(s)) => self.say("into", s),
                    Some(Err(name)) => self.say("into_not", known.unwrap_or(name)),
                }
            }
            10 => hooks::set_access_mode(x, AccessMode::ReadOnly),
            11 => hooks::set_access_mode(x, AccessMode::ReadWrite),
            12 => {
                x.set_tag(tag);
            }
            4 => self.say_kept("copy", x.clone()),
            5 => self.say_kept("flatten_clone", x.flatten_clone()),
            6 => {
                let whole = std::mem::take(x);
                let _kept = if self.adapt && whole.is_shared() {
                    if is_last(&whole) {
                        self.depart(Departure::LastHolder);
                    }
                    Some(whole.clone())
                } else {
                    None
                };
                self.say_kept("flatten", whole.flatten());
            }
            7 => self.say_kept("into_shared", std::mem::take(x).into_shared()),
            8 => self.say_kept("into_read_only", std::mem::take(x).into_read_only()),
            13 | 14 => {
                let mut visits = 0;
                x.deep_scan(|v| {
                    visits += 1;
                    if way == 14 && v.is_shared() {
                        *v = Dynamic::UNIT;
                    }
                    if let Some(n) = hooks::downcast_mut::<i64>(v).filter(|_| way == 13) {
                        *n = 0;
                    }
                });
                self.say("visits", visits);
            }
            _ => {
                let taken = x.take();
                self.say_kept("take", taken);
            }
        }
    }
}
