//! Replaces the released crate's `reify!` helper: a cast between types that are known to be equal.

macro_rules! reify {
    ($old:ident => |$new:ident : $t:ty| $code:expr) => {
        if std::any::TypeId::of::<$t>() == std::any::Any::type_id(&$old) {
            // SAFETY: both types were just seen to be the same.
            let $new: $t = unsafe { std::mem::transmute_copy(&std::mem::ManuallyDrop::new($old)) };
            $code
        }
    };
    ($old:expr => !!! $t:ty) => {{
        let old_value = $old;
        // SAFETY: the caller has compared the type ids.
        let new_value: $t = unsafe { std::mem::transmute_copy(&std::mem::ManuallyDrop::new(old_value)) };
        new_value
    }};
}
