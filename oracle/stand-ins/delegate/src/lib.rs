//! Stand-in for `delegate`: methods that call the method of the same name of one field.
#![no_std]
#![forbid(unsafe_code)]

#[macro_export]
macro_rules! delegate {
    (to $it:ident . $field:ident { $($methods:tt)* }) => {
        $crate::delegate!(@each $field $($methods)*);
    };
    (@each $field:ident) => {};
    (@each $field:ident
        $(#[$attribute:meta])* $v:vis fn $name:ident
        (&mut $it:ident $(, $argument:ident : $type:ty)*) $(-> $answer:ty)? ; $($rest:tt)*
    ) => {
        $(#[$attribute])*
        $v fn $name(&mut $it $(, $argument: $type)*) $(-> $answer)? {
            $it.$field.$name($($argument),*)
        }
        $crate::delegate!(@each $field $($rest)*);
    };
    (@each $field:ident
        $(#[$attribute:meta])* $v:vis fn $name:ident
        (& $it:ident $(, $argument:ident : $type:ty)*) $(-> $answer:ty)? ; $($rest:tt)*
    ) => {
        $(#[$attribute])*
        $v fn $name(& $it $(, $argument: $type)*) $(-> $answer)? {
            $it.$field.$name($($argument),*)
        }
        $crate::delegate!(@each $field $($rest)*);
    };
}
