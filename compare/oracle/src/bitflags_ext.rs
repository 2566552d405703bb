// Stand-in for bitflags_ext.rs: the part of its macro that declares flags, over the real bitflags.
#[macro_export]
macro_rules! my_bitflags {
    ($name:ident, #[$display:meta] $unknown:ident, $int:ty,
     $(#[$outer:meta])* pub struct $flags:ident: $bits:ty { $( $(#[$($inner:tt)*])* const $flag:ident = $value:expr; )* }) => {
        bitflags::bitflags! {
            $(#[$outer])*
            pub struct $flags: $bits { $( $(#[$($inner)*])* const $flag = $value; )* }
        }
        #[derive(Debug, Clone, Copy, PartialEq, Eq, Hash, thiserror::Error)]
        #[$display]
        pub struct $unknown(pub $int);
    };
}
