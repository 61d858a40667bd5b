//! Stand-in for the crate `delegate`: methods that call the same method of an inner value.
//!
//! What a macro expands to belongs to the module that calls it. The published driver calls this
//! one in an inherent `impl` inside its module of private items, in the block that begins with
//! `bind_peri_interrupt`. There it also expands the macro `window` of the calling crate, which so
//! reaches the private items of that module while the driver's text stays as published.
#![no_std]

#[macro_export]
macro_rules! delegate {
    // The driver's inherent block: its methods, and the window.
    (to match & $me:ident.0 $arms:tt { fn bind_peri_interrupt $($more:tt)* }) => {
        $crate::delegate! { @methods $me $arms { fn bind_peri_interrupt $($more)* } }
        window! {}
    };
    // The driver's other blocks.
    (to match & $me:ident.0 $arms:tt $methods:tt) => {
        $crate::delegate! { @methods $me $arms $methods }
    };
    // The block of the module `time`, whose methods name the inner method that they call.
    (#[inline] to $me:ident.0 { $(
        #[procmacros::doc_replace]
        $(#[doc = $doc:literal])*
        #[call($inner:ident)]
        pub const fn $name:ident(& $receiver:ident) -> $gives:ty;
    )* }) => { $(
        $(#[doc = $doc])*
        pub const fn $name(& $receiver) -> $gives {
            $me.0.$inner()
        }
    )* };
    (@methods $me:ident $arms:tt { $(
        $(#[$mark:meta])*
        fn $name:ident(& $receiver:ident $(, $arg:ident: $kind:ty)*) $(-> $gives:ty)?;
    )* }) => { $(
        $(#[$mark])*
        fn $name(& $receiver $(, $arg: $kind)*) $(-> $gives)? {
            $crate::delegate! { @call $me $arms $name ($($arg),*) }
        }
    )* };
    (@call $me:ident {
        $($(#[$when:meta])* $variant:pat => $inner:ident,)*
    } $name:ident $args:tt) => {
        match & $me.0 {
            $($(#[$when])* $variant => $inner.$name $args,)*
        }
    };
}
