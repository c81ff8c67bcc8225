//! An enum from a table: the value that document 01 gives, the case and its sentence.

/// The sentence of a case is its documentation and what `Display` writes.
macro_rules! table {
    ($(#[$attribute:meta])* $name:ident: $($value:literal $case:ident $sentence:literal;)*) => {
        $(#[$attribute])*
        #[derive(Clone, Copy, PartialEq, Eq, PartialOrd, Ord, Hash, Debug)]
        #[repr(u8)]
        pub enum $name {
            $(#[doc = concat!("**", stringify!($value), "**: ", $sentence)] $case = $value,)*
        }

        impl $name {
            /// Every case, in the order of its values.
            pub const ALL: &'static [$name] = &[$($name::$case),*];

            /// One plain sentence.
            pub fn sentence(self) -> &'static str {
                match self {
                    $($name::$case => $sentence,)*
                }
            }
        }

        impl From<$name> for u8 {
            fn from(case: $name) -> u8 {
                case as u8
            }
        }

        /// A byte outside the table is given back.
        impl TryFrom<u8> for $name {
            type Error = u8;

            fn try_from(byte: u8) -> Result<$name, u8> {
                match byte {
                    $($value => Ok($name::$case),)*
                    other => Err(other),
                }
            }
        }

        impl std::fmt::Display for $name {
            fn fmt(&self, f: &mut std::fmt::Formatter) -> std::fmt::Result {
                f.pad(self.sentence())
            }
        }
    };
}

pub(crate) use table;
