//! The original module, and stand-ins for the database format that its conversions name. Nobody calls a conversion.
#![allow(clippy::all)]

pub use cda_interfaces::DiagServiceError;

pub mod diag_coded_type {
    include!(env!("DIAG_CODED_TYPE"));
}

/// The database format's types as far as the conversions need them to compile. None of them can be had.
mod flatbuf {
    pub mod diagnostic_description {
        #[allow(dead_code)]
        pub mod dataformat {
            use std::{convert::Infallible, marker::PhantomData};

            /// A number with names, as the format's generated code has it.
            macro_rules! numbered {
                ($name:ident: $($value:ident = $number:literal),+) => {
                    #[derive(Clone, Copy, Debug, PartialEq, Eq)]
                    pub struct $name(u8);
                    #[allow(non_upper_case_globals)]
                    impl $name {
                        $(pub const $value: Self = Self($number);)+
                    }
                };
            }
            numbered!(DataType: A_INT_32 = 0, A_UINT_32 = 1, A_FLOAT_32 = 2, A_ASCIISTRING = 3, A_UTF_8_STRING = 4,
                A_UNICODE_2_STRING = 5, A_BYTEFIELD = 6, A_FLOAT_64 = 7);
            numbered!(Termination: END_OF_PDU = 0, ZERO = 1, HEX_FF = 2);
            numbered!(SpecificDataType: LeadingLengthInfoType = 1, MinMaxLengthType = 2, ParamLengthInfoType = 3,
                StandardLengthType = 4);

            /// A type of the format without a value, and the getters that are called on it.
            macro_rules! absent {
                ($name:ident: $($getter:ident -> $result:ty),+) => {
                    #[derive(Clone, Copy)]
                    pub struct $name<'a>(Infallible, PhantomData<&'a ()>);
                    impl<'a> $name<'a> {
                        $(pub fn $getter(&self) -> $result { match self.0 {} })+
                    }
                };
            }
            absent!(DiagCodedType: base_data_type -> DataType, is_high_low_byte_order -> bool,
                specific_data_type -> SpecificDataType,
                specific_data_as_standard_length_type -> Option<StandardLengthType<'a>>,
                specific_data_as_leading_length_info_type -> Option<LeadingLengthInfoType<'a>>,
                specific_data_as_min_max_length_type -> Option<MinMaxLengthType<'a>>,
                specific_data_as_param_length_info_type -> Option<ParamLengthInfoType<'a>>);
            absent!(StandardLengthType: bit_length -> u32, bit_mask -> Option<Bytes<'a>>, condensed -> bool);
            absent!(LeadingLengthInfoType: bit_length -> u32);
            absent!(MinMaxLengthType: min_length -> u32, max_length -> Option<u32>, termination -> Termination);
            absent!(ParamLengthInfoType: length_key -> Option<Param<'a>>);
            absent!(Param: short_name -> Option<&'a str>);
            absent!(Bytes: iter -> std::vec::IntoIter<u8>);
        }
    }
}
