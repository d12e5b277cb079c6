//! STUB for the crate serde.
//!
//! It stands for serialisation, which `diagnostics.rs` offers and `parse_operand` never calls.
//! Only the names that file mentions are here. The methods ask nothing of the values they are
//! given, because the stub's derive implements nothing for them.

pub use serde_derive::Serialize;

/// Stands for `serde::Serialize`.
pub trait Serialize {
    /// Stands for the method of the same name.
    fn serialize<S: Serializer>(&self, serializer: S) -> Result<S::Ok, S::Error>;
}

/// Stands for `serde::Serializer`, with the two methods that are called.
pub trait Serializer: Sized {
    /// What a finished serialisation gives.
    type Ok;
    /// What a failed one gives.
    type Error;
    /// The state while a sequence is written.
    type SerializeSeq: ser::SerializeSeq<Ok = Self::Ok, Error = Self::Error>;
    /// The state while a structure is written.
    type SerializeStruct: ser::SerializeStruct<Ok = Self::Ok, Error = Self::Error>;

    /// Stands for the method of the same name.
    fn serialize_seq(self, length: Option<usize>) -> Result<Self::SerializeSeq, Self::Error>;
    /// Stands for the method of the same name.
    fn serialize_struct(
        self,
        name: &'static str,
        fields: usize,
    ) -> Result<Self::SerializeStruct, Self::Error>;
}

/// Stands for the module `serde::ser`.
pub mod ser {
    /// Stands for `serde::ser::SerializeSeq`.
    pub trait SerializeSeq {
        /// What a finished sequence gives.
        type Ok;
        /// What a failed one gives.
        type Error;
        /// Stands for the method of the same name.
        fn serialize_element<T: ?Sized>(&mut self, value: &T) -> Result<(), Self::Error>;
        /// Stands for the method of the same name.
        fn end(self) -> Result<Self::Ok, Self::Error>;
    }

    /// Stands for `serde::ser::SerializeStruct`.
    pub trait SerializeStruct {
        /// What a finished structure gives.
        type Ok;
        /// What a failed one gives.
        type Error;
        /// Stands for the method of the same name.
        fn serialize_field<T: ?Sized>(
            &mut self,
            name: &'static str,
            value: &T,
        ) -> Result<(), Self::Error>;
        /// Stands for the method of the same name.
        fn skip_field(&mut self, name: &'static str) -> Result<(), Self::Error>;
        /// Stands for the method of the same name.
        fn end(self) -> Result<Self::Ok, Self::Error>;
    }
}
