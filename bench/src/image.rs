//! The two lent lists of an image, out of and into the Rust's serde calls: tree bytes, and numbers.
use serde::de::value::{BorrowedBytesDeserializer, Error, SeqDeserializer};
use serde::de::{Deserialize, DeserializeSeed, IntoDeserializer, SeqAccess, Visitor};
use serde::ser::{Error as _, Impossible, Serialize, SerializeSeq, SerializeTuple, Serializer};

/// What is written: the pair of tree bytes and numbers.
#[derive(Default)]
pub struct Image {
    pub tree: Vec<u8>,
    pub numbers: Vec<u64>,
}

pub fn to_image<T: Serialize>(map: &T) -> Image {
    let mut image = Image::default();
    map.serialize(&mut image).expect("an image has bytes and numbers");
    image
}

pub fn from_image<'a, T: Deserialize<'a>>(tree: &'a [u8], numbers: &'a [u64]) -> Result<T, Error> {
    T::deserialize(Pair(tree, numbers))
}

macro_rules! refused {
    ($($name:ident($t:ty)),*) => { $(fn $name(self, _: $t) -> Result<(), Error> { Err(Error::custom(stringify!($name))) })* };
}

impl<'a> Serializer for &'a mut Image {
    type Ok = ();
    type Error = Error;
    type SerializeSeq = Self;
    type SerializeTuple = Self;
    type SerializeTupleStruct = Impossible<(), Error>;
    type SerializeTupleVariant = Impossible<(), Error>;
    type SerializeMap = Impossible<(), Error>;
    type SerializeStruct = Impossible<(), Error>;
    type SerializeStructVariant = Impossible<(), Error>;

    refused!(serialize_bool(bool), serialize_i8(i8), serialize_i16(i16), serialize_i32(i32), serialize_i64(i64), serialize_u8(u8),
        serialize_u16(u16), serialize_u32(u32), serialize_f32(f32), serialize_f64(f64), serialize_char(char), serialize_str(&str),
        serialize_unit_struct(&'static str));

    fn serialize_u64(self, v: u64) -> Result<(), Error> {
        self.numbers.push(v);
        Ok(())
    }
    fn serialize_bytes(self, v: &[u8]) -> Result<(), Error> {
        self.tree.extend_from_slice(v);
        Ok(())
    }
    fn serialize_none(self) -> Result<(), Error> {
        Err(Error::custom("none"))
    }
    fn serialize_some<T: Serialize + ?Sized>(self, v: &T) -> Result<(), Error> {
        v.serialize(self)
    }
    fn serialize_unit(self) -> Result<(), Error> {
        Ok(())
    }
    fn serialize_unit_variant(self, _: &'static str, _: u32, _: &'static str) -> Result<(), Error> {
        Err(Error::custom("variant"))
    }
    fn serialize_newtype_struct<T: Serialize + ?Sized>(self, _: &'static str, v: &T) -> Result<(), Error> {
        v.serialize(self)
    }
    fn serialize_newtype_variant<T: Serialize + ?Sized>(self, _: &'static str, _: u32, _: &'static str, _: &T) -> Result<(), Error> {
        Err(Error::custom("variant"))
    }
    fn serialize_seq(self, _: Option<usize>) -> Result<Self, Error> {
        Ok(self)
    }
    fn serialize_tuple(self, _: usize) -> Result<Self, Error> {
        Ok(self)
    }
    fn serialize_tuple_struct(self, _: &'static str, _: usize) -> Result<Impossible<(), Error>, Error> {
        Err(Error::custom("struct"))
    }
    fn serialize_tuple_variant(self, _: &'static str, _: u32, _: &'static str, _: usize) -> Result<Impossible<(), Error>, Error> {
        Err(Error::custom("variant"))
    }
    fn serialize_map(self, _: Option<usize>) -> Result<Impossible<(), Error>, Error> {
        Err(Error::custom("map"))
    }
    fn serialize_struct(self, _: &'static str, _: usize) -> Result<Impossible<(), Error>, Error> {
        Err(Error::custom("struct"))
    }
    fn serialize_struct_variant(self, _: &'static str, _: u32, _: &'static str, _: usize) -> Result<Impossible<(), Error>, Error> {
        Err(Error::custom("variant"))
    }
}

impl SerializeSeq for &mut Image {
    type Ok = ();
    type Error = Error;
    fn serialize_element<T: Serialize + ?Sized>(&mut self, v: &T) -> Result<(), Error> {
        v.serialize(&mut **self)
    }
    fn end(self) -> Result<(), Error> {
        Ok(())
    }
}

impl SerializeTuple for &mut Image {
    type Ok = ();
    type Error = Error;
    fn serialize_element<T: Serialize + ?Sized>(&mut self, v: &T) -> Result<(), Error> {
        v.serialize(&mut **self)
    }
    fn end(self) -> Result<(), Error> {
        Ok(())
    }
}

/// The pair handed in: first the bytes, then the numbers.
struct Pair<'a>(&'a [u8], &'a [u64]);

struct Parts<'a>(Pair<'a>, usize);

impl<'a> SeqAccess<'a> for Parts<'a> {
    type Error = Error;
    fn next_element_seed<T: DeserializeSeed<'a>>(&mut self, seed: T) -> Result<Option<T::Value>, Error> {
        self.1 += 1;
        match self.1 {
            1 => seed.deserialize(BorrowedBytesDeserializer::new(self.0.0)).map(Some),
            2 => seed.deserialize(SeqDeserializer::new(self.0.1.iter().copied())).map(Some),
            _ => Ok(None),
        }
    }
}

impl<'de> serde::Deserializer<'de> for Pair<'de> {
    type Error = Error;
    fn deserialize_any<V: Visitor<'de>>(self, visitor: V) -> Result<V::Value, Error> {
        visitor.visit_seq(Parts(self, 0))
    }
    serde::forward_to_deserialize_any! {
        bool i8 i16 i32 i64 u8 u16 u32 u64 f32 f64 char str string bytes byte_buf option unit unit_struct newtype_struct seq tuple
        tuple_struct map struct enum identifier ignored_any
    }
}

impl<'a> IntoDeserializer<'a, Error> for Pair<'a> {
    type Deserializer = Self;
    fn into_deserializer(self) -> Self {
        self
    }
}
