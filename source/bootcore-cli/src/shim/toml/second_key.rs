//! Where a key stands for the second time in its table. toml 0.5 refuses such a text, but tells no
//! place of it, or that of the table.

use serde::de::{DeserializeSeed, Deserializer, Error, MapAccess, SeqAccess, Visitor};
use std::cell::Cell;
use std::collections::BTreeSet;
use std::fmt;
use toml::Spanned;

/// The place of the first key of a text that its table has already.
pub fn place(text: &str) -> Option<usize> {
    let place = Cell::new(None);
    // What else is wrong with the text ends this too, and then no place was set.
    let _ = Keys(&place).deserialize(&mut toml::de::Deserializer::new(text));
    place.get()
}

/// Reads a value, and sets the place.
#[derive(Clone, Copy)]
struct Keys<'a>(&'a Cell<Option<usize>>);

impl<'de> DeserializeSeed<'de> for Keys<'_> {
    type Value = ();

    fn deserialize<D: Deserializer<'de>>(self, value: D) -> Result<(), D::Error> {
        value.deserialize_any(self)
    }
}

impl<'de> Visitor<'de> for Keys<'_> {
    type Value = ();

    fn expecting(&self, f: &mut fmt::Formatter<'_>) -> fmt::Result {
        f.write_str("a value of TOML")
    }

    fn visit_bool<E: Error>(self, _: bool) -> Result<(), E> {
        Ok(())
    }

    fn visit_i64<E: Error>(self, _: i64) -> Result<(), E> {
        Ok(())
    }

    fn visit_f64<E: Error>(self, _: f64) -> Result<(), E> {
        Ok(())
    }

    fn visit_str<E: Error>(self, _: &str) -> Result<(), E> {
        Ok(())
    }

    fn visit_seq<S: SeqAccess<'de>>(self, mut items: S) -> Result<(), S::Error> {
        while items.next_element_seed(self)?.is_some() {}
        Ok(())
    }

    fn visit_map<M: MapAccess<'de>>(self, mut map: M) -> Result<(), M::Error> {
        let mut keys = BTreeSet::new();
        loop {
            let key = match map.next_key::<Spanned<String>>() {
                Ok(Some(key)) => key,
                Ok(None) => return Ok(()),
                // A date or a time is a map of one key, which has no place.
                Err(_) if keys.is_empty() => return Ok(()),
                Err(error) => return Err(error),
            };
            let start = key.start();
            if !keys.insert(key.into_inner()) {
                self.0.set(Some(start));
                return Err(M::Error::custom("a key stands twice"));
            }
            map.next_value_seed(self)?;
        }
    }
}
