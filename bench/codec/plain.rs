//! A codec by hand for the messages of the benchmark alone, which reads what it writes.

use std::collections::BTreeMap;
use std::fmt::Write;

/// A message, its body, and its value's printed text.
pub trait Message: Sized {
    fn encode(&self) -> Vec<u8>;

    fn decode(body: &[u8]) -> Option<Self>;

    fn text(&self) -> String;
}

#[derive(PartialEq, Debug)]
pub struct Item {
    pub name: String,
    pub count: i32,
}

#[derive(PartialEq, Debug)]
pub struct Order {
    pub id: i64,
    pub items: Vec<Item>,
    pub notes: BTreeMap<String, String>,
    pub state: i32,
}

#[derive(PartialEq, Debug)]
pub struct Blob {
    pub data: Vec<u8>,
}

// ---- writing

fn put_head(out: &mut Vec<u8>, tag: u8, kind: u8) {
    out.push(tag << 4 | kind);
}

fn put_number(out: &mut Vec<u8>, tag: u8, n: i64) {
    if n == 0 {
        put_head(out, tag, 12);
    } else if let Ok(n) = i8::try_from(n) {
        put_head(out, tag, 0);
        out.extend(n.to_be_bytes());
    } else if let Ok(n) = i16::try_from(n) {
        put_head(out, tag, 1);
        out.extend(n.to_be_bytes());
    } else if let Ok(n) = i32::try_from(n) {
        put_head(out, tag, 2);
        out.extend(n.to_be_bytes());
    } else {
        put_head(out, tag, 3);
        out.extend(n.to_be_bytes());
    }
}

/// A text of at most 255 bytes.
fn put_text(out: &mut Vec<u8>, tag: u8, text: &str) {
    put_head(out, tag, 6);
    out.push(text.len() as u8);
    out.extend_from_slice(text.as_bytes());
}

fn put_item(out: &mut Vec<u8>, item: &Item) {
    put_head(out, 0, 10);
    put_text(out, 0, &item.name);
    put_number(out, 1, item.count.into());
    put_head(out, 0, 11);
}

fn put_order(out: &mut Vec<u8>, order: &Order) {
    put_number(out, 1, order.id);
    put_head(out, 2, 9);
    put_number(out, 0, order.items.len() as i64);
    for item in &order.items {
        put_item(out, item);
    }
    put_head(out, 3, 8);
    put_number(out, 0, order.notes.len() as i64);
    for (key, note) in &order.notes {
        put_text(out, 0, key);
        put_text(out, 1, note);
    }
    put_number(out, 4, order.state.into());
}

fn put_blob(out: &mut Vec<u8>, blob: &Blob) {
    put_head(out, 0, 13);
    put_head(out, 0, 0);
    put_number(out, 0, blob.data.len() as i64);
    out.extend_from_slice(&blob.data);
}

// ---- reading

struct Reader<'a>(&'a [u8]);

impl<'a> Reader<'a> {
    fn take(&mut self, len: usize) -> Option<&'a [u8]> {
        let (taken, rest) = self.0.split_at_checked(len)?;
        self.0 = rest;
        Some(taken)
    }

    /// The type of the next field, which has to be under the tag.
    fn head(&mut self, tag: u8) -> Option<u8> {
        let byte = self.take(1)?[0];
        (byte >> 4 == tag).then_some(byte & 15)
    }

    fn number(&mut self, tag: u8) -> Option<i64> {
        Some(match self.head(tag)? {
            12 => 0,
            0 => i8::from_be_bytes(self.take(1)?.try_into().ok()?).into(),
            1 => i16::from_be_bytes(self.take(2)?.try_into().ok()?).into(),
            2 => i32::from_be_bytes(self.take(4)?.try_into().ok()?).into(),
            3 => i64::from_be_bytes(self.take(8)?.try_into().ok()?),
            _ => return None,
        })
    }

    fn text(&mut self, tag: u8) -> Option<String> {
        (self.head(tag)? == 6).then_some(())?;
        let len = self.take(1)?[0];
        String::from_utf8(self.take(len.into())?.to_vec()).ok()
    }

    fn item(&mut self) -> Option<Item> {
        (self.head(0)? == 10).then_some(())?;
        let (name, count) = (self.text(0)?, self.number(1)?.try_into().ok()?);
        (self.head(0)? == 11).then_some(Item { name, count })
    }

    fn order(&mut self) -> Option<Order> {
        let id = self.number(1)?;
        (self.head(2)? == 9).then_some(())?;
        let items = (0..self.number(0)?).map(|_| self.item()).collect::<Option<_>>()?;
        (self.head(3)? == 8).then_some(())?;
        let notes = (0..self.number(0)?).map(|_| Some((self.text(0)?, self.text(1)?))).collect::<Option<_>>()?;
        Some(Order { id, items, notes, state: self.number(4)?.try_into().ok()? })
    }

    fn blob(&mut self) -> Option<Blob> {
        (self.head(0)? == 13 && self.head(0)? == 0).then_some(())?;
        let len = self.number(0)?.try_into().ok()?;
        Some(Blob { data: self.take(len)?.to_vec() })
    }
}

impl Message for Order {
    fn encode(&self) -> Vec<u8> {
        let mut out = Vec::new();
        put_order(&mut out, self);
        out
    }

    fn decode(body: &[u8]) -> Option<Order> {
        Reader(body).order()
    }

    fn text(&self) -> String {
        let item = |i: &Item| format!("(name={:?}, count={})", i.name, i.count);
        let items = self.items.iter().map(item).collect::<Vec<_>>().join(", ");
        let note = |(key, note): (&String, &String)| format!("{key:?}: {note:?}");
        let notes = self.notes.iter().map(note).collect::<Vec<_>>().join(", ");
        format!("(id={}, items=[{items}], notes={{{notes}}}, state={})", self.id, self.state)
    }
}

impl Message for Blob {
    fn encode(&self) -> Vec<u8> {
        let mut out = Vec::new();
        put_blob(&mut out, self);
        out
    }

    fn decode(body: &[u8]) -> Option<Blob> {
        Reader(body).blob()
    }

    fn text(&self) -> String {
        let mut text = String::from("(data=#");
        for byte in &self.data {
            let _ = write!(text, "{byte:02X}");
        }
        text + ")"
    }
}
