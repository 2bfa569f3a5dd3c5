//! prost, on the messages of `order.proto`: a fresh vector for each body, a fresh message for each reading.

#[path = "../messages.rs"]
mod messages;

use messages::{BLOB_LEN, ID, STATE, blob_byte, item_count, item_name, note, print_row, turn_time};
use prost::Message;
use std::collections::HashMap;
use std::hint::black_box;

#[derive(Clone, PartialEq, Message)]
struct Item {
    #[prost(string, tag = "1")]
    name: String,
    #[prost(int32, tag = "2")]
    count: i32,
}

#[derive(Clone, PartialEq, Message)]
struct Order {
    #[prost(int64, tag = "1")]
    id: i64,
    #[prost(message, repeated, tag = "2")]
    items: Vec<Item>,
    #[prost(map = "string, string", tag = "3")]
    notes: HashMap<String, String>,
    #[prost(int32, tag = "4")]
    state: i32,
}

#[derive(Clone, PartialEq, Message)]
struct Blob {
    #[prost(bytes = "vec", tag = "1")]
    data: Vec<u8>,
}

fn order(items: u32, notes: u32) -> Order {
    let item = |n| Item { name: item_name(n), count: item_count(n) };
    Order { id: ID, items: (0..items).map(item).collect(), notes: (0..notes).map(note).collect(), state: STATE }
}

fn measure<M: Message + Default + PartialEq>(case: &str, message: &M) {
    let body = message.encode_to_vec();
    assert!(M::decode(&body[..]).as_ref() == Ok(message), "what was written is read");
    let encode = turn_time(|times| (0..times).for_each(|_| drop(black_box(black_box(message).encode_to_vec()))));
    let decode = turn_time(|times| (0..times).for_each(|_| drop(black_box(M::decode(black_box(&body[..]))))));
    print_row("prost", case, encode, decode, body.len());
}

fn main() {
    measure("small", &order(1, 0));
    measure("large", &order(200, 50));
    measure("blob", &Blob { data: (0..BLOB_LEN).map(blob_byte).collect() });
}
