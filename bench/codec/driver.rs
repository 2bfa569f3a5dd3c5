//! The proved codec, and a plain one in Rust beside it: the same messages, encoded and decoded by both. `run.sh` builds
//! and runs it. Nothing checks the two declarations against the library's.

mod messages;
mod plain;

use messages::{BLOB_LEN, ID, STATE, blob_byte, item_count, item_name, note, print_row, turn_time};
use plain::{Blob, Item, Message, Order};
use std::hint::black_box;

unsafe extern "C" {
    fn codec_bench_encode(
        interface: *const u8,
        interface_len: usize,
        text: *const u8,
        text_len: usize,
        times: u32,
        out: *mut u8,
        out_len: usize,
    ) -> usize;

    fn codec_bench_decode(
        interface: *const u8,
        interface_len: usize,
        body: *const u8,
        body_len: usize,
        times: u32,
        out: *mut u8,
        out_len: usize,
    ) -> usize;
}

/// Encodes the value that a text says of an interface's last struct so many times, and returns the body's length.
fn encode(interface: &str, text: &str, times: u32, out: &mut [u8]) -> usize {
    assert!(text.len() < 1 << 32, "the library takes no longer ones");
    unsafe {
        codec_bench_encode(
            interface.as_ptr(),
            interface.len(),
            text.as_ptr(),
            text.len(),
            times,
            out.as_mut_ptr(),
            out.len(),
        )
    }
}

/// Decodes a body so many times, and returns the length of its value's text.
fn decode(interface: &str, body: &[u8], times: u32, out: &mut [u8]) -> usize {
    assert!(body.len() < 1 << 32, "the library takes no longer ones");
    unsafe {
        codec_bench_decode(
            interface.as_ptr(),
            interface.len(),
            body.as_ptr(),
            body.len(),
            times,
            out.as_mut_ptr(),
            out.len(),
        )
    }
}

fn order(items: u32, notes: u32) -> Order {
    let item = |n| Item { name: item_name(n), count: item_count(n) };
    Order { id: ID, items: (0..items).map(item).collect(), notes: (0..notes).map(note).collect(), state: STATE }
}

fn compare<M: Message + PartialEq + std::fmt::Debug>(case: &str, interface: &str, message: &M) {
    let plain_body = message.encode();
    let text = message.text();
    let mut out = vec![0; text.len() + plain_body.len()];

    let len = encode(interface, &text, 1, &mut out);
    assert_eq!(out[..len], plain_body, "both write the same bytes");
    assert_eq!(M::decode(&plain_body).as_ref(), Some(message), "the plain codec reads them");
    let len = decode(interface, &plain_body, 1, &mut out);
    assert_eq!(out[..len], *text.as_bytes(), "the proved codec reads them");

    let encoding = turn_time(|times| {
        black_box(encode(interface, &text, times, &mut out));
    });
    let decoding = turn_time(|times| {
        black_box(decode(interface, &plain_body, times, &mut out));
    });
    print_row("welmuis", case, encoding, decoding, plain_body.len());

    let encoding = turn_time(|times| (0..times).for_each(|_| drop(black_box(black_box(message).encode()))));
    let decoding = turn_time(|times| (0..times).for_each(|_| drop(black_box(M::decode(black_box(&plain_body))))));
    print_row("plain_rust", case, encoding, decoding, plain_body.len());
}

fn main() {
    let orders = include_str!("order.tars");
    compare("small", orders, &order(1, 0));
    compare("large", orders, &order(200, 50));
    compare("blob", include_str!("blob.tars"), &Blob { data: (0..BLOB_LEN).map(blob_byte).collect() });
}
