namespace cpp bench_thrift

struct Item {
  1: string name
  2: i32 count
}

struct Order {
  1: i64 id
  2: list<Item> items
  3: map<string, string> notes
  4: i32 state
}

struct Blob {
  1: binary data
}
