#!/bin/sh
# Builds and runs the benchmark of the codec, and those beside it that are installed. A line each: NAME CASE, the
# nanoseconds to encode and to decode, and the bytes. The library is crates/codec_bench, built by `rt lib` in its folder.
set -eu
here=$(cd "$(dirname "$0")" && pwd)
root=$(dirname "$(dirname "$here")")
library=$root/crates/codec_bench/out
kit=$(dirname "$(rt doc | head -1)")
crates=/usr/share/cargo/registry
out=${TMPDIR:-/tmp}/codec_bench
mkdir -p "$out"

left_out() {
    echo "$1: left out, since it wants $2" >&2
}

welmuis() {
    [ -e "$library/libcodec_bench.a" ] && rustc --edition 2024 -O "$here/driver.rs" -o "$out/driver" -L "$library" \
        -l static=codec_bench -C link-arg="$kit/c/liblibc_c.a"
}

protobuf() {
    protoc --proto_path "$here" --cpp_out "$out" "$here/order.proto" &&
        g++ -O2 -I"$out" -I"$here" "$here/protobuf.cc" "$out/order.pb.cc" -o "$out/protobuf" -lprotobuf -lpthread
}

thrift_binary() {
    thrift --gen cpp:no_skeleton --out "$out" "$here/order.thrift" &&
        g++ -O2 -I"$out" -I"$here" "$here/thrift.cc" "$out/order_types.cpp" -o "$out/thrift" -lthrift
}

prost() {
    cp -r "$here/prost" "$here/messages.rs" "$out" &&
        cargo build --quiet --release --offline --manifest-path "$out/prost/Cargo.toml" \
            --config "source.crates-io.replace-with='debian'" --config "source.debian.directory='$crates'"
}

if welmuis; then "$out/driver"; else left_out welmuis "rustc, and rt lib in crates/codec_bench"; fi
if protobuf; then "$out/protobuf"; else left_out protobuf "protobuf-compiler libprotobuf-dev"; fi
if thrift_binary; then "$out/thrift"; else left_out thrift "thrift-compiler libthrift-dev libboost-dev"; fi
if prost; then "$out/prost/target/release/bench_prost"; else left_out prost "cargo, librust-prost-dev"; fi
