// Thrift's binary protocol: a fresh buffer for each body, a fresh message for each reading.
#include "messages.h"
#include "order_types.h"
#include <memory>
#include <thrift/protocol/TBinaryProtocol.h>
#include <thrift/transport/TBufferTransports.h>

using apache::thrift::TConfiguration;
using apache::thrift::transport::TMemoryBuffer;
using Protocol = apache::thrift::protocol::TBinaryProtocolT<TMemoryBuffer>;

template <class M> std::string written(const M &message) {
    auto buffer = std::make_shared<TMemoryBuffer>();
    Protocol protocol(buffer);
    message.write(&protocol);
    return buffer->getBufferAsString();
}

template <class M> void measure(const char *kind, const M &message) {
    std::string body = written(message);
    double encode = turn_time([&] {
        auto buffer = std::make_shared<TMemoryBuffer>();
        Protocol protocol(buffer);
        message.write(&protocol);
        uint8_t *at;
        uint32_t len;
        buffer->getBuffer(&at, &len);
        keep(at);
    });
    auto read_body = [&](M &read) {
        auto buffer = std::make_shared<TMemoryBuffer>((uint8_t *)body.data(), (uint32_t)body.size());
        Protocol protocol(buffer);
        read.read(&protocol);
    };
    M again;
    read_body(again);
    check(again == message, "what was written is read");
    double decode = turn_time([&] {
        M read;
        read_body(read);
        keep(&read);
    });
    print_row("thrift", kind, encode, decode, body.size());
}

bench_thrift::Order order(uint32_t items, uint32_t notes) {
    bench_thrift::Order order;
    order.__set_id(ID);
    for (uint32_t n = 0; n < items; n++) {
        bench_thrift::Item item;
        item.__set_name(item_name(n));
        item.__set_count(item_count(n));
        order.items.push_back(item);
    }
    for (uint32_t n = 0; n < notes; n++) order.notes[note_key(n)] = note(n);
    order.__set_state(STATE);
    return order;
}

int main() {
    measure("small", order(1, 0));
    measure("large", order(200, 50));
    bench_thrift::Blob data;
    data.__set_data(blob());
    measure("blob", data);
}
