// Protocol Buffers: a fresh string for each body, a fresh message for each reading.
#include "messages.h"
#include "order.pb.h"

template <class M> void measure(const char *kind, const M &message) {
    std::string body = message.SerializeAsString();
    M again;
    check(again.ParseFromString(body) && again.ByteSizeLong() == body.size(), "what was written is read");
    double encode = turn_time([&] {
        std::string out;
        message.SerializeToString(&out);
        keep(out.data());
    });
    double decode = turn_time([&] {
        M read;
        check(read.ParseFromString(body), "the body is read");
        keep(&read);
    });
    print_row("protobuf", kind, encode, decode, body.size());
}

bench_proto::Order order(uint32_t items, uint32_t notes) {
    bench_proto::Order order;
    order.set_id(ID);
    for (uint32_t n = 0; n < items; n++) {
        bench_proto::Item *item = order.add_items();
        item->set_name(item_name(n));
        item->set_count(item_count(n));
    }
    for (uint32_t n = 0; n < notes; n++) (*order.mutable_notes())[note_key(n)] = note(n);
    order.set_state(STATE);
    return order;
}

int main() {
    measure("small", order(1, 0));
    measure("large", order(200, 50));
    bench_proto::Blob data;
    data.set_data(blob());
    measure("blob", data);
}
