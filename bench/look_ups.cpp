// What lock_load does, over a hash map in C++: so many locks are granted, and then another session asks for them and is
// refused, or all are freed. Words: grants, asks or frees; locks; asks.
// A request has the bytes of a table and of an argument, as it comes to a server. Each call makes the map's key of them, in
// a text whose memory is kept from one call to the next. The requests of the asks are made before the first one, every
// 7,919th lock in turn, as in lock_load.
#include <cstdint>
#include <cstdio>
#include <cstdlib>
#include <cstring>
#include <string>
#include <unordered_map>
#include <vector>

struct Entry {
    std::uint32_t session;
    char mode;
    std::uint32_t count;
};

using Table = std::unordered_map<std::string, Entry>;

struct Request {
    std::size_t table_length;
    char table[30];
    std::size_t argument_length;
    char argument[255];
    char mode;
};

static const std::uint64_t stride = 7919;

static Request request_for(std::uint64_t order) {
    std::string argument = std::to_string(1000000000000u + order);
    Request request{};
    request.table_length = 6;
    std::memcpy(request.table, "ZORDER", 6);
    request.argument_length = argument.size();
    std::memcpy(request.argument, argument.data(), argument.size());
    request.mode = 'E';
    return request;
}

static const std::string &key_of(const Request &request) {
    static std::string key;
    key.assign(request.table, request.table_length);
    key.push_back(' ');
    key.append(request.argument, request.argument_length);
    return key;
}

// Whether the lock is granted: none stands there, or one of the session's own that allows another.
static bool ask(Table &table, std::uint32_t session, const Request &request) {
    const std::string &key = key_of(request);
    auto found = table.find(key);
    if (found == table.end()) {
        table.emplace(key, Entry{session, request.mode, 1});
        return true;
    }
    if (found->second.session != session) {
        return false;
    }
    found->second.count += 1;
    return true;
}

static std::uint64_t ask_again(Table &table, std::uint64_t locks, std::uint64_t asks) {
    std::vector<Request> requests;
    for (std::uint64_t turn = 0; turn < locks; turn++) {
        requests.push_back(request_for(turn * stride % locks + 1));
    }
    std::uint64_t refused = 0;
    std::size_t next = 0;
    for (std::uint64_t turn = 0; turn < asks; turn++) {
        if (next >= requests.size()) {
            next = 0;
        }
        refused += !ask(table, 2, requests[next]);
        next++;
    }
    return refused;
}

int main(int argc, char **argv) {
    if (argc != 4) {
        return 2;
    }
    std::uint64_t locks = std::strtoull(argv[2], nullptr, 10);
    std::uint64_t asks = std::strtoull(argv[3], nullptr, 10);
    Table table;
    std::uint64_t granted = 0, refused = 0, freed = 0;
    for (std::uint64_t order = 1; order <= locks; order++) {
        granted += ask(table, 1, request_for(order));
    }
    if (std::strcmp(argv[1], "asks") == 0 && locks > 0) {
        refused = ask_again(table, locks, asks);
    }
    if (std::strcmp(argv[1], "frees") == 0) {
        for (std::uint64_t turn = 0; turn < locks; turn++) {
            freed += table.erase(key_of(request_for(turn * stride % locks + 1)));
        }
    }
    std::printf("granted %llu, refused %llu, freed %llu, left %zu\n", (unsigned long long)granted,
                (unsigned long long)refused, (unsigned long long)freed, table.size());
    return 0;
}
