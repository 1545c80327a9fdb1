// The wrapper for C++: what it throws, what may go before its rows, cursors, shares, and rows without variables.
#include <cstdio>
#include <cstdlib>
#include <rematch.hpp>
#include <thread>
#include <utility>

#define CHECK(what) \
    do { \
        if (!(what)) { \
            std::fprintf(stderr, "%s:%d: %s\n", __FILE__, __LINE__, #what); \
            std::exit(1); \
        } \
    } while (0)

static std::size_t count_of(rematch::rows rows) {
    std::size_t count = 0;
    while (rows.next())
        count++;
    return count;
}

int main() {
    try {
        rematch::query("/!x{a");
        CHECK(false);
    } catch (const rematch::refused &fault) {
        CHECK(fault.status == REMATCH_QUERY && std::string(fault.what()) == "query: not closed at 1");
    }
    const std::string document("caab\0a", 6);
    std::unique_ptr<rematch::query> query(new rematch::query("/(!x{a+})!y{b}?/"));
    CHECK((query->variables() == std::vector<std::string>{"x", "y"}));
    rematch::rows rows = query->rows(document);
    rematch::query shared = query->share();
    query.reset();
    std::vector<std::string> texts;
    bool is_absent = false;
    for (const rematch::row &row : rows) {
        texts.push_back(row[0].text(document) + "," + row[1].text(document));
        is_absent = is_absent || row[1].is_absent();
    }
    CHECK(texts.size() == 6 && is_absent && !rows.next());
    CHECK(shared.variables().size() == 2);
    try {
        shared.rows(document, "nowhere");
        CHECK(false);
    } catch (const rematch::refused &fault) {
        CHECK(fault.status == REMATCH_CURSOR && std::string(fault.what()) == "cursor: not a cursor");
    }
    CHECK(count_of(shared.rows(document, "c2:6;x:5-6;y:-")) + 1 <= texts.size());
    try {
        shared.rows(document, "start", rematch_options{1, false});
        CHECK(false);
    } catch (const rematch::refused &fault) {
        CHECK(fault.status == REMATCH_SIZE);
    }
    rematch::query moved = std::move(shared);
    std::size_t found = 0;
    std::thread([&] { found = count_of(moved.rows(document)); }).join();
    CHECK(found == texts.size());
    CHECK(count_of(rematch::query("/c/").rows(document)) == 1 && count_of(rematch::query("/z/").rows("")) == 0);
    return 0;
}
