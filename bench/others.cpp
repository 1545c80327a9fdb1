// Other engines on one pattern and one document, each as it is made to be used, for bench/workloads.py.
//
//     pcre2 PATTERN DOCUMENT [NAME..]       every match: a callout notes the groups, and (*FAIL) makes the engine go on; its JIT;
//                                           rows are then sorted, and equal ones dropped
//     hyperscan PATTERN DOCUMENT [NAME..]   each end of a match with its leftmost beginning (SOM_LEFTMOST), no captures
//     re2 PATTERN DOCUMENT [NAME..]         the leftmost match with its groups, and on behind its end
//
// The document is mapped into memory, so none of the three copies it. PCRE2 keeps its start optimisations; auto-possession is
// switched off, since (*FAIL) asks for the matches that it would cut away.
//
// It prints the number of rows. With the names of the groups, at most four, it prints the rows in its place: those of rematch in
// rematch's form, but for their order; of hyperscan one span for each end.
//
// Built by bench/workloads.py, once for each engine: g++ -O3 -std=c++20 -DPCRE2 others.cpp -lpcre2-8, -DHYPERSCAN .. -lhs, -DRE2 .. -lre2
#include <fcntl.h>
#include <sys/mman.h>
#include <sys/stat.h>
#include <unistd.h>

#include <algorithm>
#include <array>
#include <charconv>
#include <cstdint>
#include <cstdio>
#include <cstdlib>
#include <string>
#include <string_view>
#include <utility>
#include <vector>

static void fail(const char* what) {
    std::fprintf(stderr, "%s\n", what);
    std::exit(1);
}

// Counts rows, and writes them if it has names.
class Writer {
  public:
    explicit Writer(std::vector<std::string> names) {
        for (size_t k = 0; k < names.size(); k++) order_.emplace_back(names[k] + "=", k);
        std::sort(order_.begin(), order_.end());
    }

    // A row as starts and ends in turn.
    void row(const uint32_t* spans) {
        rows_++;
        if (order_.empty()) return;
        if (text_.size() > (1 << 16)) flush();
        const char* between = "";
        for (const auto& [name, k] : order_) {
            text_ += between;
            text_ += name;
            number(spans[2 * k]);
            text_ += '-';
            number(spans[2 * k + 1]);
            between = " ";
        }
        text_ += '\n';
    }

    void end() {
        if (order_.empty()) text_ = std::to_string(rows_) + "\n";
        flush();
    }

  private:
    void number(uint32_t value) {
        char digits[12];
        text_.append(digits, std::to_chars(digits, digits + sizeof digits, value).ptr);
    }

    void flush() {
        if (std::fwrite(text_.data(), 1, text_.size(), stdout) != text_.size() || std::fflush(stdout) != 0) fail("output");
        text_.clear();
    }

    std::vector<std::pair<std::string, size_t>> order_;
    std::string text_;
    size_t rows_ = 0;
};

#ifdef PCRE2
#define PCRE2_CODE_UNIT_WIDTH 8
#include <pcre2.h>

template <size_t groups>
static int note(pcre2_callout_block* block, void* into) {
    std::array<uint32_t, 2 * groups> row{};
    for (uint32_t g = 1; g < block->capture_top && g <= groups; g++) {
        row[2 * g - 2] = static_cast<uint32_t>(block->offset_vector[2 * g]);
        row[2 * g - 1] = static_cast<uint32_t>(block->offset_vector[2 * g + 1]);
    }
    static_cast<std::vector<std::array<uint32_t, 2 * groups>>*>(into)->push_back(row);
    return 0;
}

template <size_t groups>
static void all_rows(const pcre2_code* code, std::string_view document, Writer& out) {
    pcre2_match_context* context = pcre2_match_context_create(nullptr);
    pcre2_jit_stack* stack = pcre2_jit_stack_create(1 << 20, 512 << 20, nullptr);
    pcre2_jit_stack_assign(context, nullptr, stack);
    std::vector<std::array<uint32_t, 2 * groups>> rows;
    pcre2_set_callout(context, note<groups>, &rows);
    pcre2_match_data* data = pcre2_match_data_create_from_pattern(code, nullptr);
    const int ended = pcre2_match(code, reinterpret_cast<PCRE2_SPTR>(document.data()), document.size(), 0, 0, data, context);
    if (ended != PCRE2_ERROR_NOMATCH) fail("pcre2: match");
    std::sort(rows.begin(), rows.end());
    rows.erase(std::unique(rows.begin(), rows.end()), rows.end());
    for (const auto& row : rows) out.row(row.data());
}

static void read_all(const std::string& pattern, std::string_view document, Writer& out) {
    const std::string whole = pattern + "(?C1)(*FAIL)";
    int error = 0;
    PCRE2_SIZE at = 0;
    pcre2_code* code = pcre2_compile(reinterpret_cast<PCRE2_SPTR>(whole.data()), whole.size(),
                                     PCRE2_NO_AUTO_POSSESS, &error, &at, nullptr);
    if (!code || pcre2_jit_compile(code, PCRE2_JIT_COMPLETE) != 0) fail("pcre2: pattern");
    uint32_t groups = 0;
    pcre2_pattern_info(code, PCRE2_INFO_CAPTURECOUNT, &groups);
    if (groups <= 1) all_rows<1>(code, document, out);
    else if (groups == 2) all_rows<2>(code, document, out);
    else if (groups <= 4) all_rows<4>(code, document, out);
    else fail("pcre2: more than four groups");
}
#endif

#ifdef HYPERSCAN
#include <hs/hs.h>

static int write_span(unsigned, unsigned long long start, unsigned long long end, unsigned, void* into) {
    const uint32_t spans[] = {static_cast<uint32_t>(start), static_cast<uint32_t>(end)};
    static_cast<Writer*>(into)->row(spans);
    return 0;
}

static void read_all(const std::string& pattern, std::string_view document, Writer& out) {
    hs_database_t* database = nullptr;
    hs_compile_error_t* error = nullptr;
    if (hs_compile(pattern.c_str(), HS_FLAG_SOM_LEFTMOST | HS_FLAG_DOTALL, HS_MODE_BLOCK, nullptr, &database, &error) != HS_SUCCESS) fail(error->message);
    hs_scratch_t* scratch = nullptr;
    if (hs_alloc_scratch(database, &scratch) != HS_SUCCESS) fail("hyperscan: scratch");
    if (hs_scan(database, document.data(), static_cast<unsigned>(document.size()), 0, scratch, write_span, &out) != HS_SUCCESS) fail("hyperscan: scan");
}
#endif

#ifdef RE2
#undef RE2
#include <re2/re2.h>

static void read_all(const std::string& pattern, std::string_view document, Writer& out) {
    RE2::Options options;
    options.set_encoding(RE2::Options::EncodingLatin1);
    const RE2 compiled(pattern, options);
    if (!compiled.ok()) fail("re2: pattern");
    const re2::StringPiece text(document.data(), document.size());
    re2::StringPiece groups[5];
    const int wanted = std::min(5, compiled.NumberOfCapturingGroups() + 1);
    for (size_t at = 0; at <= document.size();) {
        if (!compiled.Match(text, at, document.size(), RE2::UNANCHORED, groups, wanted)) break;
        uint32_t spans[8] = {};
        for (int g = 1; g < wanted; g++) {
            if (!groups[g].data()) continue;
            spans[2 * g - 2] = static_cast<uint32_t>(groups[g].data() - document.data());
            spans[2 * g - 1] = spans[2 * g - 2] + static_cast<uint32_t>(groups[g].size());
        }
        out.row(spans);
        const size_t end = static_cast<size_t>(groups[0].data() - document.data()) + groups[0].size();
        at = groups[0].empty() ? end + 1 : end;
    }
}
#endif

static std::string_view mapped(const char* path) {
    const int file = open(path, O_RDONLY);
    struct stat facts;
    if (file < 0 || fstat(file, &facts) != 0) fail("document");
    const size_t size = static_cast<size_t>(facts.st_size);
    if (size == 0) return {};
    void* bytes = mmap(nullptr, size, PROT_READ, MAP_PRIVATE | MAP_POPULATE, file, 0);
    if (bytes == MAP_FAILED) fail("map");
    return {static_cast<const char*>(bytes), size};
}

int main(int words, char** word) {
    if (words < 3 || words > 7) fail("usage: ENGINE PATTERN DOCUMENT [NAME..]");
    Writer out(std::vector<std::string>(word + 3, word + words));
    read_all(word[1], mapped(word[2]), out);
    out.end();
}
