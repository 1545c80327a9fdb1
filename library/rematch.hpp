// rematch for C++11 and later: queries and rows that are closed by themselves, over the calls of rematch.h. Nothing but this header and
// the library for C is needed.
//
//     rematch::query query("/!x{a+}/");
//     for (const rematch::row &row : query.rows("aab"))
//         std::cout << row[0].start << "-" << row[0].end << "\n";
//
// What a call refuses is thrown as rematch::refused, with the status and the note; want of memory as std::bad_alloc.
#ifndef REMATCH_HPP
#define REMATCH_HPP
#include "rematch.h"
#include <cstddef>
#include <cstdint>
#include <iterator>
#include <memory>
#include <new>
#include <stdexcept>
#include <string>
#include <vector>

namespace rematch {

/// Why a query or a document is refused: the status, and the note as what().
class refused : public std::runtime_error {
public:
    refused(std::uint32_t status, const std::string &note) : std::runtime_error(note), status(status) {}
    const std::uint32_t status;
};

/// The span of a variable in a row: bytes from 0; an absent one has no place.
struct span {
    std::uint32_t start, end;
    bool is_absent() const { return start == REMATCH_ABSENT; }
    std::size_t length() const { return is_absent() ? 0 : end - start; }
    /// Its text, in the document that was read.
    std::string text(const std::string &document) const { return is_absent() ? std::string() : document.substr(start, length()); }
};

/// A row: a span for each variable, in the order of query::variables().
using row = std::vector<span>;

namespace detail {

inline void check(std::uint32_t status, const char *note) {
    if (status == REMATCH_MEMORY)
        throw std::bad_alloc();
    if (status != REMATCH_DONE)
        throw refused(status, note);
}

/// A slot in a place of its own, which stays there until it is closed.
template <typename Slot> struct closer {
    void operator()(Slot *slot) const {
        rematch_close(slot);
        delete slot;
    }
};
template <typename Slot> using owned = std::unique_ptr<Slot, closer<Slot>>;
template <typename Slot> owned<Slot> empty() { return owned<Slot>(new Slot REMATCH_NONE); }

} // namespace detail

/// The rows of a query on a document, to be gone through once. It keeps what it needs: the query and the document may go.
class rows {
public:
    class iterator {
    public:
        using iterator_category = std::input_iterator_tag;
        using value_type = row;
        using difference_type = std::ptrdiff_t;
        using pointer = const row *;
        using reference = const row &;
        explicit iterator(rows *from = nullptr) : from_(from) { ++*this; }
        reference operator*() const { return from_->row_; }
        pointer operator->() const { return &from_->row_; }
        iterator &operator++() {
            if (from_ != nullptr && !from_->next())
                from_ = nullptr;
            return *this;
        }
        bool operator==(const iterator &other) const { return from_ == other.from_; }
        bool operator!=(const iterator &other) const { return from_ != other.from_; }

    private:
        rows *from_;
    };

    iterator begin() { return iterator(this); }
    iterator end() { return iterator(); }
    /// Whether there was another row; it is current() then.
    bool next() {
        std::size_t given = 0;
        detail::check(rematch_fill(slot_.get(), numbers_.data(), numbers_.size(), 1, &given), "no room for a row");
        for (std::size_t k = 0; given != 0 && k < row_.size(); k++)
            row_[k] = span{numbers_[2 * k], numbers_[2 * k + 1]};
        return given != 0;
    }
    const row &current() const { return row_; }

private:
    friend class query;
    explicit rows(std::size_t variables) : slot_(detail::empty<rematch_rows>()), numbers_(2 * variables), row_(variables) {}
    detail::owned<rematch_rows> slot_;
    std::vector<std::uint32_t> numbers_;
    row row_;
};

/// A compiled query.
class query {
public:
    explicit query(const std::string &text) : slot_(detail::empty<rematch_query>()) {
        rematch_text note = rematch_text();
        detail::check(rematch_compile(text.data(), text.size(), slot_.get(), &note), note.bytes);
        std::size_t count = 0;
        rematch_variables(slot_.get(), &count);
        for (std::size_t k = 0; k < count; k++) {
            rematch_variable(slot_.get(), k, &note);
            variables_.push_back(std::string(note.bytes, note.length));
        }
    }
    /// The names of the variables, in the order of the spans of a row.
    const std::vector<std::string> &variables() const { return variables_; }
    /// Reads a document; behind a cursor, where one is given.
    class rows rows(const std::string &document, const std::string &after = "start", rematch_options options = REMATCH_OPTIONS) {
        class rows found(variables_.size());
        rematch_text note = rematch_text();
        detail::check(rematch_open_after(slot_.get(), document.data(), document.size(), &options, after.data(), after.size(),
                                         found.slot_.get(), &note), note.bytes);
        return found;
    }
    /// The same compiled query, as for another thread.
    query share() {
        query other{std::vector<std::string>(variables_)};
        detail::check(rematch_share(slot_.get(), other.slot_.get()), "not shared");
        return other;
    }

private:
    explicit query(std::vector<std::string> variables) : slot_(detail::empty<rematch_query>()), variables_(std::move(variables)) {}
    detail::owned<rematch_query> slot_;
    std::vector<std::string> variables_;
};

} // namespace rematch
#endif
