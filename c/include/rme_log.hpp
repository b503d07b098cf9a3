/* A log that does not fill, for C++11 and later: the calls of rme_log.h as objects. Each refusal is a std::system_error. */
#ifndef RME_LOG_HPP
#define RME_LOG_HPP

#include "rme_log.h"

#include <cerrno>
#include <cstring>
#include <initializer_list>
#include <iterator>
#include <memory>
#include <string>
#include <system_error>
#include <vector>

namespace rme {

/* The number of a refusal, with its text in words of the log. */
class log_error : public std::system_error {
public:
    explicit log_error(int error) : std::system_error(error, std::generic_category(), rme_log_strerror(error)) {}
};

inline void check(int error)
{
    if (error)
        throw log_error(error);
}

inline void create_log(const std::string &folder, uint64_t procs, uint64_t cap, uint64_t width)
{
    check(rme_log_create(folder.c_str(), procs, cap, width));
}

/* Removes the segments that all named readers have passed; answers the number of the first segment that is left. */
inline uint64_t drop(const std::string &folder, uint64_t before = UINT64_MAX)
{
    uint64_t first = 0;
    check(rme_log_drop(folder.c_str(), before, &first));
    return first;
}

/* One living sender. */
class log {
public:
    log(const std::string &folder, uint64_t index, uint64_t milliseconds = 0) : raw_(new rme_log)
    {
        rme_log_state state;
        check(rme_log_status(folder.c_str(), &state));
        width_ = state.width;
        check(rme_log_open(raw_.get(), folder.c_str(), index, milliseconds));
    }

    /* The number of the next message. */
    uint64_t next()
    {
        uint64_t number = 0;
        check(rme_log_next(raw_.get(), &number));
        return number;
    }

    /* Stores a message: true. False: the one with this number is there already. */
    bool append(uint64_t number, const std::vector<uint64_t> &value)
    {
        if (value.size() != width_)
            throw log_error(EINVAL);
        const int error = rme_log_append(raw_.get(), number, value.data());
        check(error == EALREADY ? 0 : error);
        return error == 0;
    }

private:
    struct close {
        void operator()(rme_log *raw) const
        {
            rme_log_close(raw);
            delete raw;
        }
    };
    std::unique_ptr<rme_log, close> raw_;
    uint64_t width_ = 0;
};

/* One reader. A loop over it meets the messages that there are; after each its cursor is right past that message. */
class log_reader {
public:
    explicit log_reader(const std::string &folder) : raw_(new rme_log_reader)
    {
        check(rme_log_reader_open(raw_.get(), folder.c_str(), nullptr));
    }
    log_reader(const std::string &folder, const std::string &name) : raw_(new rme_log_reader)
    {
        check(rme_log_reader_open(raw_.get(), folder.c_str(), name.c_str()));
    }

    /* The next message: false where there is none yet. */
    bool read(rme_message &message)
    {
        uint64_t count = 0;
        check(rme_log_read(raw_.get(), &message, 1, &count));
        return count == 1;
    }

    /* Sleeps until there is a message, at most this long: false where there is none yet. */
    bool wait(uint64_t milliseconds)
    {
        const int error = rme_log_wait(raw_.get(), milliseconds);
        check(error == ETIMEDOUT ? 0 : error);
        return error == 0;
    }

    void keep() { check(rme_log_keep(raw_.get())); }
    rme_cursor cursor() const { return raw_->cursor; }
    void seek(rme_cursor cursor) { check(rme_log_seek(raw_.get(), cursor)); }
    void seek_end() { check(rme_log_seek_end(raw_.get())); }

    /* A descriptor for poll, of the reader's own. */
    int event()
    {
        int file = -1;
        check(rme_log_event(raw_.get(), &file));
        return file;
    }

    class iterator {
    public:
        using iterator_category = std::input_iterator_tag;
        using value_type = rme_message;
        using difference_type = std::ptrdiff_t;
        using pointer = const rme_message *;
        using reference = const rme_message &;

        explicit iterator(log_reader *reader) : reader_(reader) { ++*this; }
        reference operator*() const { return message_; }
        pointer operator->() const { return &message_; }
        iterator &operator++()
        {
            if (reader_ && !reader_->read(message_))
                reader_ = nullptr;
            return *this;
        }
        bool operator!=(const iterator &other) const { return reader_ != other.reader_; }
        bool operator==(const iterator &other) const { return reader_ == other.reader_; }

    private:
        log_reader *reader_;
        rme_message message_ = rme_message();
    };
    iterator begin() { return iterator(this); }
    iterator end() { return iterator(nullptr); }

private:
    struct close {
        void operator()(rme_log_reader *raw) const
        {
            rme_log_reader_close(raw);
            delete raw;
        }
    };
    std::unique_ptr<rme_log_reader, close> raw_;
};

} // namespace rme

#endif
