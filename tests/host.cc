// A host in C++11 that keeps labels in a file, built by tests/hosts.sh with all warnings.
//
// host FILE        FILE must not exist: a register is made in it; exit status 1 and a message at the first thing that is
//                  not as the headers say
#include <cstdio>
#include <stdexcept>
#include <string>
#include <vector>

#include "zitskvoze.h"
#include "zitskvoze_file.h"

namespace {

class Register {
public:
    static void make(const std::string &name, std::size_t chunks)
    {
        Register r;
        done(zkv_file_new(&r.file, name.c_str(), chunks * ZKV_CHUNK_BYTES));
        r.run(zkv_format(&r.record, r.file.image, r.file.bytes, r.table.data(), r.table.size(), ZKV_POWER_SMALL, 0, 0, 0, 0));
        done(zkv_file_take_name(&r.file, nullptr));
    }

    explicit Register(const std::string &name) : Register()
    {
        done(zkv_file_open(&file, name.c_str(), ZKV_FILE_WRITE, zkv_file_wait{0, nullptr}));
        run(zkv_open(&record, file.image, file.bytes, table.data(), table.size()));
    }

    Register(const Register &) = delete;
    Register &operator=(const Register &) = delete;

    ~Register() { zkv_file_close(&file); }

    void put(std::uint64_t key, const std::string &label)
    {
        const std::uint8_t *value = reinterpret_cast<const std::uint8_t *>(label.data());
        run(zkv_put(&record, file.image, file.bytes, table.data(), table.size(), key, value, label.size()));
        run(zkv_commit(&record, file.image, file.bytes, table.data(), table.size()));
        done(zkv_file_confirm(&file));
    }

    std::string get(std::uint64_t key) const
    {
        std::uint64_t start, length;
        std::uint64_t number = zkv_look_up(&record, file.image, file.bytes, table.data(), table.size(), key, &start, &length);
        if (number != 0) {
            throw std::runtime_error(zkv_sentence(number));
        }
        return std::string(reinterpret_cast<const char *>(file.image + start), length);
    }

private:
    Register() : file(), record(), table(ZKV_TABLE_WORDS_MAX) { file.descriptor = -1; }

    static void done(const char *wrong)
    {
        if (wrong != nullptr) {
            throw std::runtime_error(wrong);
        }
    }

    void run(zkv_report r)
    {
        r = zkv_finish(&record, file.image, file.bytes, table.data(), table.size(), r, zkv_file_flush, zkv_file_fence, &file);
        if (r.kind != ZKV_END && r.kind != ZKV_OPENED) {
            throw std::runtime_error(zkv_sentence(r.first));
        }
    }

    zkv_file file;
    zkv_record record;
    std::vector<std::uint64_t> table;
};

}  // namespace

int main(int count, char **argument)
{
    try {
        const std::string name = count == 2 ? argument[1] : "", label("A+\0 450 ml", 10);
        Register::make(name, 4);
        Register(name).put(4711, label);
        if (Register(name).get(4711) != label) {
            throw std::runtime_error("the label does not come back");
        }
        try {
            Register(name).get(5);
        } catch (const std::runtime_error &e) {
            return std::string(e.what()) == zkv_sentence(ZKV_KEY_ABSENT) ? 0 : 1;
        }
        throw std::runtime_error("a label that was never put comes");
    } catch (const std::runtime_error &e) {
        std::fprintf(stderr, "host: %s\n", e.what());
        return 1;
    }
}
