// Two guests share a drive: each writes its block 5, and reads what it finds there. A small host in C++, with a class that owns the mediator.
#include <array>
#include <cstdint>
#include <cstdio>
#include <stdexcept>
#include <string>
#include <vector>

#include <nvmed.h>

static constexpr std::uint64_t admin_sq = 0x10000, admin_cq = 0x11000, io_cq = 0x12000, io_sq = 0x13000, guest_bytes = 0x20000, blocks = 64;

static void want(nvmed_status status, const char *what) {
    if (status != NVMED_OK) throw std::runtime_error(std::string(what) + ": answered " + std::to_string(status));
}

// A mediator, which is given back at the end of its scope. It is not copied, since its handle must not be.
class Mediator {
public:
    Mediator(const nvmed_sizes &sizes, const std::vector<std::uint32_t> &limits, const std::vector<nvmed_region> &regions,
             const std::vector<nvmed_extent> &extents) {
        want(nvmed_new(&handle, &sizes, limits.data(), limits.size(), regions.data(), regions.size(), extents.data(), extents.size()), "new");
    }
    Mediator(Mediator &&) = delete;
    ~Mediator() { nvmed_free(&handle); }

    template <typename Data> void store(std::uint32_t guest, std::uint64_t at, const Data &data) {
        want(nvmed_store(&handle, guest, at, data.data(), data.size() * sizeof *data.data()), "store");
    }
    template <typename Data> Data load(std::uint32_t guest, std::uint64_t at) {
        Data data{};
        want(nvmed_load(&handle, guest, at, data.data(), data.size() * sizeof *data.data()), "load");
        return data;
    }
    void set(std::uint32_t guest, std::uint32_t offset, std::uint32_t value) { want(nvmed_reg_write(&handle, guest, offset, value), "register"); }
    // A doorbell, and then all that is due.
    void ring(std::uint32_t guest, std::uint32_t offset, std::uint32_t value) {
        std::uint64_t done;
        want(nvmed_doorbell(&handle, guest, offset, value), "doorbell");
        want(nvmed_work(&handle, NVMED_OF_ALL, 0, 100000, &done), "work");
    }

private:
    nvmed handle = NVMED_INIT;
};

// A guest's driver, with one I/O queue pair of 16 slots. Entries are dwords of a little-endian machine.
class Guest {
public:
    Guest(Mediator &m, std::uint32_t number) : m(m), number(number) {
        m.store(number, admin_sq, Entry{0x05 | 1 << 16, 0, 0, 0, 0, 0, io_cq, 0, 0, 0, 15 << 16 | 1, 1});
        m.store(number, admin_sq + 64, Entry{0x01 | 2 << 16, 0, 0, 0, 0, 0, io_sq, 0, 0, 0, 15 << 16 | 1, 1 << 16 | 1});
        const std::uint32_t registers[][2] = {{0x24, 0x001f001f}, {0x28, admin_sq}, {0x30, admin_cq}, {0x14, 0x00460001}};
        for (const auto &[offset, value] : registers) m.set(number, offset, value);
        m.ring(number, 0x1000, 2);
        std::printf("guest %u: its queues are created with %x %x\n", number, status(admin_cq), status(admin_cq + 16));
    }
    // The first bytes of a block become these; the others are zero.
    void write(std::uint32_t block, const std::string &text) {
        m.store(number, 0x3000, text);
        std::printf("guest %u: Write of block %u: %x\n", number, block, command(0x01, 0x3000, block));
    }
    void read(std::uint32_t block) {
        const std::uint32_t answer = command(0x02, 0x4000, block);
        std::printf("guest %u: Read of block %u: %x, \"%s\"\n", number, block, answer, m.load<std::array<char, 512>>(number, 0x4000).data());
    }

private:
    using Entry = std::array<std::uint32_t, 16>;
    std::uint32_t command(std::uint32_t opcode, std::uint32_t memory, std::uint32_t block) {
        const std::uint32_t slot = sent++;
        m.store(number, io_sq + 64 * slot, Entry{opcode | slot << 16, 1, 0, 0, 0, 0, memory, 0, 0, 0, block});
        m.ring(number, 0x1008, sent);
        return status(io_cq + 16 * slot);
    }
    // The status of a completion that is there: its type, times 256, and its code.
    std::uint32_t status(std::uint64_t at) {
        const std::uint32_t last = m.load<std::array<std::uint32_t, 4>>(number, at)[3];
        return last >> 16 & 1 ? last >> 17 & 0x7ff : throw std::runtime_error("a command was not completed");
    }
    Mediator &m;
    std::uint32_t number, sent = 0;
};

int main() {
    std::printf("version %u.%u\n", nvmed_version() >> 16, nvmed_version() & 0xffff);
    Mediator m({0x1000000, 0x400000, 4096, 1}, {1024, 1024}, {{0, 0, 0x100000, guest_bytes}, {1, 0, 0x200000, guest_bytes}},
               {{0, 1000, blocks}, {1, 2000, blocks}});
    Guest first(m, 0), second(m, 1);
    first.write(5, "the first's");
    second.read(5);
    second.write(5, "the second's");
    first.read(5);
    second.read(5);
    second.read(blocks);
}
