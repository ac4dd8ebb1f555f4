// The header from C++: a transfer between two ends, and memory that a C++ program gives.
#include <gotsavena.h>

#include <cstdlib>
#include <cstring>
#include <iostream>
#include <memory>

namespace {

struct Count {
  std::size_t blocks = 0;
};

void *allocate(void *context, std::size_t size, std::size_t) {
  ++static_cast<Count *>(context)->blocks;
  return std::malloc(size);
}

void release(void *context, void *at, std::size_t, std::size_t) {
  --static_cast<Count *>(context)->blocks;
  std::free(at);
}

using End = std::unique_ptr<gv_endpoint, decltype(&gv_endpoint_free)>;

End new_end(gv_role role, Count *count) {
  gv_settings settings;
  gv_limits limits = {};
  gv_allocator allocator = {};
  gv_endpoint *end = nullptr;
  limits.size = sizeof limits;
  allocator.size = sizeof allocator;
  allocator.context = count;
  allocator.allocate = allocate;
  allocator.release = release;
  if (gv_settings_init(&settings, sizeof settings) != GV_OK || gv_limits_of(&settings, &limits) != GV_OK) return {nullptr, gv_endpoint_free};
  if (gv_endpoint_new_with(role, &settings, &limits, &allocator, &end) != GV_OK) return {nullptr, gv_endpoint_free};
  return {end, gv_endpoint_free};
}

bool transfer(const End &client, const End &server) {
  std::uint64_t stream = 0;
  std::size_t count = 0;
  std::uint8_t payload[1200], bytes[16];
  gv_made made = {};
  made.size = sizeof made;
  const char text[] = "hello";
  std::memcpy(bytes, text, sizeof text);
  if (gv_open(client.get(), GV_DIR_BIDI, &stream, nullptr) != GV_OK) return false;
  if (gv_write(client.get(), stream, bytes, 5, &count) != GV_OK || count != 5) return false;
  if (gv_make_packet(client.get(), payload, sizeof payload, &made) != GV_OK) return false;
  if (gv_receive(server.get(), made.number, payload, made.len) != GV_OK) return false;
  return gv_read(server.get(), stream, bytes, sizeof bytes, &count, nullptr) == GV_OK && std::memcmp(bytes, text, count) == 0;
}

}  // namespace

int main() {
  Count count;
  {
    End client = new_end(GV_ROLE_CLIENT, &count), server = new_end(GV_ROLE_SERVER, &count);
    if (!client || !server || count.blocks < 2 || !transfer(client, server)) return 1;
  }
  std::cout << gv_version() << ' ' << gv_strerror(GV_OK) << '\n';
  return count.blocks == 0 && gv_version() == GV_VERSION ? 0 : 1;
}
