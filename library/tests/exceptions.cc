// exceptions: C++ code around the calls throws, also while a session of another thread is in a call. `exceptions [handshake]`
#include <farmap.h>

#include <cstdio>
#include <stdexcept>
#include <string>
#include <thread>

static void check(bool is_so, const char *what) {
    if (!is_so) std::printf("not so: %s\n", what), std::exit(1);
}

// A user's wrapper, whose destructor gives the session back.
struct Session {
    farmap_session *session = nullptr;
    explicit Session(farmap *map) {
        if (farmap_session_open(map, &session) != FARMAP_OK) throw std::runtime_error("no session");
    }
    ~Session() { farmap_session_close(session); }
    std::string get(const char *key) {
        farmap_bytes value;
        farmap_status status = farmap_get(session, farmap_string(key), &value);
        if (status != FARMAP_OK) throw std::runtime_error(farmap_text(status));
        return std::string(static_cast<const char *>(value.data), value.length);
    }
};

int main(int count, char **words) {
    farmap_options options = {};
    options.memory = 32 << 20;
    options.sessions = 2;
    options.flags = count > 1 && std::string(words[1]) == "handshake" ? FARMAP_HANDSHAKE : 0;
    farmap *map;
    check(farmap_open(&options, &map, nullptr, 0) == FARMAP_OK, "opened");
    auto work = [&] {
        int caught = 0;
        for (int i = 0; i < 20000; i++) {
            try {
                Session session(map);
                check(farmap_put(session.session, farmap_string("a"), farmap_string("1"), nullptr) == FARMAP_OK, "put");
                check(session.get("a") == "1", "value");
                session.get("none");
            } catch (const std::runtime_error &) {
                caught++;
            }
        }
        check(caught == 20000, "each was caught");
    };
    std::thread one(work), other(work);
    one.join();
    other.join();
    check(farmap_close(map) == FARMAP_OK, "closed");
    std::printf("exceptions: as it should be\n");
}
