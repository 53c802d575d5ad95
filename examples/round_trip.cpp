// round_trip: a ramp, encoded and played, in C++17; and a clip of no samples, which is refused.
#include "doilycairn.h"
#include <algorithm>
#include <cstdint>
#include <cstdio>
#include <cstdlib>
#include <vector>

// A vector's elements as a call takes them: never NULL, which `data` of an empty vector may be.
template <class T> static T *lent(std::vector<T> &elements) {
    static T none{};
    return elements.empty() ? &none : elements.data();
}

template <class T> static const T *lent(const std::vector<T> &elements) {
    return lent(const_cast<std::vector<T> &>(elements));
}

// What a call gave, if it is a refusal: thrown, so that nothing goes on.
struct Refusal {
    std::uint32_t code;
    std::uint32_t entry; // with 20, 21 and 22 the block whose entry is bad
};

static void check(std::uint32_t code, std::uint32_t entry = 0) {
    if (code != DOILYCAIRN_ACCEPTED) throw Refusal{code, entry};
}

static std::vector<std::uint8_t> encode(const std::vector<std::int16_t> &clip) {
    const auto total = static_cast<std::uint32_t>(clip.size());
    std::vector<double> store(doilycairn_store_size(total));
    const auto processed = doilycairn_process(doilycairn_new(), lent(clip), clip.size(), lent(store), store.size());
    check(processed.code);
    const auto finished = doilycairn_finish(processed.calculator, lent(store), store.size());
    check(finished.code);

    std::vector<std::uint8_t> image(doilycairn_image_size(total, 256));
    const auto started = doilycairn_start(total, 32000, 256, 0, finished.coefficients, {0, 0}, lent(image), image.size());
    check(started.code);
    const auto fed = doilycairn_feed(started.encoder, lent(clip), clip.size(), lent(image), image.size());
    check(fed.code);
    check(doilycairn_close(fed.encoder, lent(image), image.size()).code);
    return image;
}

static std::vector<std::int16_t> play(const std::vector<std::uint8_t> &image) {
    const auto opened = doilycairn_open(lent(image), image.size());
    check(opened.code, opened.entry);
    std::vector<std::int16_t> out(opened.head.total);
    const auto played = doilycairn_play_all(lent(image), image.size(), lent(out), out.size());
    check(played.code, played.entry);
    return out;
}

// The code that encoding a clip is refused by, or 0.
static std::uint32_t refusal(const std::vector<std::int16_t> &clip) {
    try {
        encode(clip);
    } catch (const Refusal &refused) {
        return refused.code;
    }
    return DOILYCAIRN_ACCEPTED;
}

int main() {
    std::vector<std::int16_t> clip(5000);
    for (std::size_t i = 0; i < clip.size(); i++) clip[i] = static_cast<std::int16_t>(i * 3 % 2000);
    const auto played = play(encode(clip));
    int most = 0;
    for (std::size_t i = 0; i < clip.size(); i++) most = std::max(most, std::abs(clip[i] - played[i]));
    std::printf("%zu samples, played within %d of the original\n", played.size(), most);
    const auto none = refusal({});
    std::printf("no samples: refusal %u\n", static_cast<unsigned>(none));
    return played.size() == clip.size() && none == DOILYCAIRN_BAD_SAMPLE_COUNT ? 0 : 1;
}
