// A workload of crates/bench over a text of C++: it takes the same words, and prints the same sum.
// WORKLOAD is its word. The text is std::string, or that of LLVM (SMALL) or Boost (STATIC).
#include <algorithm>
#include <cstdint>
#include <cstdlib>
#include <cstring>
#include <iostream>
#include <iterator>
#include <limits>
#include <string>
#include <string_view>
#include <unordered_map>
#include <unordered_set>
#include <vector>
#if defined(SMALL)
#include <llvm/ADT/SmallString.h>
using Text = llvm::SmallString<30>;
#elif defined(STATIC)
#define BOOST_STATIC_STRING_STANDALONE
#include <boost/static_string/static_string.hpp>
using Text = boost::static_string<30>;
#else
using Text = std::string;
#endif

#define APART __attribute__((noinline))

using std::size_t;
using std::string_view;
using std::uint64_t;
using std::vector;

namespace {

// The hash that the Rattle side computes, so that both sides do the same work.
class Fold {
public:
    void write(const void *data, size_t len) {
        auto bytes = static_cast<const unsigned char *>(data);
        if (len <= 8) {
            state = folded(state ^ few(bytes, len), MULTIPLIER ^ (2 * len));
            return;
        }
        uint64_t sum = state + len;
        size_t at = 0;
        for (; len - at > 16; at += 16)
            sum = folded(eight(bytes + at) ^ sum, eight(bytes + at + 8) ^ MULTIPLIER);
        auto front = eight(bytes + (len < 16 ? 0 : len - 16)) ^ sum;
        state = folded(front, eight(bytes + len - 8) ^ MULTIPLIER);
    }
    uint64_t finish() const { return state; }

private:
    static constexpr uint64_t MULTIPLIER = 0x9e3779b97f4a7c15;
    uint64_t state = 0x243f6a8885a308d3;

    static uint64_t folded(uint64_t a, uint64_t b) {
        auto product = static_cast<unsigned __int128>(a) * b;
        return static_cast<uint64_t>(product) ^ static_cast<uint64_t>(product >> 64);
    }
    static uint64_t four(const unsigned char *bytes) {
        std::uint32_t read;
        std::memcpy(&read, bytes, 4);
        return read;
    }
    static uint64_t eight(const unsigned char *bytes) {
        uint64_t read;
        std::memcpy(&read, bytes, 8);
        return read;
    }
    static uint64_t few(const unsigned char *bytes, size_t len) {
        if (len >= 4)
            return four(bytes) | four(bytes + len - 4) << 32;
        if (len > 0)
            return bytes[0] | uint64_t{bytes[len / 2]} << 8 | uint64_t{bytes[len - 1]} << 16;
        return 0;
    }
};

struct Hash {
    size_t operator()(const Text &text) const {
        Fold fold;
        fold.write(text.data(), text.size());
        unsigned char end = 255;
        fold.write(&end, 1);
        return fold.finish();
    }
};

struct Task {
    string_view input;
    size_t width, rounds;
};

vector<string_view> words_of(const Task &task) {
    vector<string_view> words;
    if (task.width > 0) {
        for (size_t at = 0; at + task.width <= task.input.size(); at += task.width)
            words.push_back(task.input.substr(at, task.width));
        return words;
    }
    size_t start = 0;
    for (size_t at = 0; at <= task.input.size(); at++)
        if (at == task.input.size() || task.input[at] == ' ') {
            words.push_back(task.input.substr(start, at - start));
            start = at + 1;
        }
    return words;
}

vector<Text> texts_of(const Task &task) {
    vector<Text> texts;
    for (auto word : words_of(task))
        texts.emplace_back(word);
    return texts;
}

// A byte at a place that the compiler cannot foresee, so that the text has to be there.
APART uint64_t sink(const Text &text, size_t round) {
    size_t at = round & 31;
    return at < text.size() ? static_cast<unsigned char>(text[at]) : 7;
}

APART uint64_t equality_of(const Text &a, const Text &b) { return a == b ? 3 : 1; }

APART uint64_t order_of(const Text &a, const Text &b) {
    int order = a.compare(b);
    return order < 0 ? 3 : order == 0 ? 2 : 1;
}

APART uint64_t hash_of(const Text &text) { return Hash()(text); }

using Numbers = std::unordered_map<Text, size_t, Hash>;

APART uint64_t number_of(const Numbers &numbers, const Text &text) {
    auto found = numbers.find(text);
    return found == numbers.end() ? 7 : found->second;
}

uint64_t numbered(Numbers &numbers, const vector<string_view> &words, uint64_t sum) {
    for (auto word : words)
        sum = sum * 3 + numbers.try_emplace(Text(word), numbers.size()).first->second;
    return sum;
}

uint64_t without_first(Text &text) {
    if (text.empty())
        return 0;
    uint64_t removed = static_cast<unsigned char>(text[0]);
    text.erase(text.begin());
    return removed;
}

uint64_t without_last(Text &text) {
    if (text.empty())
        return 0;
    uint64_t removed = static_cast<unsigned char>(text.back());
    text.pop_back();
    return removed;
}

// The sum of what the body gives of each piece, round after round.
template <class Pieces, class Body>
uint64_t summed(const Task &task, const Pieces &pieces, Body body) {
    uint64_t sum = 0;
    for (size_t round = 0; round < task.rounds; round++)
        for (auto &piece : pieces)
            sum += body(piece, round);
    return sum;
}

// The same of a text that is made by the body of each word, or of an empty one.
template <class Body> uint64_t made(const Task &task, Body body) {
    return summed(task, words_of(task), [body](string_view word, size_t round) {
        Text text(word);
        uint64_t sum = body(text, word);
        return sum + sink(text, round);
    });
}

template <class Body> uint64_t filled(const Task &task, Body body) {
    return summed(task, words_of(task), [body](string_view word, size_t round) {
        Text text;
        body(text, word);
        return sink(text, round);
    });
}

// What is discarded is not compiled in a template: so no loop has calls out of line because another
// has them too.
template <class Text> uint64_t checksum(const Task &task) {
    constexpr string_view workload = WORKLOAD;
    if constexpr (workload == "read")
        return summed(task, texts_of(task), sink);
    if constexpr (workload == "from")
        return made(task, [](Text &, string_view) { return 0; });
    if constexpr (workload == "from_literal")
        return summed(task, vector{0}, [](int, size_t round) {
            Text text("foobar");
            return sink(text, round);
        });
    if constexpr (workload == "push_literal")
        return summed(task, vector{0}, [](int, size_t round) {
            Text text("foobar");
            text.append("foobar");
            return sink(text, round);
        });
    if constexpr (workload == "push_str")
        return filled(task, [](Text &text, string_view word) { text.append(word); });
    if constexpr (workload == "from_push_str")
        return made(task, [](Text &text, string_view word) {
            text.append(word);
            return 0;
        });
    if constexpr (workload == "push")
        return filled(task, [](Text &text, string_view word) {
            for (char ch : word)
                text.push_back(ch);
        });
    if constexpr (workload == "insert")
        return made(task, [](Text &text, string_view) {
            text.insert(text.begin(), 'x');
            return 0;
        });
    if constexpr (workload == "remove")
        return made(task, [](Text &text, string_view) { return without_first(text); });
    if constexpr (workload == "pop")
        return made(task, [](Text &text, string_view word) {
            uint64_t sum = 0;
            for (size_t i = 0; i < word.size(); i++)
                sum += without_last(text);
            return sum;
        });
    if constexpr (workload == "add")
        return summed(task, words_of(task), [](string_view word, size_t round) {
            Text text(word);
            text.append(word);
            Text joined(std::move(text));
            return sink(joined, round);
        });
    if constexpr (workload == "from_strs")
        return filled(task, [](Text &text, string_view word) {
            for (auto part : {word, string_view("foobar"), word})
                text.append(part);
        });
    if constexpr (workload == "clone")
        return summed(task, texts_of(task), [](const Text &text, size_t round) {
            Text copy(text);
            return sink(copy, round);
        });
    if constexpr (workload == "hash")
        return summed(task, texts_of(task), [](auto &text, size_t) { return hash_of(text); });
    if constexpr (workload == "eq" || workload == "cmp") {
        auto left = texts_of(task), right = texts_of(task);
        uint64_t sum = 0;
        for (size_t round = 0; round < task.rounds; round++)
            if constexpr (workload == "eq")
                for (size_t i = 0; i < left.size(); i++)
                    sum += equality_of(left[i], right[i]);
            else
                for (size_t i = 0; i + 1 < left.size(); i++)
                    sum += order_of(left[i], left[i + 1]);
        return sum;
    }
    if constexpr (workload == "look_up") {
        Numbers numbers;
        numbered(numbers, words_of(task), 0);
        return summed(task, texts_of(task),
                      [&](auto &text, size_t) { return number_of(numbers, text); });
    }
    auto words = words_of(task);
    uint64_t sum = 0;
    Text grown;
    for (size_t round = 0; round < task.rounds; round++) {
        if constexpr (workload == "sort") {
            auto texts = texts_of(task);
            auto is_less = [](auto &a, auto &b) { return a.compare(b) < 0; };
            std::sort(texts.begin(), texts.end(), is_less);
            for (auto &text : texts)
                sum = sum * 3 + sink(text, round);
        } else if constexpr (workload == "set") {
            std::unordered_set<Text, Hash> texts;
            for (auto word : words)
                sum += texts.insert(Text(word)).second;
        } else if constexpr (workload == "intern") {
            Numbers numbers;
            sum = numbered(numbers, words, sum);
        } else if constexpr (workload == "grow") {
            grown.push_back('a');
        } else if constexpr (workload == "fronts") {
            if (round == 0)
                grown.append(words[0]);
            grown.insert(grown.begin(), 'x');
            sum += sink(grown, round);
            sum += without_first(grown);
        } else
            std::exit(EXIT_FAILURE);
    }
    if constexpr (workload == "grow")
        sum += grown.size() + sink(grown, 0);
    if constexpr (workload == "fronts")
        sum += sink(grown, 0);
    return sum;
}

} // namespace

int main(int count, char **words) {
    if (count != 5)
        return EXIT_FAILURE;
    std::string read(std::istreambuf_iterator<char>(std::cin), {});
    Task task{read, std::strtoull(words[3], nullptr, 10), std::strtoull(words[4], nullptr, 10)};
    std::cout << checksum<Text>(task) << '\n';
}
