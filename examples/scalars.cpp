// Prints every scalar of a save with its kind, a line each: the calls from C++17.
//
//   c++ -std=c++17 -o scalars scalars.cpp $(pkg-config --cflags --libs tackacorn)
//   ./scalars < save.txt
#include <iostream>
#include <iterator>
#include <optional>
#include <stdexcept>
#include <string>
#include <string_view>
#include <tackacorn.h>
#include <vector>

// A text and its tape. The views are parts of the text, so it is not copied or moved.
class Save {
public:
    explicit Save(std::string bytes) : text(std::move(bytes)), tape(text.size() + TACKACORN_WORDS_PER_TOKEN) {
        std::size_t place = 0;
        std::uint32_t refusal = parse(place);
        if (refusal == TACKACORN_FULL) { // a word a byte was not enough: this is, for any text
            tape.resize(TACKACORN_WORDS_FOR(text.size()));
            refusal = parse(place);
        }
        if (refusal != TACKACORN_OK) {
            throw std::runtime_error("refused at byte " + std::to_string(place) + ": " + tackacorn_refusal_text(refusal));
        }
    }
    Save(const Save &) = delete;

    std::uint32_t tokens() const { return count; }

    // What a token is.
    std::uint32_t code(std::uint32_t index) const {
        std::uint32_t code = 0, a = 0, b = 0;
        tackacorn_token(tape.data(), tape.size(), count, index, &code, &a, &b);
        return code;
    }

    // The bytes of a token, none where it is no scalar.
    std::optional<std::string_view> scalar(std::uint32_t index) const {
        std::size_t offset = 0, size = 0;
        if (tackacorn_view(bytes(), text.size(), tape.data(), tape.size(), count, index, &offset, &size) != TACKACORN_OK) {
            return std::nullopt;
        }
        return std::string_view(text).substr(offset, size);
    }

private:
    const std::uint8_t *bytes() const { return reinterpret_cast<const std::uint8_t *>(text.data()); }
    std::uint32_t parse(std::size_t &place) {
        return tackacorn_parse(bytes(), text.size(), tape.data(), tape.size(), &count, &bom, &place);
    }

    const std::string text;
    std::vector<std::uint32_t> tape;
    std::uint32_t count = 0, bom = 0;
};

// What a scalar is called: a quoted one as such, another by its kind.
static const char *name(std::uint32_t code, std::string_view view) {
    static const char *const kinds[] = {"", "Bool", "Whole", "Decimal", "Name"};
    if (code == TACKACORN_QUOTED || code == TACKACORN_QUOTED_ESCAPE) {
        return code == TACKACORN_QUOTED ? "Quoted" : "QuotedEscape";
    }
    return kinds[tackacorn_kind(reinterpret_cast<const std::uint8_t *>(view.data()), view.size())];
}

int main() {
    try {
        const Save save(std::string(std::istreambuf_iterator<char>(std::cin), {}));
        for (std::uint32_t i = 0; i < save.tokens(); i++) {
            if (const auto view = save.scalar(i)) {
                std::cout << name(save.code(i), *view) << ' ' << *view << '\n';
            }
        }
    } catch (const std::exception &refused) {
        std::cerr << refused.what() << '\n';
        return 1;
    }
}
