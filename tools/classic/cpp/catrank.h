// As crates/capnp_classic/src/catrank.rt.
#pragma once
#include "catrank.capnp.h"
#include "random.h"

#include <algorithm>
#include <cstring>
#include <string>
#include <vector>

struct CatRank {
    using Request = SearchResultList;
    using Response = SearchResultList;

    uint64_t request(Random &random, SearchResultList::Builder root) {
        uint32_t count = random.below(1000), index = 0;
        uint64_t good = 0;
        for (auto result : root.initResults(count)) {
            result.setScore(1000.0 - index++);
            fillUrl(random, result);
            good += fillSnippet(random);
            result.setSnippet(capnp::Text::Reader(text.data(), text.size()));
        }
        return good;
    }

    void respond(SearchResultList::Reader request, SearchResultList::Builder response) {
        auto results = request.getResults();
        scored.clear();
        for (auto result : results) {
            scored.push_back({scoreOf(result), result});
        }
        std::sort(scored.begin(), scored.end(), [](auto &one, auto &other) { return one.score > other.score; });
        auto list = response.initResults(scored.size());
        for (size_t index = 0; index < scored.size(); index++) {
            auto result = list[index];
            result.setScore(scored[index].score);
            result.setUrl(scored[index].result.getUrl());
            result.setSnippet(scored[index].result.getSnippet());
        }
    }

    uint64_t said(SearchResultList::Reader response) {
        uint64_t good = 0;
        for (auto result : response.getResults()) {
            if (result.getScore() <= 1001.0) {
                break;
            }
            good++;
        }
        return good;
    }

  private:
    struct Scored {
        double score;
        SearchResult::Reader result;
    };

    // The url is written where it stays.
    static void fillUrl(Random &random, SearchResult::Builder result) {
        static const char FRONT[] = "http://example.com/";
        size_t front = sizeof FRONT - 1, letters = random.below(100);
        auto url = result.initUrl(front + letters);
        std::memcpy(url.begin(), FRONT, front);
        for (size_t index = 0; index < letters; index++) {
            url[front + index] = 'a' + random.below(26);
        }
    }

    bool fillSnippet(Random &random) {
        bool cat = random.below(8) == 0, dog = random.below(8) == 0;
        text.assign(" ");
        addWords(random);
        if (cat) {
            text.append("cat ");
        }
        if (dog) {
            text.append("dog ");
        }
        addWords(random);
        return cat && !dog;
    }

    void addWords(Random &random) {
        static const char *const WORDS[] = {"foo ",    "bar ",   "baz ",   "qux ",   "quux ",  "corge ", "grault ",
                                            "garply ", "waldo ", "fred ",  "plugh ", "xyzzy ", "thud "};
        for (uint32_t left = random.below(20); left > 0; left--) {
            text.append(WORDS[random.below(13)]);
        }
    }

    static double scoreOf(SearchResult::Reader result) {
        double score = result.getScore();
        auto snippet = result.getSnippet();
        if (hasWord(snippet, " cat ")) {
            score *= 10000.0;
        }
        if (hasWord(snippet, " dog ")) {
            score /= 10000.0;
        }
        return score;
    }

    // Whether these five bytes are in a text.
    static bool hasWord(kj::ArrayPtr<const char> text, const char (&word)[6]) {
        for (size_t at = 0; at + 5 <= text.size(); at++) {
            if (text[at] == word[0] && text[at + 1] == word[1] && text[at + 2] == word[2] && text[at + 3] == word[3] &&
                text[at + 4] == word[4]) {
                return true;
            }
        }
        return false;
    }

    std::vector<Scored> scored;
    std::string text;
};
