/* A small mark-and-sweep heap in C++ over derrimas_finalizers.hpp: an object is a vector of words, a word is the number of an object, or 0. */
#include <cstdint>
#include <iostream>
#include <map>
#include <set>
#include <vector>
#include "derrimas_finalizers.hpp"

using derrimas::finalizers;

static constexpr std::uint64_t WEAK = std::uint64_t{1} << 32; /* words with this number or a higher one are outside of the heap, in `weak` */

/* An object has at most 16 words. Their numbers start at the object's own. */
struct heap {
    std::map<std::uint64_t, std::vector<std::uint64_t>> objects;
    std::map<std::uint64_t, std::uint64_t> weak;
    std::set<std::uint64_t> roots, marked;

    std::uint64_t alloc(std::vector<std::uint64_t> words)
    {
        std::uint64_t number = objects.empty() ? 16 : objects.rbegin()->first + 16;
        objects[number] = std::move(words);
        return number;
    }

    /* ---- the questions of a pass */

    bool is_marked(std::uint64_t object) const { return marked.count(object) == 1; }
    void mark_alone(std::uint64_t object) { marked.insert(object); }
    bool holder_is_marked(std::uint64_t word) const { return word >= WEAK || is_marked(word - word % 16); }
    void clear(std::uint64_t word) { (word >= WEAK ? weak[word] : objects[word - word % 16][word % 16]) = 0; }

    void mark(std::uint64_t object)
    {
        for (std::vector<std::uint64_t> stack = {object}; !stack.empty();) {
            auto found = objects.find(stack.back());
            stack.pop_back();
            if (found != objects.end() && marked.insert(found->first).second)
                stack.insert(stack.end(), found->second.begin(), found->second.end());
        }
    }

    void mark_children(std::uint64_t object, bool but_itself)
    {
        for (std::uint64_t word : objects[object])
            if (!but_itself || word != object)
                mark(word);
    }

    /* Marks, makes a pass, and frees the unmarked objects. */
    void collect(finalizers &finalizers)
    {
        marked.clear();
        for (std::uint64_t root : roots)
            mark(root);
        finalizers.roots(finalizers::root::held_objects, [this](std::uint64_t object) { mark(object); });
        finalizers.roots(finalizers::root::held_data, [this](std::uint64_t cd) { mark(cd); });
        auto passed = finalizers.pass(*this);
        std::size_t before = objects.size();
        for (auto it = objects.begin(); it != objects.end();)
            it = is_marked(it->first) ? std::next(it) : objects.erase(it);
        std::cout << "pass " << passed.pass << " queued " << passed.picked << ", reclaimed " << before - objects.size() << ", weak words " << weak[WEAK] << ' '
                  << weak[WEAK + 1] << '\n';
    }
};

int main()
{
    heap heap;
    finalizers finalizers;

    std::uint64_t child = heap.alloc({}), parent = heap.alloc({child});
    heap.roots = {parent};
    finalizers.register_object(parent, finalizers::kind::normal, 0, 100);
    finalizers.register_object(child, finalizers::kind::no_order, 0, 200);
    heap.weak = {{WEAK, child}, {WEAK + 1, child}};
    finalizers.link(finalizers::link_kind::short_link, WEAK, child);
    finalizers.link(finalizers::link_kind::long_link, WEAK + 1, child);
    heap.collect(finalizers);
    heap.roots.clear();
    do {
        heap.collect(finalizers);
    } while (finalizers.invoke([](auto &, const finalizers::entry &entry) { std::cout << "finalized " << entry.obj << " with " << entry.cd << '\n'; }));
    try {
        finalizers.register_object(0, finalizers::kind::normal, 0, 0);
    } catch (const derrimas::error &why) {
        std::cout << why.name() << ": " << why.what() << '\n';
    }
}
