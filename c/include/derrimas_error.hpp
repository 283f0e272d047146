/* derrimas_error.hpp: the exception that derrimas.hpp and derrimas_finalizers.hpp share. Programs include one of those. */
#ifndef DERRIMAS_ERROR_HPP
#define DERRIMAS_ERROR_HPP

#include <stdexcept>
#include <string>

namespace derrimas {

/* A call of either library was refused, and changed nothing. `what` is the sentence of its code. Each library has a class of its own, `derrimas::refused` and
 * `derrimas::finalizers::refused`, whose `why` is the code. */
class error : public std::runtime_error {
public:
    std::string name() const { return name_; }

protected:
    error(const char *name, const char *sentence) : std::runtime_error(sentence), name_(name) {}

private:
    const char *name_; /* the library's own text */
};

} // namespace derrimas

#endif
