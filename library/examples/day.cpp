// The day of day.c in C++: a run that is closed when it goes out of scope, and the answers as text.
//     c++ day.cpp $(pkg-config --cflags --libs stnu)
#include <iostream>
#include <new>
#include <string>
#include <string_view>
#include <utility>

#include "stnu.h"

class Run {
  public:
    explicit Run(const char *command) : number(open(command)) {}
    Run(Run &&other) noexcept : number(std::exchange(other.number, 0)) {}
    Run &operator=(Run &&other) noexcept {
        std::swap(number, other.number);
        return *this;
    }
    ~Run() { stnu_close(number); }

    /* The answer to these lines. */
    std::string_view feed(std::string_view lines) {
        stnu_feed(number, lines.data(), lines.size());
        size_t size = 0;
        const char *answer = stnu_answer(number, &size);
        return {answer, size};
    }

    int state() const { return stnu_state(number); }

  private:
    static stnu open(const char *command) {
        const char *const words[] = {command, nullptr};
        stnu run = stnu_open(words);
        if (!run)
            throw std::bad_alloc();
        return run;
    }

    stnu number;
};

int main() {
    const std::string plan = "stnu 1\npoint leave\npoint arrive\npoint images\nlink leave 40 90 arrive\n"
                             "bound at-the-rock images arrive 0\nbound before-shadow arrive images 15\nend\n";
    Run day("run");
    std::cout << day.feed(plan);
    for (const char *line : {"at 0\n", "at 68 arrive\n", "done\n"})
        std::cout << "> " << line << day.feed(line);
    return day.state() == STNU_YES ? 0 : 1;
}
