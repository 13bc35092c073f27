// Gibsumac from C++17: a receiver over gibsumac.h, which says what each struct and number means and what a caller owes and gets. Nothing is thrown: a
// refusal is the number that a function answers.
#ifndef GIBSUMAC_HPP
#define GIBSUMAC_HPP

#include <memory>

#include "gibsumac.h"

namespace gibsumac {

// A channel with its window memory, 67,504 bytes on the heap. Moved, not copied; a second receiver is opened, or made by clone().
class receiver {
  public:
    // Look at refusal() before anything else: where it is not 0 this is a one-frequency carrier channel of 1,000 Hz, or, with GIBSUMAC_OTHER_HEADER, nothing
    // that may be called.
    explicit receiver(const gibsumac_settings &settings) : held(new gibsumac_receiver), number(gibsumac_receiver_open(held.get(), settings)) {}

    uint64_t refusal() const { return number; }

    uint64_t assign(const gibsumac_carriers &carriers) { return gibsumac_receiver_assign(held.get(), carriers); }

    // The samples are left normalised. The answer's own refusal tells whether it is one.
    gibsumac_answer track(float *samples, size_t length) { return gibsumac_track(held.get(), samples, length); }

    gibsumac_answer track(float *first, size_t first_length, float *second, size_t second_length) {
        return gibsumac_track_two(held.get(), first, first_length, second, second_length);
    }

    // With a flag of the caller's, for whoever surveys the raw samples.
    gibsumac_answer block(uint64_t flag, float *first, size_t first_length, float *second = nullptr, size_t second_length = 0) {
        return gibsumac_receiver_block(held.get(), flag, first, first_length, second, second_length);
    }

    void release() { gibsumac_receiver_release(held.get()); }

    gibsumac_figures_of_bank figures() const { return gibsumac_receiver_figures(held.get()); }

    const gibsumac_channel &channel() const { return held->channel; }

    receiver clone() const { return receiver(*held, number); }

  private:
    receiver(const gibsumac_receiver &from, uint64_t refused) : held(new gibsumac_receiver(from)), number(refused) {}

    std::unique_ptr<gibsumac_receiver> held;
    uint64_t number;
};

} // namespace gibsumac
#endif
